//! Where the boxes of a picture stand. Arrows lead from left to right: a vertex's column is told by the longest path that leads on from
//! it, and the vertices that wait for the same one stand beneath each other, to the left of it. Vertices without an edge stand below.
//!
//! Each vertex is hung on one of those that wait for it, in the next column. What hangs together takes rows of its own, so no two boxes
//! meet. Where one vertex at the most waits for each, as in a loaded program without forces, all edges are drawn that way, and no two
//! arrows cross.

use std::collections::VecDeque;

/// A box's column, and its height in parts of a row.
#[derive(Clone, Copy, Debug, Default, PartialEq, Eq)]
pub struct Spot {
    pub column: usize,
    pub height: usize,
}

/// Parts of a row.
pub const ROW: usize = 1000;

/// The columns used where there are vertices without an edge, at the least.
const COLUMNS: usize = 3;

pub struct Layout {
    /// By vertex number.
    pub spots: Vec<Spot>,
    pub columns: usize,
    pub rows: usize,
}

/// Places so many vertices with these edges, which close no cycle. The time grows with both.
pub fn layout(vertices: usize, edges: &[(usize, usize)]) -> Layout {
    let paths = longest_paths(vertices, edges);
    let mut hung_on: Vec<Option<usize>> = vec![None; vertices];
    for &(source, target) in edges {
        if paths[source] == paths[target] + 1 && hung_on[source].is_none() {
            hung_on[source] = Some(target);
        }
    }
    let mut hanging = vec![Vec::new(); vertices];
    for (vertex, target) in hung_on.iter().enumerate() {
        if let &Some(target) = target {
            hanging[target].push(vertex);
        }
    }

    let mut has_edge = vec![false; vertices];
    for &(source, target) in edges {
        (has_edge[source], has_edge[target]) = (true, true);
    }
    let ends = (0..vertices).filter(|&vertex| has_edge[vertex] && hung_on[vertex].is_none());
    let order = downwards(ends.collect(), &hanging);

    let last = paths.iter().max().copied().unwrap_or(0);
    let mut spots = vec![Spot::default(); vertices];
    let mut rows = 0;
    for &vertex in &order {
        spots[vertex].column = last - paths[vertex];
        if hanging[vertex].is_empty() {
            spots[vertex].height = ROW * rows;
            rows += 1;
        }
    }
    // From the left on, so that a vertex comes behind all that hang on it and can stand midway between them.
    for &vertex in order.iter().rev() {
        if let (Some(&first), Some(&last)) = (hanging[vertex].first(), hanging[vertex].last()) {
            spots[vertex].height = (spots[first].height + spots[last].height) / 2;
        }
    }

    let alone: Vec<usize> = (0..vertices).filter(|&vertex| !has_edge[vertex]).collect();
    let columns = if alone.is_empty() { last + 1 } else { (last + 1).max(COLUMNS).max((alone.len() / 3).isqrt()) };
    for (index, &vertex) in alone.iter().enumerate() {
        spots[vertex] = Spot { column: index % columns, height: ROW * (rows + index / columns) };
    }
    Layout { spots, columns, rows: rows + alone.len().div_ceil(columns) }
}

/// For each vertex how many edges the longest path has that leads on from it.
fn longest_paths(vertices: usize, edges: &[(usize, usize)]) -> Vec<usize> {
    let mut sources = vec![Vec::new(); vertices];
    let mut open = vec![0; vertices];
    for &(source, target) in edges {
        sources[target].push(source);
        open[source] += 1;
    }
    let mut paths = vec![0; vertices];
    let mut known: VecDeque<usize> = (0..vertices).filter(|&vertex| open[vertex] == 0).collect();
    while let Some(target) = known.pop_front() {
        for &source in &sources[target] {
            paths[source] = paths[source].max(paths[target] + 1);
            open[source] -= 1;
            if open[source] == 0 {
                known.push_back(source);
            }
        }
    }
    paths
}

/// The ends and all that hang on them, each ahead of those that hang on it, and what hangs together without a break.
fn downwards(ends: Vec<usize>, hanging: &[Vec<usize>]) -> Vec<usize> {
    let mut order = Vec::new();
    let mut left: Vec<usize> = ends.into_iter().rev().collect();
    while let Some(vertex) = left.pop() {
        order.push(vertex);
        left.extend(hanging[vertex].iter().rev());
    }
    order
}

#[cfg(test)]
mod tests {
    use super::*;

    /// No two boxes meet, and every arrow leads to the right.
    fn checked(vertices: usize, edges: &[(usize, usize)]) -> Layout {
        let layout = layout(vertices, edges);
        let mut spots = layout.spots.clone();
        spots.sort_by_key(|spot| (spot.column, spot.height));
        for pair in spots.windows(2) {
            assert!(pair[0].column < pair[1].column || pair[0].height + ROW <= pair[1].height, "{pair:?}");
        }
        for spot in &spots {
            assert!(spot.column < layout.columns && spot.height + ROW <= ROW * layout.rows, "{spot:?}");
        }
        for &(source, target) in edges {
            assert!(layout.spots[source].column < layout.spots[target].column);
        }
        layout
    }

    fn at(column: usize, height: usize) -> Spot {
        Spot { column, height }
    }

    #[test]
    fn one_edge() {
        assert_eq!(checked(2, &[(0, 1)]).spots, [at(0, 0), at(1, 0)]);
    }

    #[test]
    fn sources_stand_beneath_each_other_and_the_target_midway() {
        let layout = checked(6, &[(2, 1), (4, 2), (5, 2)]);
        assert_eq!(layout.spots, [at(0, 2 * ROW), at(2, ROW / 2), at(1, ROW / 2), at(1, 2 * ROW), at(0, 0), at(0, ROW)]);
        assert_eq!((layout.columns, layout.rows), (3, 3));
    }

    #[test]
    fn a_short_way_beside_a_long_one() {
        // 2 waits for nothing but is close to the end; 5 hangs on what is furthest from it, though an edge leads past that.
        let layout = checked(6, &[(2, 1), (3, 1), (4, 3), (5, 1), (5, 4)]);
        assert_eq!(layout.spots[1].column, 3);
        assert_eq!(layout.spots[2].column, 2);
        assert_eq!(layout.spots[5], at(0, layout.spots[4].height));
    }

    #[test]
    fn nothing_and_nothing_but_vertices() {
        assert_eq!(checked(0, &[]).rows, 0);
        let layout = checked(1024, &[]);
        assert_eq!((layout.columns, layout.rows), (18, 57));
    }

    #[test]
    fn large_graphs() {
        let star: Vec<_> = (2..1024).map(|source| (source, 1)).collect();
        assert_eq!(checked(1024, &star).rows, 1023);
        let path: Vec<_> = (0..1023).map(|source| (source, source + 1)).collect();
        assert_eq!((checked(1024, &path).columns, checked(1024, &path).rows), (1024, 1));
        let tree: Vec<_> = (1..1024).map(|source| (source, source / 2)).collect();
        assert_eq!((checked(1024, &tree).columns, checked(1024, &tree).rows), (11, 512));
        // Not a tree: the edges of a ladder.
        let ladder: Vec<_> = (0..1021).flat_map(|source| [(source, source + 1), (source, source + 3)]).collect();
        checked(1024, &ladder);
    }
}
