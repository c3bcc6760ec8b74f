//! Note 2, "Show me the loop": the way from a target back to a source.

use crate::graph::{View, MOST_ROWS};

/// The edges to the source of a vertex from which no way was found.
const FAR: u16 = u16::MAX;

/// "the shortest chain of held edges that leads from target back to source"
pub(crate) struct Way {
    vertices: usize,
    /// For each vertex of the chain but the last the one after it.
    onward: [u16; MOST_ROWS],
}

impl Way {
    /// "answer how many vertices it has"
    pub fn vertices(&self) -> usize {
        self.vertices
    }

    /// Writes the chain "vertex by vertex" into as many words as it has vertices.
    pub fn write(&self, target: u32, list: &mut [u32]) {
        let mut vertex = target;
        for word in list {
            *word = vertex;
            vertex = u32::from(self.onward[vertex as usize]);
        }
    }
}

impl View<'_> {
    /// The way from one made vertex back to another, on sound tables, if there is one. Linear in the rows and the edges, also where
    /// they hold a cycle.
    ///
    /// It looks from the source against the edges, at nearer vertices before farther ones, and notes for each vertex the lowest of
    /// those one edge nearer to which it has an edge. To follow these notes is the shortest way, and "the first in vertex numbers":
    /// wherever another way of that length leaves it first, it goes on to a higher vertex.
    pub fn way_back(&self, source: u32, target: u32) -> Option<Way> {
        let (source, target) = (source as usize, target as usize);
        let edges = self.held();
        // The edges into each vertex as a list of row numbers plus one, 0 at its end.
        let mut first = [0u16; MOST_ROWS];
        let mut next = [0u16; MOST_ROWS];
        for (row, edge) in edges.iter().enumerate() {
            let head = &mut first[edge[1] as usize];
            next[row] = *head;
            *head = row as u16 + 1;
        }
        let mut distance = [FAR; MOST_ROWS];
        let mut onward = [0u16; MOST_ROWS];
        // The vertices found, in the order of their distance; each is found once.
        let mut found = [0u16; MOST_ROWS];
        distance[source] = 0;
        found[0] = source as u16;
        let (mut count, mut looked_at) = (1, 0);
        while looked_at < count {
            let near = found[looked_at];
            let edges_left = distance[near as usize];
            // All vertices nearer than the target were looked at, so its note and theirs are the last.
            if edges_left == distance[target] {
                return Some(Way { vertices: usize::from(edges_left) + 1, onward });
            }
            looked_at += 1;
            let mut link = first[near as usize];
            while link != 0 {
                let row = link as usize - 1;
                let from = edges[row][0] as usize;
                if distance[from] == FAR {
                    distance[from] = edges_left + 1;
                    onward[from] = near;
                    found[count] = from as u16;
                    count += 1;
                } else if distance[from] == edges_left + 1 {
                    onward[from] = onward[from].min(near);
                }
                link = next[row];
            }
        }
        None
    }
}
