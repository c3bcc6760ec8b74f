//! Chains of held edges, through the safe functions: which one is written, what is left alone, and the order of refusals.

use keshtiwol::*;

/// Tables with vertices that are new and edges, cycles among them or not, and a tally to go with them.
#[derive(Clone, PartialEq, Debug)]
struct Lent {
    vertices: Vec<u32>,
    edges: Vec<u32>,
    tally: Tally,
}

const UNTOUCHED: u32 = 0xFFFF_FF00;

impl Lent {
    fn new(made: usize, edges: &[[u32; EDGE_WORDS]]) -> Lent {
        let mut vertices = vec![0; VERTEX_WORDS * made];
        for row in vertices.chunks_mut(VERTEX_WORDS) {
            row[STATUS] = VERTEX_NEW;
        }
        Lent { vertices, edges: edges.concat(), tally: Tally { made: made as u32, held: edges.len() as u32, steps: 0 } }
    }

    /// The chain in a list of so many words, or the refusal's number. No other word of the list may change, nor one behind it.
    fn chain_in(&self, words: usize, source: u32, target: u32) -> Result<Vec<u32>, u32> {
        let mut list = vec![UNTOUCHED; words + 4];
        let answer = chain(&self.vertices, &self.edges, &self.tally, source, target, &mut list[..words]);
        let (written, answer) = match answer {
            Chain::Written(vertices) => (vertices as usize, Ok(list[..vertices as usize].to_vec())),
            Chain::Refused { number, place: 0 } => (0, Err(number)),
            Chain::Refused { .. } => panic!("{answer:?}"),
        };
        assert!(list[written..].iter().all(|&word| word == UNTOUCHED), "{answer:?} left {list:?}");
        answer
    }

    fn chain(&self, source: u32, target: u32) -> Result<Vec<u32>, u32> {
        self.chain_in(ROWS, source, target)
    }
}

#[test]
fn of_equal_chains_the_first_in_vertex_numbers() {
    // They differ at the third vertex of four; the order of the rows does not matter.
    let late = Lent::new(7, &[[6, 1], [1, 5], [1, 4], [5, 0], [4, 0]]);
    assert_eq!(late.chain(0, 6), Ok(vec![6, 1, 4, 0]));
    let late = Lent::new(7, &[[6, 1], [1, 4], [1, 5], [4, 0], [5, 0]]);
    assert_eq!(late.chain(0, 6), Ok(vec![6, 1, 4, 0]));
    // They differ at the last but one of seven.
    let later = Lent::new(9, &[[8, 7], [7, 6], [6, 5], [5, 4], [4, 3], [4, 2], [3, 0], [2, 0]]);
    assert_eq!(later.chain(0, 8), Ok(vec![8, 7, 6, 5, 4, 2, 0]));
    // The first vertex that differs decides, though the one behind it is higher.
    let crossed = Lent::new(7, &[[0, 2], [0, 1], [2, 3], [1, 5], [3, 6], [5, 6]]);
    assert_eq!(crossed.chain(6, 0), Ok(vec![0, 1, 5, 6]));
}

#[test]
fn a_shorter_chain_comes_first_whatever_its_numbers() {
    let lent = Lent::new(8, &[[3, 0], [0, 1], [1, 2], [3, 7], [7, 2], [3, 4], [4, 5], [5, 2]]);
    assert_eq!(lent.chain(2, 3), Ok(vec![3, 7, 2]));
    // Nothing is shorter than one edge, and an edge held twice is as good as one.
    let lent = Lent::new(3, &[[2, 0], [0, 1], [2, 1], [2, 1]]);
    assert_eq!(lent.chain(1, 2), Ok(vec![2, 1]));
}

#[test]
fn a_vertex_alone_is_the_chain_to_itself() {
    // On a loop, on a cycle, on both, and without an edge.
    let lent = Lent::new(5, &[[0, 0], [1, 2], [2, 1], [3, 3], [3, 1], [1, 3]]);
    for vertex in 0..5 {
        assert_eq!(lent.chain_in(1, vertex, vertex), Ok(vec![vertex]));
        assert_eq!(lent.chain_in(0, vertex, vertex), Err(refusal::LIST_TOO_SHORT));
    }
    // Loops and cycles on the way are not gone round.
    assert_eq!(lent.chain(2, 3), Ok(vec![3, 1, 2]));
    assert_eq!(lent.chain(0, 1), Err(refusal::NO_CHAIN));
}

#[test]
fn a_chain_of_1024_vertices() {
    let forwards: Vec<_> = (0..1023).map(|vertex| [vertex, vertex + 1]).collect();
    let backwards: Vec<_> = (0..1023).map(|vertex| [vertex + 1, vertex]).collect();
    let up: Vec<u32> = (0..1024).collect();
    let down: Vec<u32> = (0..1024).rev().collect();
    for (edges, source, target, all) in [(forwards, 1023, 0, up), (backwards, 0, 1023, down)] {
        for edges in [edges.clone(), edges.into_iter().rev().collect()] {
            let lent = Lent::new(ROWS, &edges);
            assert_eq!(lent.chain_in(ROWS, source, target).as_ref(), Ok(&all));
            assert_eq!(lent.chain_in(ROWS + 5, source, target).as_ref(), Ok(&all));
            assert_eq!(lent.chain_in(ROWS - 1, source, target), Err(refusal::LIST_TOO_SHORT));
            assert_eq!(lent.chain(target, source), Err(refusal::NO_CHAIN));
        }
    }
}

#[test]
fn a_list_exactly_long_enough_and_one_short() {
    let lent = Lent::new(5, &[[4, 2], [2, 0], [0, 3], [3, 1]]);
    assert_eq!(lent.chain_in(5, 1, 4), Ok(vec![4, 2, 0, 3, 1]));
    assert_eq!(lent.chain_in(9, 1, 4), Ok(vec![4, 2, 0, 3, 1]));
    for words in 0..5 {
        assert_eq!(lent.chain_in(words, 1, 4), Err(refusal::LIST_TOO_SHORT));
    }
}

#[test]
fn refusals_in_their_order() {
    let sound = Lent::new(3, &[[0, 1], [1, 2]]);
    let spoil: [fn(&mut Lent); 9] = [
        |lent| lent.tally.made = 4,
        |lent| lent.tally.made = u32::MAX,
        |lent| lent.tally.held = 3,
        |lent| lent.tally.held = u32::MAX,
        |lent| lent.vertices[STATUS] = 0,
        |lent| lent.vertices[2 * VERTEX_WORDS + STATUS] = 5,
        |lent| lent.edges[SOURCE] = 3,
        |lent| lent.edges[EDGE_WORDS + TARGET] = u32::MAX,
        |lent| lent.tally.made = 2,
    ];
    for spoil in spoil {
        let mut lent = sound.clone();
        spoil(&mut lent);
        // Whatever else there is to refuse: a vertex that is not there, no chain, no room.
        for (source, target) in [(2, 0), (7, 0), (0, u32::MAX), (0, 2)] {
            assert_eq!(lent.chain_in(0, source, target), Err(refusal::UNSOUND_TABLES));
            assert_eq!(lent.chain(source, target), Err(refusal::UNSOUND_TABLES));
        }
    }
    for (source, target) in [(3, 0), (0, 3), (3, 3), (u32::MAX, 2), (2, u32::MAX), (0x2492_4925, 0)] {
        assert_eq!(sound.chain_in(0, source, target), Err(refusal::NO_SUCH_VERTEX));
        assert_eq!(sound.chain(source, target), Err(refusal::NO_SUCH_VERTEX));
    }
    assert_eq!(sound.chain_in(0, 0, 2), Err(refusal::NO_CHAIN));
    assert_eq!(sound.chain(0, 2), Err(refusal::NO_CHAIN));
    assert_eq!(sound.chain_in(2, 2, 0), Err(refusal::LIST_TOO_SHORT));
    assert_eq!(sound.chain(2, 0), Ok(vec![0, 1, 2]));
}

#[test]
fn what_is_not_looked_at() {
    // The steps; statuses, as long as they are ones; rows that are not made or held; rows past the first 1,024.
    let mut lent = Lent::new(5, &[[0, 1], [1, 2], [9, 9], [2, 3]]);
    (lent.tally.made, lent.tally.held, lent.tally.steps) = (4, 2, u32::MAX);
    lent.vertices[4 * VERTEX_WORDS + STATUS] = 77;
    for status in [VERTEX_NEW, VERTEX_RELEASED, VERTEX_EXECUTING, VERTEX_FINISHED] {
        for vertex in 0..4 {
            lent.vertices[VERTEX_WORDS * vertex + STATUS] = status;
        }
        assert_eq!(lent.chain(2, 0), Ok(vec![0, 1, 2]));
        assert_eq!(lent.chain(3, 0), Err(refusal::NO_CHAIN));
        assert_eq!(lent.chain(4, 0), Err(refusal::NO_SUCH_VERTEX));
    }
    let mut long = Lent::new(ROWS + 2, &vec![[1, 0]; ROWS + 2]);
    assert_eq!(long.chain(0, 1), Err(refusal::UNSOUND_TABLES));
    (long.tally.made, long.tally.held) = (1024, 1024);
    assert_eq!(long.chain(0, 1), Ok(vec![1, 0]));
    assert_eq!(long.chain(1023, 1023), Ok(vec![1023]));
    assert_eq!(long.chain(1024, 0), Err(refusal::NO_SUCH_VERTEX));
    // Nothing made and nothing held is sound; tables of no words and a list of none can be lent.
    let nothing = Lent::new(0, &[]);
    assert_eq!(nothing.chain_in(0, 0, 0), Err(refusal::NO_SUCH_VERTEX));
}

/// A newEdge, where the edge is not held already, and a transfer are refused with 35 exactly where there is a chain.
#[test]
fn the_loop_behind_a_refusal() {
    let mut lent = Lent::new(6, &[]);
    lent.vertices[STATUS] = VERTEX_EXECUTING;
    lent.edges = vec![0; 9 * EDGE_WORDS];
    let call = |lent: &mut Lent, what| command(&mut lent.vertices, &mut lent.edges, &mut lent.tally, what);
    let refused = Answer::Refused { number: refusal::CLOSES_CYCLE, place: 0 };
    for [source, target] in [[0, 4], [4, 2], [2, 5], [5, 3]] {
        assert_eq!(lent.chain(source, target), Err(refusal::NO_CHAIN));
        assert_eq!(call(&mut lent, Command::NewEdge { caller: 0, source, target }), Answer::Edge(source, target));
    }
    assert_eq!(call(&mut lent, Command::NewEdge { caller: 0, source: 3, target: 4 }), refused);
    assert_eq!(lent.chain(3, 4), Ok(vec![4, 2, 5, 3]));
    assert_eq!(call(&mut lent, Command::NewEdge { caller: 0, source: 1, target: 1 }), refused);
    assert_eq!(lent.chain(1, 1), Ok(vec![1]));
    assert_eq!(call(&mut lent, Command::Transfer { caller: 0, vertex: 3 }), refused);
    assert_eq!(lent.chain(3, 0), Ok(vec![0, 4, 2, 5, 3]));
    assert_eq!(lent.chain(1, 0), Err(refusal::NO_CHAIN));
    assert_eq!(call(&mut lent, Command::Transfer { caller: 0, vertex: 1 }), Answer::Transfer(1));
    assert_eq!(lent.chain(3, 0), Err(refusal::NO_CHAIN));
    assert_eq!(lent.chain(3, 1), Ok(vec![1, 4, 2, 5, 3]));
}
