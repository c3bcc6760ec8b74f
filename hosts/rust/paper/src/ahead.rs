//! "Which job comes ahead", with futures, in the customer's words. Every reading of a force is gone through, one by one.

use std::collections::BTreeSet;
use std::rc::Rc;

use crate::read::Item;
use crate::steps::Book;
use crate::Edition;

/// The pairs of jobs, told apart by offset, of which the first comes ahead of the second. None in a program that reading refuses.
///
/// Where futures force earlier ones twice, the readings double with each of them, and so does the time.
pub fn ahead(program: &[u8]) -> BTreeSet<(usize, usize)> {
    // The order is the same in both editions, and the second refuses fewer programs.
    let book = Book::new(program, Edition::Second);
    let mut found = Vec::new();
    roads(&body(&book, 0, Vec::new()), true, &mut Vec::new(), &mut found);
    let mut pairs = BTreeSet::new();
    // "Then p is ahead of q if the old rule says so with q at its own place and p at its own or in such a reading."
    for q in found.iter().filter(|q| q.own) {
        pairs.extend(found.iter().filter(|p| old_rule(p, q)).map(|p| (p.job, q.job)));
    }
    pairs
}

type Body = Rc<Vec<Tree>>;

enum Tree {
    /// With its offset.
    Job(usize),
    Async(Body),
    Finish(Body),
    Fork(Body, Body),
    Future(Body),
    /// With the body of the future that it names.
    Force(Body),
}

/// The body that starts at a place, where these futures are open, the nearest last.
fn body(book: &Book, mut at: usize, mut open: Vec<Body>) -> Body {
    let mut trees = Vec::new();
    // Nothing stands at the place 0 of a program that reading refuses.
    while let Some(item) = book.item(at as u32) {
        let inner = |place| body(book, place, open.clone());
        let (tree, past) = match item {
            Item::Job { past, .. } => (Tree::Job(at), past),
            Item::Async { past } => (Tree::Async(inner(at + 1)), past),
            Item::Finish { past } => (Tree::Finish(inner(at + 1)), past),
            Item::Fork { right, past } => (Tree::Fork(inner(at + 1), inner(right.into())), past),
            // "A future is open after its item, to the end of its body and in bodies inside later items."
            Item::Future { past } => {
                let future = inner(at + 1);
                open.push(future.clone());
                (Tree::Future(future), past)
            }
            // "0 for the nearest future open there"
            Item::Force { number, past } => (Tree::Force(open[open.len() - 1 - usize::from(number)].clone()), past),
            Item::End => break,
        };
        trees.push(tree);
        at = past.into();
    }
    Rc::new(trees)
}

/// An item on the way down to a job.
#[derive(Clone, Copy, PartialEq)]
enum On {
    Job,
    Async,
    /// A finish, or a force, which "is read as a finish around its future's body".
    Finish,
    Fork,
    /// "a future on the way counts as an async that no finish closes"
    Future,
}

/// One item of a way: its number in its body, and the number of the body in it that the way takes.
type Turn = (usize, usize, On);

/// A place where a job stands: its own, or one in a reading of forces.
struct Road {
    job: usize,
    own: bool,
    way: Vec<Turn>,
}

/// All roads to jobs of a body, "forces inside it likewise".
fn roads(body: &[Tree], own: bool, way: &mut Vec<Turn>, found: &mut Vec<Road>) {
    for (at, tree) in body.iter().enumerate() {
        let mut down = |branch, on, body: &Body, own| {
            way.push((at, branch, on));
            roads(body, own, way, found);
            way.pop();
        };
        match tree {
            Tree::Job(job) => {
                let way = [&way[..], &[(at, 0, On::Job)]].concat();
                found.push(Road { job: *job, own, way });
            }
            Tree::Async(body) => down(0, On::Async, body, own),
            Tree::Finish(body) => down(0, On::Finish, body, own),
            Tree::Fork(left, right) => {
                down(0, On::Fork, left, own);
                down(1, On::Fork, right, own);
            }
            Tree::Future(body) => down(0, On::Future, body, own),
            Tree::Force(body) => down(0, On::Finish, body, false),
        }
    }
}

/// "Take the innermost body with both jobs in different items, p in the earlier. p is ahead of q if each async on the way from that
/// earlier item (itself counted) down to p has a finish above it on that way."
fn old_rule(p: &Road, q: &Road) -> bool {
    let Some(parting) = p.way.iter().zip(&q.way).position(|(p, q)| (p.0, p.1) != (q.0, q.1)) else {
        return false;
    };
    // "two branches of a fork aren't" ordered: they are in the same item.
    if p.way[parting].0 >= q.way[parting].0 {
        return false;
    }
    let mut finish_above = false;
    for &(_, _, on) in &p.way[parting..] {
        match on {
            On::Future => return false,
            On::Async if !finish_above => return false,
            On::Finish => finish_above = true,
            _ => {}
        }
    }
    true
}
