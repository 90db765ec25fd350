//! The stack that the deepest books take.

use crate::books::costly;
use crate::timing::engine;
use cerealbank::{join, preview, Joined, PROJECT};
use compare::deepest::{deepest, Deep};
use compare::engines::Call;
use compare::extremes::extremes;
use compare::stack::taken;
use evaluator::{on_large_stack, TRAILER, WORK};

/// The thread's stack: far more than any engine takes.
const STACK: usize = 16 << 20;

/// The most stack that calls of the engine take on these books, in KiB, and the book that takes it.
fn most<'a>(does: impl Fn(&[u8]) + Sync, books: &[&'a Deep]) -> (usize, &'a str) {
    let bytes = taken(STACK, books, |deep: &&Deep| does(&deep.book)).into_iter().map(|bytes| bytes.div_ceil(1 << 10));
    bytes.zip(books.iter().map(|deep| deep.name.as_str())).max_by_key(|(bytes, _)| *bytes).expect("a book")
}

fn ask(calls: &[Call], book: &[u8]) {
    let mut work = vec![0; WORK];
    calls.iter().for_each(|&call| {
        engine(call, book, &mut work);
    });
}

/// A book as the project, and as the part. The other is the top value, of version 2.
fn both_ways(book: &[u8], call: fn(&mut [u8], usize, &[u8], &mut [u8]) -> Joined) {
    let (mut project, mut work) = (vec![0; PROJECT], vec![0; WORK]);
    let top = [18, 0, 0, 0, 0, 0, 0, 0, TRAILER, 2, 1, 0, 0, 0, 0, 0];
    for (one, part) in [(book, &top[..]), (&top, book)] {
        let held = one.len().min(PROJECT);
        project[..held].copy_from_slice(&one[..held]);
        call(&mut project, one.len(), part, &mut work);
    }
}

fn books() -> Vec<Deep> {
    let costly = costly().into_iter().map(|(name, book)| Deep { group: "costly", name, book });
    let others = extremes().into_iter().enumerate().map(|(n, book)| Deep { group: "extremes", name: n.to_string(), book });
    deepest().into_iter().chain(costly).chain(others).collect()
}

pub fn stack(title: &str) {
    crate::head(title, "books, how many, check KiB, run KiB, the run that takes most, join KiB, preview KiB");
    let books = on_large_stack(books);
    let runs = [0, 1, 2, 3, 10, 10_000].map(|limit| Call::Run { limit });
    for group in books.chunk_by(|one, other| one.group == other.group) {
        let group: Vec<&Deep> = group.iter().collect();
        let (check, _) = most(|book| ask(&[Call::Check], book), &group);
        let (run, name) = most(|book| ask(&runs, book), &group);
        let (joined, _) = most(|book| both_ways(book, join), &group);
        let (previewed, _) = most(|book| both_ways(book, |p, length, part, work| preview(p, length, part, work)), &group);
        println!("| {} | {} | {check} | {run} | {name} | {joined} | {previewed} |", group[0].group, group.len());
    }
}
