//! Runs: whole ones, watched ones, and one step after the other. The library takes every step.

use crate::ask::{run, Ran, Refusal, Stop};
use crate::book::{Book, Part};
use std::collections::HashMap;
use std::time::{Duration, Instant};

/// A count of steps in words.
pub fn steps(count: u32) -> String {
    format!("{count} step{}", if count == 1 { "" } else { "s" })
}

/// A watched run is asked for in parts that are doubled until one takes this long.
const LONG: Duration = Duration::from_millis(100);

/// Runs a book in parts, each from where the last one stopped: the first has so many steps, and `next`, told the run so far, says how many
/// the next has. What is laid down after some steps is a book, and goes on as the run would have gone on: the answer is that of a whole run.
/// A part's first term is the last of the part before, so the largest term is the largest of any part.
pub fn in_parts(book: &[u8], limit: u32, first: u32, mut next: impl FnMut(&Ran) -> u32) -> Result<Ran, Refusal> {
    let mut part = first;
    let mut so_far = Ran { stop: Stop::Spent, steps: 0, mark: 0, left: book.to_vec() };
    loop {
        let ran = run(&so_far.left, part.min(limit - so_far.steps))?;
        so_far = Ran { steps: so_far.steps + ran.steps, mark: so_far.mark.max(ran.mark), ..ran };
        if so_far.stop != Stop::Spent || so_far.steps == limit {
            return Ok(so_far);
        }
        part = next(&so_far);
    }
}

/// Runs a book in parts, and tells the run so far after each but the last.
pub fn watched(book: &[u8], limit: u32, mut tell: impl FnMut(&Ran)) -> Result<Ran, Refusal> {
    let (mut start, mut part) = (Instant::now(), 1_u32);
    in_parts(book, limit, part, |so_far| {
        if start.elapsed() < LONG {
            part = part.saturating_mul(2);
        }
        tell(so_far);
        start = Instant::now();
        part
    })
}

/// A term that a run reaches, and the cell of it that the next step changes, if there is one.
pub struct Reached {
    pub steps: u32,
    pub term: Book,
    pub redex: Option<usize>,
}

/// Tells every term that a run reaches, the first too, as long as `tell` wants more.
pub fn traced(book: &[u8], limit: u32, mut tell: impl FnMut(&Reached) -> bool) -> Result<(), Refusal> {
    let mut here = run(book, 0)?.left;
    for steps in 0..=limit {
        let next = run(&here, 1)?;
        let (Some(term), Some(after)) = (Book::read(&here), Book::read(&next.left)) else { break };
        let redex = (next.steps == 1).then(|| changed(&term, &after));
        if !tell(&Reached { steps, term, redex }) || next.steps == 0 {
            break;
        }
        here = next.left;
    }
    Ok(())
}

/// The cell at which two terms, one a step after the other, begin to differ. A step changes the kind of what it steps, and nothing else:
/// the way goes to the one child that differs until the kinds do.
fn changed(before: &Book, after: &Book) -> usize {
    let mut trees = HashMap::new();
    let [ones, others] = [before, after].map(|book| numbered(book, &mut trees));
    let (mut one, mut other) = (before.root, after.root);
    loop {
        let (part, now) = (before.parts[one], after.parts[other]);
        let children = part.children().iter().zip(now.children());
        let differing = children.filter(|_| part.kind == now.kind).find(|(&a, &b)| ones[a] != others[b]);
        let Some((&a, &b)) = differing else { return one };
        (one, other) = (a, b);
    }
}

/// A number for each cell: the same for the same tree, in every book that the trees were numbered of.
fn numbered(book: &Book, trees: &mut HashMap<Part, usize>) -> Vec<usize> {
    let mut numbers: Vec<usize> = Vec::with_capacity(book.parts.len());
    for part in &book.parts {
        let next = trees.len();
        numbers.push(*trees.entry(part.moved(|child| numbers[child])).or_insert(next));
    }
    numbers
}
