//! Document 02, (iv): "Every accepted version 1 book without sums, restamped as version 2 with each number extended by its sign, shows the
//! same type and takes the same steps." Both books are asked of the side that is compared, and its answers compared with each other.

use crate::cells::Cells;
use crate::engines::{Call, Engine};
use crate::theory::{call, encoded};
use evaluator::{decode, kind, restamped, Answer, Cell, Term, TermShape, Version, CELL, TRAILER};

/// Runs are asked up to this limit.
const ENOUGH: u32 = 10_000;

/// The trailer has version 2, whatever else is wrong.
pub fn is_version_2(book: &[u8]) -> bool {
    let trailer = book.chunks_exact(CELL).next_back().map(Cell::of);
    trailer.is_some_and(|trailer| (trailer.kind, trailer.label) == (TRAILER, Version::Two.byte()))
}

/// The version 1 book that this one is restamped from; none if it is of version 1, or has a number that 32 bits do not hold.
pub fn narrowed(book: &[u8]) -> Option<Vec<u8>> {
    let mut cells = Cells::of(book).filter(|cells| cells.version == Version::Two)?;
    for cell in cells.cells.iter_mut().filter(|cell| cell.kind == kind::NUMBER) {
        let n = Version::Two.number(cell.fields);
        if Version::One.held(n) != n {
            return None;
        }
        cell.fields = Version::One.fields(n);
    }
    Some(Cells { version: Version::One, ..cells }.bytes())
}

fn has_sum(term: &Term) -> bool {
    matches!(term.shape(), TermShape::Sum(..)) || term.node().terms().any(|(.., part)| has_sum(part))
}

/// The call says of both books the same, of a run with the same mark, and leaves the same restamped.
fn same(side: &dyn Engine, asked: Call, one: &[u8], two: &[u8]) -> Result<Answer, String> {
    let (answer, left) = call(side, asked, one)?;
    let (other, right) = call(side, asked, two)?;
    if answer != other {
        return Err(format!("{asked:?} says {answer:?} of the version 1 book, {other:?} of this one"));
    }
    let expected = restamped(encoded(&left)).ok_or(format!("{asked:?} leaves no version 1 book of the version 1 book"))?;
    let rest = expected.len();
    match right[..rest] == expected[..] && right[rest..] == left[rest..] {
        true => Ok(answer),
        false => Err(format!("{asked:?} leaves something else than of the version 1 book")),
    }
}

/// Whether there is something to say, and that it holds: nothing of a book that is no restamped one, or where the version 1 book is refused or has
/// a sum.
pub fn holds(side: &dyn Engine, book: &[u8]) -> Result<bool, String> {
    let Some(one) = narrowed(book) else { return Ok(false) };
    let Ok((root, _)) = decode(&one) else { return Ok(false) };
    if has_sum(&root) || matches!(call(side, Call::Check, &one)?.0, Answer::Refused { .. }) {
        return Ok(false);
    }
    same(side, Call::Check, &one, book)?;
    let run = |limit: u32| same(side, Call::Run { limit }, &one, book);
    let (steps, _) = run(ENOUGH)?.ran().ok_or("a run of an accepted book is refused")?;
    let mut limits = vec![0, 1, steps / 2, steps.saturating_sub(1), steps];
    limits.sort_unstable();
    limits.dedup();
    limits.into_iter().try_for_each(|limit| run(limit).map(drop)).map(|()| true)
}
