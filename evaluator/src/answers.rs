//! The calls: check, run and the desk program's lines.

use crate::book::{decode, encode_term, encode_type, Cell, Refusal, CELL, SIZE_LIMIT, TRAILER};
use crate::faults::{asked, planted, Fault};
use crate::marks::{Marks, Stop};
use crate::running::Machine;
use crate::stack::on_large_stack;
use crate::terms::{Term, TermShape, Type};
use crate::typing::infer;
use crate::versions::Version;
use std::fmt::Write;

/// "Work buffer: not 65,536 bytes" is refusal 1.
pub const WORK: usize = 65_536;
/// "The desk program reads a book on standard input, limit 10,000."
pub const DESK_LIMIT: u32 = 10_000;

/// What a call says. Of a run that is not refused also the mark, "the greatest size of any term so far, the first included": "each run
/// answer reports it".
#[derive(Clone, Copy, PartialEq, Eq, Debug)]
pub enum Answer {
    /// "Answer: number and cell (0 for 1 to 4)."
    Refused { number: u8, cell: usize },
    /// "A check lays down the type and gives its size."
    Accepted { size: usize },
    /// The sheet call answers "as a check does, with the count beside an acceptance".
    Sheet { size: usize, steps: u32 },
    /// "A run says value when the term is one"
    Value { steps: u32, mark: u64 },
    /// "else spent when exactly the limit has been taken"
    Spent { steps: u32, mark: u64 },
    /// "else no room when the successor's size exceeds 4,095."
    Room { steps: u32, mark: u64 },
}

impl Answer {
    /// The steps and the mark of a run that is not refused.
    pub fn ran(self) -> Option<(u32, u64)> {
        match self {
            Answer::Value { steps, mark } | Answer::Spent { steps, mark } | Answer::Room { steps, mark } => Some((steps, mark)),
            Answer::Refused { .. } | Answer::Accepted { .. } | Answer::Sheet { .. } => None,
        }
    }

    /// The same with other steps and another mark, of such a run; any other answer as it is.
    pub fn with(self, steps: u32, mark: u64) -> Answer {
        match self {
            Answer::Value { .. } => Answer::Value { steps, mark },
            Answer::Spent { .. } => Answer::Spent { steps, mark },
            Answer::Room { .. } => Answer::Room { steps, mark },
            other => other,
        }
    }
}

/// The root, its type and the book's version, or the first refusal of 2 to 15.
pub(crate) fn accept(book: &[u8]) -> Result<(Term, Type, Version), Refusal> {
    let (root, version) = decode(book)?;
    let inferred = type_of_root(&root, version)?;
    Ok((root, inferred, version))
}

/// The type of a root that has passed the rows 2 to 10, or the first refusal of 11 to 15.
pub(crate) fn type_of_root(root: &Term, version: Version) -> Result<Type, Refusal> {
    asked(version);
    infer(&mut Vec::new(), root)
}

/// The size beyond which there is no room.
fn room() -> u64 {
    match () {
        () if planted(Fault::RoomOneEarly) => SIZE_LIMIT - 1,
        () if planted(Fault::RoomOneLate) => SIZE_LIMIT + 1,
        () => SIZE_LIMIT,
    }
}

/// Where a run of this book's root stops, and the term reached: "A run says value when the term is one; else spent when exactly the
/// limit has been taken; else no room when the successor's size exceeds 4,095."
fn evaluate(book: &[u8], root: Term, version: Version, limit: u32) -> (Answer, Term) {
    let (room, mut steps) = (room(), 0);
    let mut machine = Machine::from(root, version);
    let mut marks = Marks::of(&machine, book);
    let stop = loop {
        if machine.is_value() && !(planted(Fault::SpentBeforeValue) && steps == limit) {
            break Stop::Value;
        }
        if steps == limit && !planted(Fault::SpentAfterStep) && !planted(Fault::RoomBeforeSpent) {
            break Stop::Spent;
        }
        let mut next = machine.next();
        if next.len() != 1 {
            panic!("an accepted book reached a term with {} successors: {}", next.len(), machine.term());
        }
        let next = next.remove(0);
        if machine.size_with(&next) > room {
            break Stop::Room;
        }
        if steps == limit && planted(Fault::RoomBeforeSpent) {
            break Stop::Spent;
        }
        let depth = machine.depth();
        let right_half = planted(Fault::RightHalfCounted) && machine.reads_right_half();
        marks.step(&machine, &next.0);
        machine.step(next);
        marks.enter(&machine);
        steps += if right_half || planted(Fault::DescentCounted) && machine.depth() > depth { 2 } else { 1 };
        if steps >= limit && planted(Fault::SpentAfterStep) {
            break Stop::Spent;
        }
    };
    (marks.answer(stop, steps, &machine), machine.term())
}

/// Leaves the outcome in the work buffer: "Refusal 1 touches nothing; all others zero the work buffer. After an acceptance or a
/// run, bytes past the laid-down book are zero."
pub(crate) fn answer(work: &mut [u8], outcome: impl FnOnce() -> Result<(Answer, Vec<u8>), Refusal> + Send) -> Answer {
    if work.len() != WORK {
        if planted(Fault::WrongLengthZeroed) {
            work.fill(0);
        }
        return Answer::Refused { number: 1, cell: 0 };
    }
    let (answer, encoded) = match on_large_stack(outcome) {
        Ok(accepted) => accepted,
        Err(Refusal { number, cell }) => (Answer::Refused { number, cell }, Vec::new()),
    };
    work.fill(0);
    work[..encoded.len()].copy_from_slice(&encoded);
    answer
}

/// "A library checks a book": its type encoded, with the type's size.
pub fn check(book: &[u8], work: &mut [u8]) -> Answer {
    answer(work, || {
        let (_, inferred, version) = accept(book)?;
        Ok((Answer::Accepted { size: inferred.size() as usize }, encode_type(&inferred, version)))
    })
}

/// "Runs it for at most a given number of steps": the term reached encoded, with the steps taken and the mark. "The step limit is any
/// unsigned 32-bit number."
pub fn run(book: &[u8], work: &mut [u8], limit: u32) -> Answer {
    answer(work, || {
        let (root, _, version) = accept(book)?;
        let (stop, reached) = evaluate(book, root, version, limit);
        Ok((stop, encode_reached(&reached, version)))
    })
}

/// The term reached as a book. Only a planted fault reaches one above the limit; then there is none.
fn encode_reached(reached: &Term, version: Version) -> Vec<u8> {
    if reached.size() > SIZE_LIMIT {
        return Vec::new();
    }
    let reached = if planted(Fault::SmallerHalfFirst) { smaller_half_first(reached) } else { reached.clone() };
    encode_term(&reached, version)
}

/// The term with the smaller half of each merge first.
fn smaller_half_first(e: &Term) -> Term {
    let sorted = e.map(|part, _| smaller_half_first(part));
    match sorted.shape() {
        TermShape::Merge(a, b) if a.size() > b.size() => Term::merge(b.clone(), a.clone()),
        _ => sorted,
    }
}

/// What the desk program prints, the mark not among it: "the desk program's lines are compared as before". "Line 1: type size. Line 2: value, spent or room, and steps. Then a line a cell: number, kind,
/// label, a, b, c unsigned. A book turned back prints one line, `refused 14 4` for number and cell."
pub fn desk(input: &[u8]) -> String {
    let mut work = vec![0; WORK];
    let mut lines = String::new();
    let size = match check(input, &mut work) {
        Answer::Accepted { size } => size,
        Answer::Refused { number, cell } => return format!("refused {number} {cell}\n"),
        other => unreachable!("no answer of a check: {other:?}"),
    };
    let (word, steps) = match run(input, &mut work, DESK_LIMIT) {
        Answer::Value { steps, .. } => ("value", steps),
        Answer::Spent { steps, .. } => ("spent", steps),
        Answer::Room { steps, .. } => ("room", steps),
        other => unreachable!("no answer of a run on an accepted book: {other:?}"),
    };
    let _ = writeln!(lines, "accepted {size}\n{word} {steps}");
    let cells = work.chunks(CELL).map(Cell::of).take_while(|cell| cell.kind != TRAILER);
    for (number, Cell { kind, label, fields: [a, b, c] }) in cells.enumerate() {
        let _ = writeln!(lines, "{number} {kind} {label} {a} {b} {c}");
    }
    lines
}
