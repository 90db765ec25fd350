//! What the calculus promises of an accepted book: each term reached is a value without a successor or has exactly one, is typed below
//! the first type and is accepted as a book; the mark is the greatest size among them; and any two limits agree. Successors and types are
//! the evaluator's, with both halves of every merge open; the calls are those of the side that is compared.

use crate::engines::{Call, Engine};
use crate::random::Random;
use evaluator::{
    decode, encode_term, encode_type, infer, subtype, successors, Answer, Term, Type, Version, CELL, SIZE_LIMIT, TRAILER, WORK,
};

/// Terms above this size are not followed, nor more steps than this.
const SMALL: u64 = 200;
const STEPS: u32 = 25;

/// What a side answers, and its work buffer after it.
pub fn call(side: &dyn Engine, call: Call, book: &[u8]) -> Result<(Answer, Vec<u8>), String> {
    let mut work = vec![0; WORK];
    let answer = side.call(call, book, &mut work)?;
    Ok((answer, work))
}

/// The book at the start of the work buffer.
pub fn encoded(work: &[u8]) -> &[u8] {
    let cells = work.chunks(CELL).take_while(|cell| cell[0] != TRAILER).count();
    &work[..work.len().min((cells + 1) * CELL)]
}

/// The call returns this and leaves this.
fn expect(side: &dyn Engine, asked: Call, book: &[u8], answer: Answer, left: &[u8]) -> Result<(), String> {
    let (reply, work) = call(side, asked, book)?;
    if reply == answer && encoded(&work) == left {
        Ok(())
    } else {
        Err(format!("{asked:?} of a term reached says {reply:?}, not {answer:?}, or leaves something else"))
    }
}

/// Nothing to say of a book that is refused or not small.
pub fn holds(side: &dyn Engine, book: &[u8]) -> Result<(), String> {
    let Ok((root, version)) = decode(book) else { return Ok(()) };
    if root.size() > SMALL {
        return Ok(());
    }
    let Ok(first) = infer(&mut Vec::new(), &root) else { return Ok(()) };
    if first.size() > root.size() {
        return Err(format!("the type's size {} passes the book's {}", first.size(), root.size()));
    }
    let (mut mark, mut term, mut steps) = (root.size(), root, 0);
    while term.size() <= SMALL && steps < STEPS {
        let next = follow(side, &term, version, &first).map_err(|words| format!("after {steps} steps, of {term}: {words}"))?;
        let Some(next) = next else { break };
        (mark, term, steps) = (mark.max(next.size()), next, steps + 1);
    }
    let reached = if term.is_value() { Answer::Value { steps, mark } } else { Answer::Spent { steps, mark } };
    expect(side, Call::Run { limit: steps }, book, reached, &encode_term(&term, version))?;
    let mut random = Random::of(u64::from(steps), "limits", book.len() as u64);
    let one = random.lower(steps as usize + 3) as u32;
    two_limits(side, book, one, one + random.lower(steps as usize + 3) as u32)
}

/// What holds of one term reached; its successor, if there is one with room.
fn follow(side: &dyn Engine, term: &Term, version: Version, first: &Type) -> Result<Option<Term>, String> {
    let mut next = successors(term, version);
    if next.len() != if term.is_value() { 0 } else { 1 } {
        return Err(format!("{} successors", next.len()));
    }
    let inferred = infer(&mut Vec::new(), term).map_err(|refusal| format!("{refusal:?}"))?;
    if !subtype(&inferred, first) {
        return Err(format!("the type {inferred} is not below {first}"));
    }
    let alone = encode_term(term, version);
    let size = inferred.size() as usize;
    expect(side, Call::Check, &alone, Answer::Accepted { size }, &encode_type(&inferred, version))?;
    let (one_step, mark) = (Call::Run { limit: 1 }, term.size());
    let Some(next) = next.pop() else {
        return expect(side, one_step, &alone, Answer::Value { steps: 0, mark }, &alone).map(|()| None);
    };
    if next.size() > SIZE_LIMIT {
        return expect(side, one_step, &alone, Answer::Room { steps: 0, mark }, &alone).map(|()| None);
    }
    let mark = mark.max(next.size());
    let after = if next.is_value() { Answer::Value { steps: 1, mark } } else { Answer::Spent { steps: 1, mark } };
    expect(side, one_step, &alone, after, &encode_term(&next, version)).map(|()| Some(next))
}

/// The run with the lower limit either ended, and the other says the same; or it was spent, and its term, run for the steps
/// between, comes to what the other leaves, with the larger of both marks.
fn two_limits(side: &dyn Engine, book: &[u8], lower: u32, higher: u32) -> Result<(), String> {
    let (one, one_work) = call(side, Call::Run { limit: lower }, book)?;
    let (other, other_work) = call(side, Call::Run { limit: higher }, book)?;
    let Answer::Spent { mark: before, .. } = one else {
        let same = one == other && one_work == other_work;
        return if same { Ok(()) } else { Err(format!("limit {lower}: {one:?}, limit {higher}: {other:?}")) };
    };
    let (rest, rest_work) = call(side, Call::Run { limit: higher - lower }, encoded(&one_work))?;
    let whole = rest.ran().map_or(rest, |(steps, mark)| rest.with(steps + lower, mark.max(before)));
    if whole == other && rest_work == other_work {
        Ok(())
    } else {
        Err(format!("limit {lower} and then {}: {whole:?}, limit {higher}: {other:?}", higher - lower))
    }
}
