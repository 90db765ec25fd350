//! Document 02, (viii): "The state of a run carries the greatest size of any term so far, the first included, and each run answer reports it."
//! The runs of one book under several limits are held against each other: what a run leaves is the term after its steps. Nothing is asked of the
//! evaluator.

use crate::engines::{Call, Engine};
use crate::theory::{call, encoded};
use evaluator::{Answer, CELL, SIZE_LIMIT};

/// Runs are asked up to this limit, and up to this one with every limit.
const ENOUGH: u32 = 10_000;
const EVERY: u32 = 40;

/// A run that is not refused.
#[derive(Clone, Copy, Debug)]
pub struct Ran {
    pub limit: u32,
    pub steps: u32,
    pub mark: u64,
    /// How many the term has that it leaves.
    pub cells: u64,
}

impl Ran {
    /// None of a refusal.
    pub fn of(limit: u32, answer: Answer, work: &[u8]) -> Option<Ran> {
        let (steps, mark) = answer.ran()?;
        Some(Ran { limit, steps, mark, cells: encoded(work).len() as u64 / CELL as u64 - 1 })
    }
}

/// Of runs of one book, under rising limits: no mark is below the size of a term that one of them has left so far, the first of them if its limit
/// is 0, nor above 4,095; the mark does not fall, and is the same after as many steps; and it is the greatest of these sizes where every term so
/// far was left by one of them.
pub fn hold(runs: &[Ran]) -> Result<(), String> {
    let (mut greatest, mut every) = (0, true);
    let mut before = Ran { limit: 0, steps: 0, mark: 0, cells: 0 };
    for (place, ran) in runs.iter().enumerate() {
        greatest = ran.cells.max(greatest);
        every &= ran.steps <= if place == 0 { 0 } else { before.steps + 1 };
        let broken = match ran.mark {
            mark if mark < greatest => format!("below {greatest}, the size of a term so far"),
            mark if mark > SIZE_LIMIT => format!("above {SIZE_LIMIT}"),
            mark if mark < before.mark => format!("below the mark {} under limit {}", before.mark, before.limit),
            mark if place > 0 && ran.steps == before.steps && mark != before.mark => {
                format!("not the mark {} under limit {}, after as many steps", before.mark, before.limit)
            }
            mark if every && mark > greatest => format!("above {greatest}, the greatest size of any term so far"),
            _ => {
                before = *ran;
                continue;
            }
        };
        return Err(format!("under limit {}, after {} steps, the mark {} is {broken}", ran.limit, ran.steps, ran.mark));
    }
    Ok(())
}

/// Nothing to say of a book that is refused. The limits are all up to some, and those about the end of the run and half of it.
pub fn holds(side: &dyn Engine, book: &[u8]) -> Result<(), String> {
    let run = |limit: u32| {
        let (answer, work) = call(side, Call::Run { limit }, book)?;
        Ok(Ran::of(limit, answer, &work))
    };
    let Some(last) = run(ENOUGH)? else { return Ok(()) };
    let far = [last.steps / 2, last.steps.saturating_sub(1), last.steps, last.steps + 1];
    let mut limits: Vec<u32> = (0..=last.steps.min(EVERY)).chain(far).filter(|&limit| limit < ENOUGH).collect();
    limits.sort_unstable();
    limits.dedup();
    let runs = limits.into_iter().map(run).collect::<Result<Option<Vec<Ran>>, String>>()?;
    let mut runs = runs.ok_or("refused under one limit, and not under another")?;
    runs.push(last);
    hold(&runs)
}
