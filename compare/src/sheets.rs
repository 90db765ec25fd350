//! Document 02, (ix): "An accepted sheet, given that many steps, reaches its value after precisely that many. Under no limit is it stopped for room."
//! And of all that is no 17: "Otherwise the call answers and leaves the work buffer as a check does." A side's answers about one book are held
//! against each other. Nothing is asked of the evaluator.

use crate::engines::{Call, Engine};
use crate::theory::call;
use evaluator::Answer;

/// A limit, and what a run says under it.
pub type Limited = (u32, Answer);

/// What a check, the sheet call and runs say of one book.
pub fn hold(check: Answer, sheet: Answer, runs: &[Limited]) -> Result<(), String> {
    match (sheet, check) {
        (Answer::Sheet { size, steps }, Answer::Accepted { size: checked }) if size == checked => {
            runs.iter().try_for_each(|&run| takes(steps, run))
        }
        (Answer::Refused { number: 17, .. }, Answer::Accepted { .. } | Answer::Refused { number: 11.., .. }) => Ok(()),
        (Answer::Refused { number: ..=15, .. }, _) if sheet == check => Ok(()),
        _ => Err(format!("as a sheet {sheet:?}, and checked {check:?}")),
    }
}

/// So many steps to the value, or as many as the limit allows.
fn takes(count: u32, (limit, answer): Limited) -> Result<(), String> {
    let as_counted = match answer {
        Answer::Value { steps, .. } => limit >= count && steps == count,
        Answer::Spent { steps, .. } => limit < count && steps == limit,
        _ => false,
    };
    if as_counted {
        return Ok(());
    }
    Err(format!("a sheet of {count} steps, run with limit {limit}: {answer:?}"))
}

/// The limits that are asked, those about the count among them.
fn limits(count: u32) -> [u32; 6] {
    [0, count / 2, count.saturating_sub(1), count, count + 1, u32::MAX]
}

/// The same as this side answers; and the work buffer is left as a check leaves it, by 17 zeroed.
pub fn holds(side: &dyn Engine, book: &[u8]) -> Result<(), String> {
    let [(sheet, left), (check, checked)] = [call(side, Call::Sheet, book)?, call(side, Call::Check, book)?];
    let as_left = match sheet {
        Answer::Refused { number: 17, .. } => left.iter().all(|&byte| byte == 0),
        _ => left == checked,
    };
    if !as_left {
        return Err(format!("as a sheet {sheet:?}, and left something else than a check leaves"));
    }
    let run = |limit| Ok((limit, call(side, Call::Run { limit }, book)?.0));
    let runs = match sheet {
        Answer::Sheet { steps, .. } => limits(steps).into_iter().map(run).collect::<Result<Vec<Limited>, String>>()?,
        _ => Vec::new(),
    };
    hold(check, sheet, &runs)
}
