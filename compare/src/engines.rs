//! The two sides of a comparison.

use evaluator::{with_fault, Answer, Fault, Joined};
use std::fmt::Debug;
#[cfg(feature = "engine")]
use std::hint::black_box;
use std::panic::{catch_unwind, AssertUnwindSafe};

/// What a side returns: an answer of document 01, or why it gave none.
pub type Reply = Result<Answer, String>;

/// The same of a join and of a preview.
pub type JoinReply = Result<Joined, String>;

/// One call of the library about one book.
#[derive(Clone, Copy, PartialEq, Eq, Debug)]
pub enum Call {
    Check,
    Sheet,
    Run { limit: u32 },
}

/// Anything that checks and runs books, says what they are as sheets, and previews and joins them.
pub trait Engine {
    fn name(&self) -> String;
    fn call(&self, call: Call, book: &[u8], work: &mut [u8]) -> Reply;
    /// The project is the first `length` of the lent bytes.
    fn join(&self, lent: &mut [u8], length: usize, part: &[u8], work: &mut [u8]) -> JoinReply;
    /// What a join would say. The bytes are lent to be read: a side that alters them differs.
    fn preview(&self, lent: &mut [u8], length: usize, part: &[u8], work: &mut [u8]) -> JoinReply;
}

/// What the work returns with this fault planted, or the words of its panic.
fn caught<R>(fault: Option<Fault>, work: impl FnOnce() -> R) -> Result<R, String> {
    catch_unwind(AssertUnwindSafe(|| with_fault(fault, work))).map_err(|panic| match panic.downcast_ref::<String>() {
        Some(words) => words.clone(),
        None => "a panic".to_string(),
    })
}

/// The evaluator, true or with a planted fault. A fault of joins is in its joins alone: its previews are right.
pub struct Evaluator(pub Option<Fault>);

impl Engine for Evaluator {
    fn name(&self) -> String {
        match self.0 {
            None => "evaluator".to_string(),
            Some(fault) => format!("evaluator with {fault:?}"),
        }
    }

    fn call(&self, call: Call, book: &[u8], work: &mut [u8]) -> Reply {
        caught(self.0, || match call {
            Call::Check => evaluator::check(book, work),
            Call::Sheet => evaluator::sheet(book, work),
            Call::Run { limit } => evaluator::run(book, work, limit),
        })
    }

    fn join(&self, lent: &mut [u8], length: usize, part: &[u8], work: &mut [u8]) -> JoinReply {
        caught(self.0, || evaluator::join(lent, length, part, work))
    }

    fn preview(&self, lent: &mut [u8], length: usize, part: &[u8], work: &mut [u8]) -> JoinReply {
        let fault = self.0.filter(|fault| !fault.is_of_joins());
        caught(fault, || evaluator::preview(lent, length, part, work))
    }
}

/// The evaluator with a fault in its previews alone.
pub struct FaultyPreviews(pub Fault);

impl Engine for FaultyPreviews {
    fn name(&self) -> String {
        format!("evaluator with {:?} in its previews", self.0)
    }

    fn call(&self, call: Call, book: &[u8], work: &mut [u8]) -> Reply {
        Evaluator(None).call(call, book, work)
    }

    fn join(&self, lent: &mut [u8], length: usize, part: &[u8], work: &mut [u8]) -> JoinReply {
        Evaluator(None).join(lent, length, part, work)
    }

    fn preview(&self, lent: &mut [u8], length: usize, part: &[u8], work: &mut [u8]) -> JoinReply {
        caught(Some(self.0), || evaluator::faulty_preview(self.0, lent, length, part, work))
    }
}

/// The evaluator and another side: what both say and leave.
pub struct Both<'a>(pub &'a dyn Engine);

impl Both<'_> {
    /// What both reply, if they leave the same bytes.
    fn same<R: PartialEq + Debug>(&self, [one, other]: [Result<R, String>; 2], same_bytes: bool) -> Result<R, String> {
        if one == other && same_bytes {
            return other;
        }
        Err(format!("the evaluator says {one:?}, {} says {other:?}, or leaves something else", self.0.name()))
    }

    /// The same of a call about two books.
    fn of_pair(
        &self,
        lent: &mut [u8],
        work: &mut [u8],
        call: impl Fn(&dyn Engine, &mut [u8], &mut [u8]) -> JoinReply,
    ) -> JoinReply {
        let (mut own_lent, mut own_work) = (lent.to_vec(), work.to_vec());
        let replies = [call(&Evaluator(None), &mut own_lent, &mut own_work), call(self.0, lent, work)];
        self.same(replies, own_lent == lent && own_work == work)
    }
}

impl Engine for Both<'_> {
    fn name(&self) -> String {
        format!("evaluator and {}", self.0.name())
    }

    fn call(&self, call: Call, book: &[u8], work: &mut [u8]) -> Reply {
        let mut own = work.to_vec();
        let replies = [Evaluator(None).call(call, book, &mut own), self.0.call(call, book, work)];
        self.same(replies, own == work)
    }

    fn join(&self, lent: &mut [u8], length: usize, part: &[u8], work: &mut [u8]) -> JoinReply {
        self.of_pair(lent, work, |side, lent, work| side.join(lent, length, part, work))
    }

    fn preview(&self, lent: &mut [u8], length: usize, part: &[u8], work: &mut [u8]) -> JoinReply {
        self.of_pair(lent, work, |side, lent, work| side.preview(lent, length, part, work))
    }
}

/// The engine of the static library.
#[cfg(feature = "engine")]
pub struct Library;

/// What the wrapper says of a check.
#[cfg(feature = "engine")]
fn answered(answer: cerealbank::Answer) -> Reply {
    Ok(match answer {
        cerealbank::Answer::Refused { number, cell } => Answer::Refused { number, cell: cell as usize },
        cerealbank::Answer::Accepted { size } => Answer::Accepted { size: size as usize },
        cerealbank::Answer::Unknown { packed } => return unknown(packed),
    })
}

/// What the wrapper says of a sheet.
#[cfg(feature = "engine")]
fn counted(answer: cerealbank::SheetAnswer) -> Reply {
    use cerealbank::SheetAnswer;
    Ok(match answer {
        SheetAnswer::Refused { number, cell } => Answer::Refused { number, cell: cell as usize },
        SheetAnswer::Accepted { size, steps } => Answer::Sheet { size: size as usize, steps },
        SheetAnswer::Unknown { packed } => return unknown(packed),
    })
}

/// What the wrapper says of a run.
#[cfg(feature = "engine")]
fn ran(answer: cerealbank::RunAnswer) -> Reply {
    use cerealbank::RunAnswer;
    Ok(match answer {
        RunAnswer::Refused { number, cell } => Answer::Refused { number, cell: cell as usize },
        RunAnswer::Value { steps, mark } => Answer::Value { steps, mark: u64::from(mark) },
        RunAnswer::Spent { steps, mark } => Answer::Spent { steps, mark: u64::from(mark) },
        RunAnswer::Room { steps, mark } => Answer::Room { steps, mark: u64::from(mark) },
        RunAnswer::Unknown { packed } => return unknown(packed),
    })
}

#[cfg(feature = "engine")]
fn unknown(packed: u64) -> Reply {
    Err(format!("an unknown answer, {packed:#x}"))
}

/// What the wrapper says of a join or a preview.
#[cfg(feature = "engine")]
fn joined(joined: cerealbank::Joined) -> JoinReply {
    let which = match joined.which {
        cerealbank::Which::Project => evaluator::Which::Project,
        cerealbank::Which::Part => evaluator::Which::Part,
        cerealbank::Which::Joint => evaluator::Which::Joint,
    };
    Ok(Joined { which, answer: answered(joined.answer)?, bytes: joined.bytes })
}

#[cfg(feature = "engine")]
impl Engine for Library {
    fn name(&self) -> String {
        "engine".to_string()
    }

    fn call(&self, call: Call, book: &[u8], work: &mut [u8]) -> Reply {
        match call {
            Call::Check => answered(cerealbank::check(book, work)),
            Call::Sheet => counted(cerealbank::sheet(book, work)),
            Call::Run { limit } => ran(cerealbank::run(book, work, limit)),
        }
    }

    fn join(&self, lent: &mut [u8], length: usize, part: &[u8], work: &mut [u8]) -> JoinReply {
        joined(cerealbank::join(lent, length, part, work))
    }

    /// The compiler may take bytes that are lent to be read for unaltered; past the black box it may not, and they are read again.
    fn preview(&self, lent: &mut [u8], length: usize, part: &[u8], work: &mut [u8]) -> JoinReply {
        let foreseen = cerealbank::preview(lent, length, part, work);
        black_box(lent);
        joined(foreseen)
    }
}
