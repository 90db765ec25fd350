//! Comparing two engines on one book.

use crate::engines::{Both, Call, Engine, Evaluator, Reply};
use crate::marks::{self, Ran};
use crate::random::Random;
use crate::{ordering, restamping, sheets, theory};
use evaluator::{decode, Answer, WORK};
use std::cell::{Cell, RefCell};

/// What one side returns and leaves.
pub struct Outcome {
    pub reply: Reply,
    pub work: Vec<u8>,
}

/// What a comparison asks about a book.
#[derive(Clone, Copy, PartialEq, Eq, Debug)]
pub enum Question {
    /// A call with a work buffer of this length: the whole answer and every byte.
    Call(Call, usize),
    /// What the calculus promises of the terms that the book reaches.
    Theory,
    /// That its marks are those of the terms that its runs leave.
    Marks,
    /// That what it is as a sheet goes with its check and its runs.
    Sheet,
    /// That the book is the same as the version 1 book that it is restamped from.
    Restamping,
    /// That the book is the same as others with its parts in another order.
    Order,
}

/// Why a book failed.
pub enum Difference {
    Outcomes(Outcome, Outcome),
    Broken(String),
}

/// The evaluator's answers, for the figures.
#[derive(Clone, Copy, PartialEq, Eq, Debug)]
pub struct Seen {
    pub check: Answer,
    pub sheet: Answer,
    pub run: Answer,
}

pub struct Comparison<'a> {
    pub engine: &'a dyn Engine,
    /// Also test what the calculus promises.
    pub theory: bool,
    /// How many calls have been compared.
    pub calls: Cell<usize>,
    /// How many restamped books have been compared with their own.
    pub pairs: Cell<usize>,
    /// How many reorderings have been compared with the value that they come from.
    pub orders: Cell<usize>,
    /// How many previews have been compared.
    pub previews: Cell<usize>,
    pub(crate) noise: Vec<u8>,
    buffers: RefCell<[Vec<u8>; 2]>,
}

impl<'a> Comparison<'a> {
    pub fn new(engine: &'a dyn Engine, theory: bool) -> Comparison<'a> {
        let mut random = Random::of(0, "noise", 0);
        let noise = (0..3 * WORK).map(|_| random.draw() as u8).collect();
        Comparison {
            engine,
            theory,
            calls: Cell::new(0),
            pairs: Cell::new(0),
            orders: Cell::new(0),
            previews: Cell::new(0),
            noise,
            buffers: RefCell::new([Vec::new(), Vec::new()]),
        }
    }

    /// Asks both sides; none if they agree.
    pub fn ask(&self, book: &[u8], question: Question) -> Option<Difference> {
        match question {
            Question::Call(call, length) => self.answered(book, call, length).err(),
            Question::Theory => theory::holds(self.engine, book).err().map(Difference::Broken),
            Question::Marks => marks::holds(self.engine, book).err().map(Difference::Broken),
            Question::Sheet => sheets::holds(self.engine, book).err().map(Difference::Broken),
            Question::Restamping => self.restamped(book).err().map(Difference::Broken),
            Question::Order => self.reordered(book).err().map(Difference::Broken),
        }
    }

    /// The book beside the one that it is restamped from.
    fn restamped(&self, book: &[u8]) -> Result<(), String> {
        let asked = restamping::holds(self.engine, book)?;
        self.pairs.set(self.pairs.get() + usize::from(asked));
        Ok(())
    }

    /// The book beside others with its parts in another order, of which both sides are asked.
    fn reordered(&self, book: &[u8]) -> Result<(), String> {
        let asked = ordering::holds(&Both(self.engine), book)?;
        self.orders.set(self.orders.get() + asked);
        Ok(())
    }

    /// The answer that both sides give, over buffers filled with the same noise.
    fn answered(&self, book: &[u8], call: Call, length: usize) -> Result<Answer, Difference> {
        self.calls.set(self.calls.get() + 1);
        let mut buffers = self.buffers.borrow_mut();
        let [left, right] = &mut *buffers;
        let start = (book.len() * 7 + book.iter().map(|&byte| usize::from(byte)).sum::<usize>()) % WORK;
        for buffer in [&mut *left, &mut *right] {
            buffer.clear();
            buffer.extend_from_slice(&self.noise[start..start + length]);
        }
        let reply_left = Evaluator(None).call(call, book, left);
        let reply_right = self.engine.call(call, book, right);
        match &reply_left {
            Ok(answer) if reply_left == reply_right && left == right => Ok(*answer),
            _ => Err(Difference::Outcomes(
                Outcome { reply: reply_left, work: left.clone() },
                Outcome { reply: reply_right, work: right.clone() },
            )),
        }
    }

    fn call(&self, book: &[u8], call: Call, length: usize) -> Result<Answer, (Question, Difference)> {
        self.answered(book, call, length).map_err(|difference| (Question::Call(call, length), difference))
    }

    /// What is promised of a book, if that is tested.
    fn promised(&self, book: &[u8], question: Question) -> Result<(), (Question, Difference)> {
        let broken = if self.theory { self.ask(book, question) } else { None };
        broken.map_or(Ok(()), |difference| Err((question, difference)))
    }

    /// Everything that is asked about a book. The first difference with its question, or what was seen.
    pub fn book(&self, book: &[u8], random: &mut Random) -> Result<Seen, (Question, Difference)> {
        let seen = self.calls_of(book, random)?;
        if !matches!(seen.check, Answer::Refused { .. }) {
            self.promised(book, Question::Theory)?;
            if random.once_in(MARKED) {
                self.promised(book, Question::Marks)?;
            }
        }
        self.promised(book, Question::Restamping)?;
        self.promised(book, Question::Order)?;
        Ok(seen)
    }

    /// All calls about a book.
    fn calls_of(&self, book: &[u8], random: &mut Random) -> Result<Seen, (Question, Difference)> {
        if random.once_in(16) {
            let length = *random.pick(&[0, 1, 8, WORK - 1, WORK + 1, WORK * 2]);
            for call in [Call::Check, Call::Sheet, Call::Run { limit: 3 }] {
                self.call(book, call, length)?;
            }
        }
        let [check, sheet] = [self.call(book, Call::Check, WORK)?, self.call(book, Call::Sheet, WORK)?];
        if let Answer::Refused { .. } = check {
            let limit = *random.pick(&[0, 1, 5, 2_046, 2_047, u32::MAX]);
            let run = self.call(book, Call::Run { limit }, WORK)?;
            self.held(Question::Sheet, sheets::hold(check, sheet, &[]))?;
            return Ok(Seen { check, sheet, run });
        }
        let Some(execution) = Execution::of(book) else {
            // The evaluator gives no answer; asked, it fails.
            return self.call(book, Call::Run { limit: ENOUGH }, WORK).map(|run| Seen { check, sheet, run });
        };
        let (mut marked, mut runs) = (Vec::new(), Vec::new());
        for limit in execution.limits(random) {
            let answer = self.call(book, Call::Run { limit }, WORK)?;
            marked.extend(Ran::of(limit, answer, &self.buffers.borrow()[1]));
            runs.push((limit, answer));
        }
        self.held(Question::Marks, marks::hold(&marked))?;
        self.held(Question::Sheet, sheets::hold(check, sheet, &runs))?;
        Ok(Seen { check, sheet, run: execution.answer })
    }

    /// What has been said, held against each other, if that is tested.
    fn held(&self, question: Question, held: Result<(), String>) -> Result<(), (Question, Difference)> {
        match held {
            Err(words) if self.theory => Err((question, Difference::Broken(words))),
            _ => Ok(()),
        }
    }
}

/// So many times fewer books are asked about their marks under every limit.
const MARKED: usize = 200;

/// Limits are tried up to this one; a run that ends within it is tried with the greatest limit too.
const ENOUGH: u32 = 10_000;
/// A term of more cells than this is large.
const LARGE: u64 = 1_000;

/// How the evaluator runs an accepted book.
pub struct Execution {
    pub answer: Answer,
    steps: u32,
    ends: bool,
    /// How many the root has.
    cells: u64,
}

impl Execution {
    pub fn of(book: &[u8]) -> Option<Execution> {
        let mut work = vec![0; WORK];
        let answer = Evaluator(None).call(Call::Run { limit: ENOUGH }, book, &mut work).ok()?;
        let (steps, ends) = match answer {
            Answer::Value { steps, .. } | Answer::Room { steps, .. } => (steps, true),
            Answer::Spent { steps, .. } => (steps, false),
            _ => return None,
        };
        Some(Execution { answer, steps, ends, cells: decode(book).ok()?.0.size() })
    }

    /// The limits that are asked, each once: the lowest, those about the end and half of it, one of those between, and one far past it. A
    /// large book takes long to check: of it the last two are not asked, and two in all where it takes no step.
    fn limits(&self, random: &mut Random) -> Vec<u32> {
        let far = if self.ends { *random.pick(&[ENOUGH, u32::MAX]) } else { ENOUGH + 1 };
        let k = self.steps;
        let mut limits = vec![0, 1, 2, 3, k / 2, k.saturating_sub(1), k, k + 1];
        match k {
            0 if self.cells > LARGE => limits = vec![random.lower(2) as u32, far],
            _ if self.cells > LARGE => {}
            _ => limits.extend([random.lower(k as usize + 1) as u32, far]),
        }
        limits.sort_unstable();
        limits.dedup();
        limits
    }
}
