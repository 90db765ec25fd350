//! Sides and clocks.

use compare::engines::{Call, Engine, Evaluator, Library};
use evaluator::{decode, encode_term, infer, on_large_stack, successors, Answer, Refusal, SIZE_LIMIT, WORK};
use std::sync::atomic::{AtomicBool, Ordering::Relaxed};
use std::time::Instant;

/// Few rounds, to see the order of a time while working.
pub static QUICK: AtomicBool = AtomicBool::new(false);

/// What a side says, as the tables show it: of a run why it stopped and after how many steps, without its mark.
#[derive(Clone, Copy, PartialEq, Eq, Debug)]
pub enum Said {
    Refused { number: u8, cell: usize },
    Accepted { size: usize },
    Sheet { size: usize, steps: u32 },
    Stopped { why: &'static str, steps: u32 },
}

impl Said {
    fn of(answer: Answer) -> Said {
        let stopped = |why, steps| Said::Stopped { why, steps };
        match answer {
            Answer::Refused { number, cell } => Said::Refused { number, cell },
            Answer::Accepted { size } => Said::Accepted { size },
            Answer::Sheet { size, steps } => Said::Sheet { size, steps },
            Answer::Value { steps, .. } => stopped("value", steps),
            Answer::Spent { steps, .. } => stopped("spent", steps),
            Answer::Room { steps, .. } => stopped("room", steps),
        }
    }
}

/// A call, answered in some way.
pub type Side = fn(Call, &[u8], &mut [u8]) -> Said;

pub fn engine(call: Call, book: &[u8], work: &mut [u8]) -> Said {
    Said::of(Library.call(call, book, work).expect("an answer"))
}

pub fn evaluator(call: Call, book: &[u8], work: &mut [u8]) -> Said {
    Said::of(Evaluator(None).call(call, book, work).expect("an answer"))
}

/// The evaluator's rules with each step taken from the root, by `successors`.
pub fn from_the_root(call: Call, book: &[u8], work: &mut [u8]) -> Said {
    let Call::Run { limit } = call else { return evaluator(call, book, work) };
    let refused = |Refusal { number, cell }| (Said::Refused { number, cell }, Vec::new());
    let (answer, encoded) = stepped(book, limit).unwrap_or_else(refused);
    work.fill(0);
    work[..encoded.len()].copy_from_slice(&encoded);
    answer
}

fn stepped(book: &[u8], limit: u32) -> Result<(Said, Vec<u8>), Refusal> {
    let (mut term, version) = decode(book)?;
    infer(&mut Vec::new(), &term)?;
    let mut steps = 0;
    let why = loop {
        if term.is_value() {
            break "value";
        }
        if steps == limit {
            break "spent";
        }
        let next = successors(&term, version).pop().expect("a successor");
        if next.size() > SIZE_LIMIT {
            break "room";
        }
        (term, steps) = (next, steps + 1);
    };
    Ok((Said::Stopped { why, steps }, encode_term(&term, version)))
}

/// The answer, the same of each side, and each side's least seconds.
pub struct Timed {
    pub answer: Said,
    pub seconds: Vec<f64>,
}

/// The sides in turn, several times; the least sum of each over the books.
pub fn race(sides: &[Side], call: Call, books: &[Vec<u8>]) -> Timed {
    on_large_stack(|| {
        let mut buffers = vec![vec![0; WORK]; sides.len()];
        let start = Instant::now();
        let (mut seconds, mut answer) = (vec![f64::MAX; sides.len()], None);
        for round in 1..=1_000 {
            let mut sums = vec![0.0; sides.len()];
            for book in books {
                answer = Some(one_turn(sides, call, book, round, &mut buffers, &mut sums));
            }
            seconds = seconds.iter().zip(sums).map(|(least, sum)| least.min(sum)).collect();
            if enough(round, start, 0.4) {
                break;
            }
        }
        Timed { answer: answer.expect("a book"), seconds }
    })
}

/// So many seconds have been spent, over three rounds at least where that is not long; a tenth of them and one round where it is quick.
pub fn enough(round: usize, start: Instant, seconds: f64) -> bool {
    let (rounds, seconds) = if QUICK.load(Relaxed) { (1, seconds / 10.0) } else { (3, seconds) };
    let spent = start.elapsed().as_secs_f64();
    spent > 3.0 || round >= rounds && spent > seconds
}

/// The seconds of so many steps alone, on each side: those of the run without those of the run with limit 0, which checks and encodes the root.
/// The median of many rounds, for it may be little of the whole.
pub fn steps_alone(sides: &[Side], book: &[u8], limit: u32) -> Vec<f64> {
    on_large_stack(|| {
        let mut buffers = vec![vec![0; WORK]; sides.len()];
        let mut differences = vec![Vec::new(); sides.len()];
        let start = Instant::now();
        for round in 1..=2_000 {
            let [none, some] = [0, limit].map(|limit| {
                let mut sums = vec![0.0; sides.len()];
                one_turn(sides, Call::Run { limit }, book, round, &mut buffers, &mut sums);
                sums
            });
            for (side, all) in differences.iter_mut().enumerate() {
                all.push(some[side] - none[side]);
            }
            if enough(round, start, 1.2) {
                break;
            }
        }
        let median = |mut all: Vec<f64>| {
            all.sort_by(f64::total_cmp);
            all[all.len() / 2]
        };
        differences.into_iter().map(median).collect()
    })
}

/// Each side once, another first each round, over buffers filled alike. What they say and leave must be the same.
fn one_turn(sides: &[Side], call: Call, book: &[u8], round: usize, buffers: &mut [Vec<u8>], sums: &mut [f64]) -> Said {
    let mut answers = Vec::new();
    for turn in 0..sides.len() {
        let side = (turn + round) % sides.len();
        buffers[side].fill(0xA5);
        let start = Instant::now();
        answers.push(sides[side](call, book, &mut buffers[side]));
        sums[side] += start.elapsed().as_secs_f64();
    }
    assert!(answers.iter().all(|answer| *answer == answers[0]), "the sides differ: {answers:?}");
    assert!(buffers.iter().all(|buffer| *buffer == buffers[0]), "the sides leave different bytes");
    answers[0]
}
