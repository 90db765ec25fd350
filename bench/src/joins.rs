//! A join beside its preview, and beside the checks that it is made of.

use crate::books::{int, merged};
use crate::timing::{engine, enough};
use crate::{cells, head};
use cerealbank::{join, preview, Answer, Joined, PROJECT};
use compare::cells::{zeroed, Cells};
use compare::engines::Call;
use compare::extremes::times;
use compare::samples::doubled;
use evaluator::{encode_term, kind, on_large_stack, restamped, Term, Version, WORK};
use std::fs;
use std::path::Path;
use std::time::Instant;

/// A join, answered in some way: how many bytes hold the joint. A preview says it, and writes none of them.
struct Side {
    name: &'static str,
    writes: bool,
    call: fn(&mut [u8], usize, &[u8], &mut [u8]) -> usize,
}

/// The sides: the engine's join, the engine's preview, and others; another is one more row, and gets its two columns.
const SIDES: [Side; 3] = [
    Side { name: "join", writes: true, call: |project, length, part, work| bytes(join(project, length, part, work)) },
    Side { name: "preview", writes: false, call: |project, length, part, work| bytes(preview(project, length, part, work)) },
    Side {
        name: "evaluator",
        writes: true,
        call: |project, length, part, work| evaluator::join(project, length, part, work).bytes,
    },
];

fn bytes(joined: Joined) -> usize {
    assert!(matches!(joined.answer, Answer::Accepted { .. }), "{joined:?}");
    joined.bytes
}

/// A project and a part.
type Pair = (String, [Vec<u8>; 2]);

fn sample([project, part]: [&str; 2]) -> Pair {
    let folder = Path::new(env!("CARGO_MANIFEST_DIR")).join("../books/joining");
    let book = |name: &str| fs::read(folder.join(format!("{name}.book"))).unwrap_or_else(|error| panic!("{name}: {error}"));
    (format!("`{project}` and `{part}`"), [book(project), book(part)])
}

/// So many records of numbers merged to the left, the labels from this one on, and so many more round all of them.
fn records(first: u8, count: u8, around: usize) -> Term {
    let parts = (first..first + count).map(|label| Term::record(label, Term::number(i32::from(label))));
    times(around, merged(parts), |e| Term::record(first, e))
}

fn named(name: &str, [project, part]: [Term; 2]) -> Pair {
    (name.to_string(), [project, part].map(|term| encode_term(&term, Version::One)))
}

/// Pairs whose joint has 4,095 cells, or as near as their form comes.
fn full() -> Vec<Pair> {
    let nested = |label: u8| times(2_046, Term::number(1), move |e| Term::record(label, e));
    let annotated = |label: u8| Term::record(label, times(1_022, Term::number(1), |e| Term::annotation(e, int())));
    let tops = |count: usize| Cells::new(vec![zeroed(kind::TOP_VALUE); count], count as u16 - 1).bytes();
    let (name, [project, part]) = named("the same, the part of version 2", [nested(1), nested(2)]);
    let equal = times(1_023, Term::number(1), |e| Term::merge(e, Term::number(1)));
    vec![
        named("2,046 nested records twice, labels apart", [nested(1), nested(2)]),
        (name, [project, restamped(&part).expect("version 1")]),
        named("2,046 nested records twice, equal", [nested(1), nested(1)]),
        named("1,022 nested annotations twice", [annotated(1), annotated(2)]),
        named("120 merged records within 1,688 twice", [records(1, 120, 1_688), records(128, 120, 1_688)]),
        named("1,024 equal numbers twice", [equal.clone(), equal]),
        ("4,000 cells of which the root reaches 1, and 94 of which it reaches 1".to_string(), [tops(4_000), tops(94)]),
        (
            "4,083 cells of which the root reaches 1, and the top value doubled 10 times".to_string(),
            [tops(4_083), doubled(zeroed(kind::TOP_VALUE), 10)],
        ),
    ]
}

fn pairs() -> Vec<Pair> {
    let samples = [["office", "site"], ["counter", "register"], ["register", "correction"], ["drafts", "notes"]];
    samples.into_iter().map(sample).chain(full()).collect()
}

/// The joint of a pair, from the engine.
fn joint([project, part]: &[Vec<u8>; 2]) -> Vec<u8> {
    let mut lent = project.clone();
    lent.resize(PROJECT, 0);
    let bytes = (SIDES[0].call)(&mut lent, project.len(), part, &mut vec![0; WORK]);
    lent.truncate(bytes);
    lent
}

/// The least seconds of each side, forward and back in turn, and then of the engine's checks of the project, of the part and of the joint.
fn least(pair: &[Vec<u8>; 2]) -> Vec<f64> {
    let joint = joint(pair);
    let [project, part] = pair;
    let (mut lent, mut work) = (vec![0; PROJECT], vec![0; WORK]);
    let mut seconds = vec![f64::MAX; SIDES.len() + 3];
    let start = Instant::now();
    for round in 1..=4_000 {
        for turn in 0..SIDES.len() {
            let at = if round % 2 == 0 { turn } else { SIDES.len() - 1 - turn };
            let Side { name, writes, call } = SIDES[at];
            lent[..project.len()].copy_from_slice(project);
            work.fill(0xA5);
            let from = Instant::now();
            let bytes = call(&mut lent, project.len(), part, &mut work);
            seconds[at] = seconds[at].min(from.elapsed().as_secs_f64());
            let left = if writes { &joint } else { project };
            assert!(bytes == joint.len() && lent.starts_with(left), "{name}: other bytes");
        }
        for (least, book) in seconds[SIDES.len()..].iter_mut().zip([project, part, &joint]) {
            work.fill(0xA5);
            let from = Instant::now();
            engine(Call::Check, book, &mut work);
            *least = least.min(from.elapsed().as_secs_f64());
        }
        if enough(round, start, 1.2) {
            break;
        }
    }
    seconds
}

fn us(seconds: f64) -> String {
    format!("{:.1}", seconds * 1e6)
}

pub fn joins(title: &str) {
    let others = SIDES[2..].iter().map(|Side { name, .. }| format!(", {name} μs, engine / {name}")).collect::<String>();
    let checks = "check of the project μs, of the part μs, of the joint μs, join / three checks";
    head(title, &format!("project and part, cells of the joint, join μs, preview μs, preview / join, {checks}{others}"));
    for (name, pair) in pairs() {
        let seconds = on_large_stack(|| least(&pair));
        let (sides, checks) = seconds.split_at(SIDES.len());
        let over = sides[0] / checks.iter().sum::<f64>();
        let checks: Vec<String> = checks.iter().map(|&seconds| us(seconds)).collect();
        let others = sides[2..].iter().map(|&other| format!(" {} | {:.2} |", us(other), sides[0] / other)).collect::<String>();
        let both = format!("{} | {} | {:.2}", us(sides[0]), us(sides[1]), sides[1] / sides[0]);
        println!("| {name} | {} | {both} | {} | {over:.2} |{others}", cells(&joint(&pair)), checks.join(" | "));
    }
}
