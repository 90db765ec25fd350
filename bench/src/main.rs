//! Times the engine against the evaluator, in one run: the tables of docs/PERFORMANCE.md.
//!
//! `bench [--quick] [--only PATTERN]..`
//!
//! With `--only`, only the tables whose title has one of the patterns in it; with `--quick`, with few rounds.

mod books;
mod joins;
mod stack;
mod timing;

use books::Named;
use compare::engines::Call;
use compare::extremes::times;
use compare::samples::sample_books;
use evaluator::{decode, encode_term, on_large_stack, successors, Term, Version, CELL};
use std::process::ExitCode;
use std::sync::atomic::Ordering::Relaxed;
use timing::{engine, evaluator, from_the_root, race, steps_alone, Said, Side, Timed, QUICK};

const DESK: Call = Call::Run { limit: 10_000 };
const TWO: [Side; 2] = [engine, evaluator];
const THREE: [Side; 3] = [engine, evaluator, from_the_root];

fn cells(book: &[u8]) -> usize {
    book.len() / CELL - 1
}

fn head(title: &str, columns: &str) {
    let columns: Vec<&str> = columns.split(", ").collect();
    println!("\n### {title}\n\n| {} |\n|{}", columns.join(" | "), "---|".repeat(columns.len()));
}

fn shown(answer: Said) -> String {
    match answer {
        Said::Refused { number, cell } => format!("refused {number} {cell}"),
        Said::Accepted { size } => format!("accepted {size}"),
        Said::Sheet { size, steps } => format!("accepted {size} with {steps}"),
        Said::Stopped { why, steps } => format!("{why} {steps}"),
    }
}

fn ms(seconds: f64) -> String {
    format!("{:.3}", seconds * 1e3)
}

/// The engine's time over another side's.
fn ratio(seconds: &[f64], side: usize) -> String {
    match seconds[0] / seconds[side] {
        ratio if ratio < 0.01 => "below 0.01".to_string(),
        ratio if ratio < 10.0 => format!("{ratio:.2}"),
        ratio => format!("{ratio:.0}"),
    }
}

const CHECKS: &str = "book, answer, engine ms, evaluator ms, engine / evaluator";
const RUNS: &str = "book, answer, engine ms, evaluator ms, from the root ms, engine / evaluator, engine / from the root";

/// A row: the answer, each side's time, the engine's over each other's.
fn row(name: &str, answer: &str, seconds: &[f64]) {
    let times: Vec<String> = seconds.iter().map(|&seconds| ms(seconds)).collect();
    let ratios: Vec<String> = (1..seconds.len()).map(|side| ratio(seconds, side)).collect();
    println!("| {name} | {answer} | {} | {} |", times.join(" | "), ratios.join(" | "));
}

fn table(title: &str, sides: &[Side], call: Call, books: &[Named]) {
    head(title, if sides.len() == 2 { CHECKS } else { RUNS });
    for (name, book) in books {
        let Timed { answer, seconds } = race(sides, call, std::slice::from_ref(book));
        row(name, &shown(answer), &seconds);
    }
}

/// The sheet call, beside a check and a run of the same book.
fn sheets(title: &str) {
    head(title, "book, answer, sheet ms, evaluator ms, engine / evaluator, sheet / check, sheet / run");
    for (name, book) in books::full() {
        let books = [book];
        let Timed { answer, seconds } = race(&TWO, Call::Sheet, &books);
        let [check, run] = [Call::Check, DESK].map(|call| ratio(&[seconds[0], race(&[engine], call, &books).seconds[0]], 1));
        let [own, other] = [0, 1].map(|side| ms(seconds[side]));
        println!("| {name} | {} | {own} | {other} | {} | {check} | {run} |", shown(answer), ratio(&seconds, 1));
    }
}

fn small_books(title: &str) {
    let books = books::small_typed(500);
    let size = books.iter().map(|book| cells(book)).sum::<usize>() / books.len();
    head(&format!("{title}: {}, {size} cells each on average", books.len()), RUNS);
    let check = race(&TWO, Call::Check, &books).seconds;
    println!("| check | accepted | {} | {} | - | {} | - |", ms(check[0]), ms(check[1]), ratio(&check, 1));
    row("run, limit 10,000", "value", &race(&THREE, DESK, &books).seconds);
}

fn long_runs(title: &str) {
    head(title, RUNS);
    for limit in [255, 511, 1_023, 2_046, 10_000] {
        let Timed { answer, seconds } = race(&THREE, Call::Run { limit }, &[books::growing()]);
        row(&format!("the growing fixpoint, limit {limit}"), &shown(answer), &seconds);
    }
    let calls = |name: &str, book: Vec<u8>| {
        let Timed { answer, seconds } = race(&THREE, DESK, &[book]);
        row(name, &shown(answer), &seconds);
    };
    calls("a function that calls itself, limit 10000", books::endless(0));
    calls("the same within 2,000 records", books::endless(2_000));
    for count in [10, 100, 256] {
        calls(&format!("the same with a value of {count} records"), books::carrying(count));
    }
    for count in [10, 100, 1_000] {
        calls(&format!("the same with {count} records in its body"), books::with_constant(count));
    }
}

/// The steps of a run over its time, which has the check in it; nothing if there are none.
fn steps_a_second(answer: Said, seconds: f64) -> String {
    match answer {
        Said::Stopped { steps, .. } if steps > 0 => format!("{:.0}", f64::from(steps) / seconds),
        _ => "-".to_string(),
    }
}

fn counting_loops(title: &str) {
    head(
        title,
        "book, answer, engine ms, evaluator ms, from the root ms, engine: steps a second, evaluator: steps a second, \
         engine / evaluator, engine / from the root",
    );
    for (name, book) in books::counting() {
        let Timed { answer, seconds } = race(&THREE, DESK, &[book]);
        let [a, b, c] = [0, 1, 2].map(|side| ms(seconds[side]));
        let [one, other] = [0, 1].map(|side| steps_a_second(answer, seconds[side]));
        let (first, second) = (ratio(&seconds, 1), ratio(&seconds, 2));
        println!("| {name} | {} | {a} | {b} | {c} | {one} | {other} | {first} | {second} |", shown(answer));
    }
}

fn samples(title: &str) {
    head(
        title,
        "book, answer, check ms, check: engine / evaluator, run ms, steps a second, run: engine / evaluator, run: engine / from the root",
    );
    for (name, book) in sample_books() {
        let books = [book];
        let check = race(&TWO, Call::Check, &books).seconds;
        let Timed { answer, seconds } = race(&THREE, DESK, &books);
        let rate = steps_a_second(answer, seconds[0]);
        let (first, second) = (ratio(&seconds, 1), ratio(&seconds, 2));
        let (check, over) = (ms(check[0]), ratio(&check, 1));
        println!("| {name} | {} | {check} | {over} | {} | {rate} | {first} | {second} |", shown(answer), ms(seconds[0]));
    }
}

/// The least seconds of each row over several passes through all rows, so that other work on the machine does not fall on one row.
fn passes(rows: usize, time: impl Fn(usize) -> Vec<f64>) -> Vec<Vec<f64>> {
    let pass = || (0..rows).map(&time).collect::<Vec<_>>();
    let least = |one: Vec<f64>, other: Vec<f64>| one.into_iter().zip(other).map(|(a, b)| a.min(b)).collect();
    let both = |one: Vec<Vec<f64>>, other: Vec<Vec<f64>>| one.into_iter().zip(other).map(|(a, b)| least(a, b)).collect();
    let count = if QUICK.load(Relaxed) { 1 } else { 4 };
    (0..count).map(|_| pass()).reduce(both).expect("a pass")
}

fn growth_of_the_check(title: &str) {
    head(title, "book, cells, engine ns a cell, evaluator ns a cell, engine / evaluator");
    let mut rows = Vec::new();
    for n in [512, 1_024, 2_048, 4_095] {
        rows.push(("nested records", times(n - 1, Term::number(1), |e| Term::record(7, e))));
        rows.push(("nested annotations", times((n - 1) / 2, Term::number(1), |e| Term::annotation(e, books::int()))));
        rows.push(("nested sums", times((n - 1) / 2, Term::number(1), |e| Term::sum(e, Term::number(1)))));
    }
    rows.sort_by_key(|(name, _)| *name);
    let books: Vec<Vec<u8>> = rows.iter().map(|(_, term)| encode_term(term, Version::One)).collect();
    let seconds = passes(rows.len(), |row| race(&TWO, Call::Check, &books[row..=row]).seconds);
    for ((name, term), seconds) in rows.iter().zip(seconds) {
        let [a, b] = [0, 1].map(|side| seconds[side] * 1e9 / term.size() as f64);
        println!("| {name} | {} | {a:.1} | {b:.1} | {} |", term.size(), ratio(&seconds, 1));
    }
}

/// The cells of a term on the way, on average over so many steps.
fn average_cells(book: &[u8], steps: u32) -> f64 {
    on_large_stack(|| {
        let (mut term, version) = decode(book).expect("a term");
        let mut sum = 0;
        for _ in 0..steps {
            sum += term.size();
            term = successors(&term, version).pop().expect("a successor");
        }
        sum as f64 / f64::from(steps)
    })
}

fn growth_of_a_step(title: &str) {
    let columns = "records, cells on average, engine ns a step, evaluator ns a step, from the root ns a step, engine / evaluator, \
                   engine / from the root";
    head(title, columns);
    // As many as there is room for within 4,000 records.
    const STEPS: u32 = 100;
    let around = [0, 250, 500, 1_000, 2_000, 4_000];
    let books = around.map(books::endless);
    for (around, book) in around.into_iter().zip(&books) {
        // From the root a step takes long: apart, so that the others have their rounds.
        let mut seconds = steps_alone(&TWO, book, STEPS);
        seconds.extend(steps_alone(&[from_the_root], book, STEPS));
        let [a, b, c] = [0, 1, 2].map(|side| seconds[side] * 1e9 / f64::from(STEPS));
        let (cells, first, second) = (average_cells(book, STEPS), ratio(&seconds, 1), ratio(&seconds, 2));
        println!("| {around} | {cells:.0} | {a:.0} | {b:.0} | {c:.0} | {first} | {second} |");
    }
}

fn casts(title: &str) {
    let columns = "value and type, parts of each, engine ms, evaluator ms, engine / evaluator, engine ns a pair of parts";
    head(title, columns);
    let mut rows: Vec<(&str, usize)> = Vec::new();
    let mut books: Vec<Vec<u8>> = Vec::new();
    for parts in [85, 170, 341, 682] {
        rows.push(("records, under their types in reverse order", parts));
        books.push(books::records_cast(parts));
    }
    for parts in [85, 170, 341, 682] {
        rows.push(("a record behind others, under copies of its type", parts));
        books.push(books::last_cast(parts));
    }
    for parts in [15, 30, 60] {
        rows.push(("a function with so many cells of body, under function types", parts));
        books.push(books::function_cast(parts, parts));
    }
    for ((name, parts), book) in rows.into_iter().zip(books) {
        let seconds = steps_alone(&TWO, &book, 1);
        let pair = seconds[0] * 1e9 / (parts * parts) as f64;
        println!("| {name} | {parts} | {} | {} | {} | {pair:.1} |", ms(seconds[0]), ms(seconds[1]), ratio(&seconds, 1));
    }
}

/// A table, from its title on.
type Table = fn(&str);

const TABLES: [(&str, Table); 18] = [
    ("Small typed books together", small_books),
    ("Books of 4,095 cells: check", |title| table(title, &TWO, Call::Check, &books::full())),
    ("Books of 4,095 cells: run, limit 10,000", |title| table(title, &THREE, DESK, &books::full())),
    ("Books of 4,095 cells: the sheet call, beside the check and the run", sheets),
    ("Field reads of a merge: check", |title| table(title, &TWO, Call::Check, &books::field_reads())),
    ("Field reads of a merge: run, limit 10,000", |title| table(title, &THREE, DESK, &books::field_reads())),
    ("Long runs", long_runs),
    ("Counting loops: run, limit 10,000", counting_loops),
    ("Costly books: check", |title| table(title, &TWO, Call::Check, &books::costly())),
    ("Merges of functions: check", |title| table(title, &TWO, Call::Check, &books::merged_functions())),
    ("Version 2 beside version 1: check", |title| table(title, &TWO, Call::Check, &books::both_versions())),
    ("Version 2 beside version 1: run, limit 10,000", |title| table(title, &TWO, DESK, &books::both_versions())),
    ("The sample books: check, and run with limit 10,000", samples),
    ("Joins, beside their previews and the checks that they are made of", joins::joins),
    ("Growth: the check", growth_of_the_check),
    ("Growth: a step of a function that calls itself within records", growth_of_a_step),
    ("The largest readings: the one step alone", casts),
    (
        "Stack: the most that a book takes, run with limits 0, 1, 2, 3, 10 and 10,000, and joined and previewed with the top value",
        stack::stack,
    ),
];

fn main() -> ExitCode {
    let mut only: Vec<String> = Vec::new();
    let mut words = std::env::args().skip(1);
    while let Some(word) = words.next() {
        match (word.as_str(), if word == "--only" { words.next() } else { None }) {
            ("--quick", _) => QUICK.store(true, Relaxed),
            ("--only", Some(pattern)) => only.push(pattern.to_lowercase()),
            _ => {
                eprintln!("usage: bench [--quick] [--only PATTERN]..; the tables are:");
                TABLES.iter().for_each(|(title, _)| eprintln!("    {title}"));
                return ExitCode::from(2);
            }
        }
    }
    let asked = |title: &str| only.is_empty() || only.iter().any(|pattern| title.to_lowercase().contains(pattern));
    on_large_stack(|| TABLES.iter().filter(|(title, _)| asked(title)).for_each(|(title, table)| table(title)));
    ExitCode::SUCCESS
}
