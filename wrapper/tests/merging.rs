//! What docs/MERGING.md says of the books in books/merging/ is what the engine answers and leaves; the two books of each table list the same parts in
//! two orders; and of such books it is as the page says.

#![cfg(not(library_missing))]

mod pages;

use cerealbank::{check, run, Answer, RunAnswer};
use evaluator::{decode, encode_term, encode_type, infer, Term, TermShape, Version, CELL};
use pages::{answer, asked, at, books_in, padded, quoted, ran, text, LIMIT};
use std::collections::BTreeSet;
use std::fs;

/// A row of a table: the file's name and the book's bytes, and in the page's words the book, and each answer with what it leaves.
struct Row {
    name: String,
    bytes: Vec<u8>,
    book: String,
    check: (Answer, Option<String>),
    run: (RunAnswer, Option<String>),
}

fn row(line: &str) -> Row {
    let columns: Vec<&str> = line.trim_matches('|').split(" | ").map(str::trim).collect();
    let [name, book, checked, shown, stopped, left] = columns[..] else { panic!("{line}") };
    let word = |column: &str| quoted(column).first().unwrap_or_else(|| panic!("{line}")).to_string();
    let checked = answer(&word(checked)).unwrap_or_else(|| panic!("{line}"));
    let stopped = ran(&word(stopped)).unwrap_or_else(|| panic!("{line}"));
    let leaves = |column: &str| (column != "-").then(|| word(column));
    let name = word(name);
    let bytes = fs::read(at(&format!("books/merging/{name}.book"))).expect("the book's file");
    Row { name, bytes, book: word(book), check: (checked, leaves(shown)), run: (stopped, leaves(left)) }
}

/// The tables below a heading of the page, each of two rows.
fn pairs(heading: &str) -> Vec<[Row; 2]> {
    let page = text("docs/MERGING.md");
    let (_, after) = page.split_once(&format!("\n## {heading}\n")).expect("the heading");
    let section = after.split("\n## ").next().expect("its text");
    let rows: Vec<&str> = section.lines().filter(|line| line.starts_with("| `")).collect();
    let pairs = rows.chunks(2).map(|pair| [row(pair[0]), row(pair[1])]);
    pairs.collect()
}

fn reliable() -> Vec<[Row; 2]> {
    pairs("What you may rely on")
}

fn unreliable() -> Vec<[Row; 2]> {
    pairs("What you may not rely on")
}

/// The page writes a term or type as the evaluator does, without the outermost parentheses.
fn is_written(shown: impl ToString, page: &str) -> bool {
    let shown = shown.to_string();
    shown == page || shown == format!("({page})")
}

fn root(row: &Row) -> (Term, Version) {
    decode(&row.bytes).unwrap_or_else(|_| panic!("{}: no term", row.name))
}

/// What is merged, in the order in which it is listed.
fn listed(term: &Term, parts: &mut Vec<String>) {
    match term.shape() {
        TermShape::Merge(left, right) => [left, right].into_iter().for_each(|half| listed(half, parts)),
        _ => parts.push(term.to_string()),
    }
}

/// The parts of a merge in the order of the alphabet.
fn sorted(term: &Term) -> Vec<String> {
    let mut parts = Vec::new();
    listed(term, &mut parts);
    parts.sort();
    parts
}

/// The value of a root, and the type that it is annotated with.
fn value(term: &Term) -> (&Term, Option<String>) {
    match term.shape() {
        TermShape::Annotation(value, by) => (value, Some(by.to_string())),
        _ => (term, None),
    }
}

#[test]
fn every_row_is_what_the_engine_answers() {
    for row in reliable().into_iter().chain(unreliable()).flatten() {
        let Row { name, bytes, book, check: (checked, shown), run: (ran, left) } = &row;
        let (term, version) = root(&row);
        assert!(is_written(&term, book), "{name} is {term}");
        let accepted = matches!(checked, Answer::Accepted { .. });
        assert_eq!((accepted, accepted), (shown.is_some(), left.is_some()), "{name}");
        let (answer, work) = asked(|work| check(bytes, work));
        assert_eq!(answer, *checked, "{name}");
        let found = infer(&mut Vec::new(), &term).ok();
        assert_eq!(work, padded(&found.as_ref().map_or(Vec::new(), |found| encode_type(found, version))), "{name}");
        assert!(found.zip(shown.as_ref()).is_none_or(|(found, shown)| is_written(found, shown)), "{name}");
        let (answer, work) = asked(|work| run(bytes, work, LIMIT));
        assert_eq!(answer, *ran, "{name}");
        let reached = accepted.then(|| decode(pages::cut(&work)).expect("a term").0);
        assert_eq!(work, padded(&reached.as_ref().map_or(Vec::new(), |reached| encode_term(reached, version))), "{name}");
        assert!(reached.zip(left.as_ref()).is_none_or(|(reached, left)| is_written(reached, left)), "{name}");
    }
}

#[test]
fn the_pairs_to_rely_on_are_values_in_two_orders_and_are_answered_alike() {
    let pairs = reliable();
    assert_eq!(pairs.len(), 4);
    for [one, other] in &pairs {
        let names = format!("{} and {}", one.name, other.name);
        let ((first, _), (second, _)) = (root(one), root(other));
        let ((first, by), (second, by_other)) = (value(&first), value(&second));
        assert!(first.is_value() && first.is_closed() && second.is_value(), "{names}");
        assert_eq!((sorted(first), by), (sorted(second), by_other), "{names}");
        assert!(first != second, "{names}");
        assert_eq!(one.check, other.check, "{names}");
        assert_eq!(one.run, other.run, "{names}");
        assert!(asked(|work| check(&one.bytes, work)) == asked(|work| check(&other.bytes, work)), "{names}");
        assert!(asked(|work| run(&one.bytes, work, LIMIT)) == asked(|work| run(&other.bytes, work, LIMIT)), "{names}");
    }
}

#[test]
fn before_a_step_the_answers_are_alike_and_the_bytes_are_not() {
    let accepted = |[one, _]: &[Row; 2]| matches!(one.check.0, Answer::Accepted { .. });
    let pairs: Vec<[Row; 2]> = reliable().into_iter().filter(accepted).collect();
    assert_eq!(pairs.len(), 3);
    for [one, other] in &pairs {
        let [(answer, work), (other_answer, other_work)] = [one, other].map(|row| asked(|work| run(&row.bytes, work, 0)));
        let cells = (one.bytes.len() / CELL - 1) as u32;
        assert_eq!([answer, other_answer], [RunAnswer::Spent { steps: 0, mark: cells }; 2], "{}", one.name);
        assert!(work == padded(&one.bytes) && other_work == padded(&other.bytes) && work != other_work, "{}", one.name);
    }
}

#[test]
fn the_other_pairs_are_answered_otherwise() {
    let pairs = unreliable();
    assert_eq!(pairs.len(), 4);
    for [one, other] in &pairs {
        assert!(matches!(one.check.0, Answer::Accepted { .. }), "{}", one.name);
        assert_ne!(one.check, other.check, "{} and {}", one.name, other.name);
    }
    let [one, other] = &pairs[0];
    assert_eq!((one.check.0, one.run.0), (other.check.0, other.run.0), "a value that is not annotated has the same answers");
    assert!(pairs[1..].iter().all(|[_, other]| matches!(other.check.0, Answer::Refused { number: 14, .. })));
}

#[test]
fn every_file_has_its_row() {
    let rows: BTreeSet<String> = reliable().into_iter().chain(unreliable()).flatten().map(|row| row.name + ".book").collect();
    assert_eq!(rows, books_in("books/merging"));
}
