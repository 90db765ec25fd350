//! The sample books of document 01 with the answers that it states, and small books for what document 02 adds: field reads of merges (i), sums
//! and choices (ii), numbers of 48 bits (iv), sheets (ix).

use crate::bodies;
use crate::cells::{encode, number_cell, zeroed, Cells, Sharing};
use crate::engines::Call;
use crate::loops::{accumulated, countdown, triangular};
use crate::numbers::{refused, Refused};
use crate::orders;
use crate::random::Random;
use crate::settings;
use crate::versions;
use evaluator::{encode_term, kind, Answer, Cell, Term, Type};
use std::collections::BTreeMap;
use std::fs;
use std::path::Path;

pub struct Sample {
    pub name: &'static str,
    pub book: Vec<u8>,
    pub call: Call,
    /// What the document says of it, or what follows from its words.
    pub answer: Answer,
    /// The value it comes to, or the term it stops at, where the document names one.
    pub value: Option<Term>,
}

impl Sample {
    /// The value's book, in the version of the sample's own.
    pub fn left(&self) -> Option<Vec<u8>> {
        let version = Cells::of(&self.book)?.version;
        self.value.as_ref().map(|value| encode_term(value, version))
    }
}

fn number(n: i32) -> Term {
    Term::number(n)
}

fn int() -> Type {
    Type::int()
}

pub fn identity() -> Term {
    Term::function(Term::variable(0), int(), int())
}

pub fn hidden_field() -> Term {
    hidden_field_read(|merge| Term::annotation(merge, Type::record(1, int())))
}

/// The hidden field, its merge put through `from` before it is read.
fn hidden_field_read(from: impl FnOnce(Term) -> Term) -> Term {
    let merge = Term::merge(Term::record(1, number(2)), Term::variable(0));
    let function = Term::function(Term::projection(1, from(merge)), Type::record(2, int()), int());
    Term::application(function, Term::merge(Term::record(1, number(1)), Term::record(2, number(9))))
}

pub fn own_fixpoint() -> Term {
    Term::fixpoint(Term::variable(0), int())
}

/// Something merged with itself so many times over by sharing.
pub fn doubled(leaf: Cell, times: u16) -> Vec<u8> {
    doubled_by(kind::MERGE, &[leaf], times)
}

/// These cells, then so many of this kind, each of the one before with itself.
pub fn doubled_by(kind: u8, first: &[Cell], times: u16) -> Vec<u8> {
    let from = first.len() as u16 - 1;
    let doubles = (from..from + times).map(|n| Cell::new(kind, 0, [n, n, 0]));
    Cells::to_last(first.iter().copied().chain(doubles).collect()).bytes()
}

/// The top value merged with itself so many times over, twice, in cells of their own; the second for a root.
pub fn two_chains(times: u16) -> Cells {
    let Cells { cells: one, root, .. } = Cells::of(&doubled(zeroed(kind::TOP_VALUE), times)).expect("a book");
    let other = one.iter().map(|cell| cell.redirected(|to| to + root + 1));
    Cells::new(one.iter().copied().chain(other).collect(), 2 * root + 1)
}

/// The book of the desk program's example.
pub fn desk_example() -> Vec<u8> {
    let cells = vec![
        zeroed(kind::INT),
        number_cell(1),
        number_cell(5),
        Cell::new(kind::RECORD, 7, [2, 0, 0]),
        Cell::new(kind::MERGE, 0, [1, 3, 0]),
        Cell::new(kind::ANNOTATION, 0, [4, 0, 0]),
    ];
    Cells::new(cells, 5).bytes()
}

/// The books of the repository's folder books/, by name.
pub fn sample_books() -> BTreeMap<String, Vec<u8>> {
    books_of("../books")
}

/// The books of books/refusals/, by name: 02 gets refusal 2, and so on to 15.
pub fn refused_books() -> BTreeMap<String, Vec<u8>> {
    books_of("../books/refusals")
}

/// The books of books/merging/, by name: pairs with the same parts in two orders.
pub fn merging_books() -> BTreeMap<String, Vec<u8>> {
    books_of("../books/merging")
}

fn books_of(folder: &str) -> BTreeMap<String, Vec<u8>> {
    let path = Path::new(env!("CARGO_MANIFEST_DIR")).join(folder);
    let files = fs::read_dir(path).expect("the folder").map(|entry| entry.expect("its files").path());
    let books = files.filter(|path| path.extension().is_some_and(|end| end == "book"));
    books.map(|path| (path.file_stem().expect("a name").to_string_lossy().into_owned(), fs::read(path).expect("a book"))).collect()
}

pub fn samples() -> Vec<Sample> {
    let mut all = samples_by_answer();
    all.extend(samples_by_value());
    all.extend(refused_reads());
    all.extend(reads_by_value());
    all.extend(numbers_by_value());
    let value = Some(number(1));
    all.push(Sample {
        name: "the desk example",
        book: desk_example(),
        call: Call::Run { limit: 10_000 },
        answer: Answer::Value { steps: 1, mark: 6 },
        value,
    });
    all
}

fn unshared(term: &Term) -> Vec<u8> {
    encode(term, Sharing::Never, &mut Random::of(0, "", 0)).bytes()
}

/// Samples of which document 01 states the answer alone.
fn samples_by_answer() -> Vec<Sample> {
    let run = |limit| Call::Run { limit };
    let refused = |number, cell| Answer::Refused { number, cell };
    let mut list = Vec::new();
    let mut add = |name, book: Vec<u8>, call, answer| list.push(Sample { name, book, call, answer, value: None });

    add("1 merged with 1, checked", unshared(&Term::merge(number(1), number(1))), Call::Check, Answer::Accepted { size: 3 });
    add("1 merged with 2", unshared(&Term::merge(number(1), number(2))), Call::Check, refused(14, 2));
    let variables = Term::merge(Term::variable(0), Term::variable(0));
    add("a variable merged with itself", unshared(&Term::function(variables, int(), int())), Call::Check, refused(14, 2));
    add("3 applied to 4", unshared(&Term::application(number(3), number(4))), Call::Check, refused(12, 2));
    add("the fixpoint, limit 0", unshared(&own_fixpoint()), run(0), Answer::Spent { steps: 0, mark: 3 });
    add("the fixpoint, limit 2,046", unshared(&own_fixpoint()), run(2_046), Answer::Spent { steps: 2_046, mark: 4_095 });
    add("the fixpoint, limit 2,047", unshared(&own_fixpoint()), run(2_047), Answer::Room { steps: 2_046, mark: 4_095 });
    let top = zeroed(kind::TOP_VALUE);
    add("the top value merged 11 times", doubled(top, 11), Call::Check, Answer::Accepted { size: 4_095 });
    add("the top value merged 12 times", doubled(top, 12), Call::Check, refused(10, 12));
    let nested = (0..4_094).fold(number(5), |content, label| Term::record(label as u8, content));
    add("4,094 records round a number", unshared(&nested), Call::Check, Answer::Accepted { size: 4_095 });
    list
}

/// Samples of which document 01 states the value and the steps.
fn samples_by_value() -> Vec<Sample> {
    let mut list = Vec::new();
    let mut add = |name, term: Term, value: Term, (steps, mark)| {
        let (call, answer) = (Call::Run { limit: 10_000 }, Answer::Value { steps, mark });
        list.push(Sample { name, book: unshared(&term), call, answer, value: Some(value) });
    };
    let ones = Term::merge(number(1), number(1));
    add("1 merged with 1", ones.clone(), ones, (0, 3));
    let twice = Term::annotation(Term::annotation(number(1), Type::intersection(int(), int())), int());
    add("1 under Int and Int, then under Int", twice, number(1), (2, 7));
    let argument = Term::merge(number(1), Term::record(7, number(5)));
    add("the identity on a merge", Term::application(identity(), argument), number(1), (2, 9));
    let to_top = Type::function(int(), Type::top());
    add("the identity annotated Int to Top", Term::annotation(identity(), to_top), Term::top(), (1, 8));
    add("the top value applied to 3", Term::application(Term::top(), number(3)), Term::top(), (1, 3));
    add("the hidden field", hidden_field(), number(2), (4, 18));
    list
}

/// A field and what it holds.
fn field(label: u8, content: Term) -> Term {
    Term::record(label, content)
}

/// Field reads of merges that are refused: 13 names the read, which is the last cell.
fn refused_reads() -> Vec<Sample> {
    let mut list = Vec::new();
    let mut add = |name, number, term: Term| {
        let answer = Answer::Refused { number, cell: term.size() as usize - 1 };
        list.push(Sample { name, book: unshared(&term), call: Call::Check, answer, value: None });
    };
    let both = |one: Term, other: Term| Term::projection(1, Term::merge(one, other));
    add("no part of that label", 13, both(field(2, number(5)), field(3, number(6))));
    add("two parts of that label", 13, both(field(1, number(1)), field(1, number(1))));
    add("neither a field nor top-like", 13, both(number(3), field(2, number(1))));
    add("a merge applied", 12, Term::application(Term::merge(identity(), field(1, number(2))), number(1)));
    list
}

/// Field reads of merges that run.
fn reads_by_value() -> Vec<Sample> {
    let mut list = Vec::new();
    let mut add = |name, term: Term, value: Term, (steps, mark)| {
        let (call, answer) = (Call::Run { limit: 10_000 }, Answer::Value { steps, mark });
        list.push(Sample { name, book: unshared(&term), call, answer, value: Some(value) });
    };
    let read = |label: u8, one: Term, other: Term| Term::projection(label, Term::merge(one, other));
    let to_top = |input: Type| Term::function(Term::variable(0), input, Type::top());
    let nothing = || field(1, Term::top());
    add("the second of two fields", read(2, field(1, number(5)), field(2, number(6))), number(6), (1, 6));
    add("a field behind a top-like one", read(1, nothing(), field(1, number(5))), number(5), (1, 6));
    add("two top-like fields", read(1, nothing(), nothing()), Term::top(), (1, 6));
    add("a top-like field", read(1, field(1, to_top(Type::top())), field(2, number(3))), Term::top(), (1, 9));
    add("the same field alone", Term::projection(1, field(1, to_top(Type::top()))), to_top(Type::top()), (1, 6));
    add("a field beside a top-like function", read(9, number(3), to_top(int())), Term::top(), (1, 7));
    let (left, right) = (Term::merge(number(3), field(1, number(4))), Term::merge(Term::top(), field(2, number(5))));
    add("a field one level down", read(1, left, right), number(4), (1, 10));
    add("the hidden field, not annotated", hidden_field_read(|merge| merge), number(2), (3, 15));
    let annotated = Term::annotation(field(1, number(4)), Type::record(1, int()));
    add("a field that steps first", read(1, annotated, number(2)), number(4), (2, 8));
    list
}

/// The samples, the sums and choices with a part that is refused, functions that are compared, merges that are reordered, both versions, and
/// sheets: all books of which the answer is stated.
pub fn stated() -> Vec<Sample> {
    let name = "a refused part of a sum or choice";
    let sample = |Refused { book, answer }| Sample { name, book, call: Call::Check, answer, value: None };
    let refused = refused().into_iter().map(sample);
    let later = bodies::stated().into_iter().chain(orders::stated()).chain(versions::stated()).chain(settings::stated());
    samples().into_iter().chain(refused).chain(later).collect()
}

/// Sums and choices that run.
fn numbers_by_value() -> Vec<Sample> {
    let mut list = Vec::new();
    let mut add = |name, term: Term, value: i32, (steps, mark)| {
        let (call, answer) = (Call::Run { limit: 10_000 }, Answer::Value { steps, mark });
        list.push(Sample { name, book: unshared(&term), call, answer, value: Some(number(value)) });
    };
    let sum = |one: i32, other: i32| Term::sum(number(one), number(other));
    let choice = |test: Term| Term::choice(test, number(8), number(9));
    let merge = |n: i32| Term::merge(number(n), field(7, number(5)));
    add("a sum", sum(2, 3), 5, (1, 3));
    add("a sum held above", sum(i32::MAX, 1), i32::MAX, (1, 3));
    add("a sum held below", sum(i32::MIN, -1), i32::MIN, (1, 3));
    add("a sum of both ends", sum(i32::MIN, i32::MAX), -1, (1, 3));
    add("a merge in a sum", Term::sum(merge(1), number(2)), 3, (1, 6));
    add("a choice for zero", choice(number(0)), 8, (2, 4));
    add("a choice for minus one", choice(number(-1)), 9, (2, 4));
    add("a choice for 65,536", choice(number(65_536)), 9, (2, 4));
    add("a choice for a merge with zero", choice(merge(0)), 8, (2, 7));
    add("a choice for a sum", choice(sum(1, -1)), 8, (3, 6));
    add("a branch that does not end", Term::choice(number(1), own_fixpoint(), number(9)), 9, (2, 6));
    add("the triangular number of 4", triangular(4), 10, (38, 61));
    add("the same, carried along", accumulated(4), 10, (48, 75));
    add("a loop of a thousand turns", countdown(1_000, 1, 7), 7, (7_006, 4_033));
    list
}
