//! The deepest and the widest books.

use crate::cells::{encode, number_cell, zeroed, Cells, Sharing};
use crate::deepest;
use crate::random::Random;
use crate::samples::{doubled, own_fixpoint};
use evaluator::{kind, Cell, Term, Type};

pub(crate) fn int() -> Type {
    Type::int()
}

pub(crate) fn top() -> Type {
    Type::top()
}

pub(crate) fn number(n: i32) -> Term {
    Term::number(n)
}

/// Cells that each use the one before.
fn chain(first: Cell, count: usize, next: impl Fn(u16) -> Cell) -> Vec<Cell> {
    let rest = (0..count as u16 - 1).map(next);
    [first].into_iter().chain(rest).collect()
}

/// So many copies of the type, nested to the left or to the right.
pub fn left(t: &Type, count: usize) -> Type {
    (1..count).fold(t.clone(), |all, _| Type::intersection(all, t.clone()))
}

fn right(t: &Type, count: usize) -> Type {
    (1..count).fold(t.clone(), |all, _| Type::intersection(t.clone(), all))
}

/// The term within so many more of a form.
pub fn times(n: usize, start: Term, wrap: impl Fn(Term) -> Term) -> Term {
    (0..n).fold(start, |term, _| wrap(term))
}

/// Int from so many arguments to the type.
fn function_type(n: usize, last: Type) -> Type {
    (0..n).fold(last, |output, _| Type::function(int(), output))
}

pub fn extremes() -> Vec<Vec<u8>> {
    let terms = [deep_terms(), deep_functions(), wide_types(), every_label(), large_bodies(), little_room()];
    let reads = [deep_reads(), reads_of_every_label(), reads_of_many_variables()];
    let numbers = [deep_numbers(), large_number_bodies(), numbers_with_little_room()];
    let terms = terms.into_iter().chain(reads).chain(numbers).flatten().collect::<Vec<Term>>();
    let mut random = Random::of(0, "", 0);
    let mut books: Vec<Vec<u8>> = Vec::new();
    for term in &terms {
        for sharing in [Sharing::Never, Sharing::Always] {
            books.push(encode(term, sharing, &mut random).bytes());
        }
    }
    books.extend(sizes_by_sharing());
    books.extend(full_books());
    books
}

/// At the limit and just past it.
fn deep_terms() -> Vec<Term> {
    let mut terms = Vec::new();
    for n in [4_093, 4_094] {
        terms.push(times(n, number(5), |e| Term::record(8, e)));
        terms.push(times(n, Term::top(), |e| Term::projection(8, e)));
        terms.push(times(n, number(5), |e| Term::projection(8, e)));
    }
    for n in [2_046, 2_047, 2_048] {
        terms.push(times(n, number(5), |e| Term::annotation(e, int())));
        terms.push(times(n, number(5), |e| Term::annotation(e, top())));
        terms.push(times(n, Term::top(), |e| Term::application(e, number(1))));
        terms.push(times(n, number(1), |e| Term::application(Term::top(), e)));
        terms.push(times(n, Term::top(), |e| Term::merge(e, Term::top())));
        terms.push(times(n, Term::top(), |e| Term::merge(Term::top(), e)));
        terms.push(times(n, number(1), |e| Term::merge(e, number(1))));
        terms.push(times(n, number(1), |e| Term::merge(number(1), e)));
        terms.push(times(n, number(2), |e| Term::merge(e, number(1))));
        terms.push(times(n, Term::variable(0), |e| Term::fixpoint(e, int())));
    }
    terms.push(times(600, Term::variable(599), |e| Term::fixpoint(e, int())));
    terms
}

fn deep_functions() -> Vec<Term> {
    let mut terms = Vec::new();
    for n in [1_363, 1_364] {
        for skipped in [0, n as u16 / 2, n as u16 - 1, n as u16] {
            terms.push(times(n, Term::variable(skipped), |e| Term::function(e, int(), top())));
        }
    }
    // Applied to as many arguments; the variable goes through every substitution.
    let deep = (0..60).fold(Term::variable(59), |body, n| Term::function(body, int(), function_type(n, int())));
    terms.push(times(60, deep, |e| Term::application(e, number(3))));
    // A function that calls itself.
    let call = Term::application(Term::variable(1), Term::variable(0));
    let again = Term::fixpoint(Term::function(call, int(), int()), Type::function(int(), int()));
    terms.push(Term::application(again, number(1)));
    terms
}

fn wide_types() -> Vec<Term> {
    let mut terms = Vec::new();
    for n in [2_000, 4_000] {
        terms.push(Term::annotation(number(1), (0..n).fold(top(), |t, _| Type::record(1, t))));
    }
    terms.push(Term::annotation(number(1), function_type(2_040, top())));
    terms.push(Term::annotation(number(1), (0..2_040).fold(int(), |t, _| Type::function(t, top()))));
    terms.push(Term::annotation(number(1), left(&top(), 2_000)));
    terms.push(Term::annotation(number(1), right(&int(), 2_000)));
    let twice = Term::annotation(Term::annotation(number(1), left(&int(), 600)), right(&int(), 600));
    terms.push(Term::annotation(twice, left(&int(), 500)));
    let odd = Type::intersection(left(&int(), 600), Type::record(1, int()));
    terms.push(Term::annotation(Term::annotation(number(1), left(&int(), 600)), odd));
    let fixed = Term::fixpoint(Term::variable(0), function_type(600, int()));
    terms.push(Term::annotation(fixed.clone(), function_type(600, int())));
    terms.push(Term::annotation(fixed, function_type(601, int())));
    terms
}

/// Every label merged, cast to the reverse order, then each through an annotation; and types inferred under a binder that are far
/// larger than the book.
fn every_label() -> Vec<Term> {
    let merged = |field: &dyn Fn(u8) -> Term| (0..=255).map(field).reduce(Term::merge).expect("256 fields");
    let merge = merged(&|label| Term::record(label, number(i32::from(label))));
    let reversed = (0..=255).rev().map(|label| Type::record(label, int())).reduce(Type::intersection).expect("256 fields");
    let mut terms = vec![Term::annotation(merge.clone(), reversed)];
    for label in [0, 128, 255] {
        terms.push(Term::projection(label, Term::annotation(merge.clone(), Type::record(label, int()))));
    }
    terms.push(Term::merge(merge.clone(), Term::record(200, number(200))));
    terms.push(Term::merge(merge, Term::record(200, number(201))));

    let wide = left(&Type::record(2, int()), 300);
    let copies = merged(&|label| Term::record(label, Term::variable(0)));
    terms.push(Term::function(copies.clone(), wide.clone(), top()));
    terms.push(Term::function(copies.clone(), wide.clone(), Type::record(77, Type::record(2, int()))));
    terms.push(Term::function(copies, wide, Type::record(77, Type::record(3, int()))));
    terms
}

/// Equal and nearly equal large bodies.
fn large_bodies() -> Vec<Term> {
    let shown = |n: usize| (0..n).fold(int(), |t, _| Type::record(1, t));
    let function =
        |n: usize, last: i32, output: Type| Term::function(times(n, number(last), |e| Term::record(1, e)), int(), output);
    vec![
        Term::merge(function(1_000, 1, top()), function(1_000, 1, top())),
        Term::merge(function(1_000, 1, shown(1_000)), function(1_000, 1, shown(1_000))),
        Term::merge(function(300, 1, shown(300)), function(300, 1, shown(300))),
        Term::merge(function(300, 1, shown(300)), function(300, 2, shown(300))),
    ]
}

/// Fields read of the deepest merges, the record at the far end: found, and not found with and without a top-like part.
fn deep_reads() -> Vec<Term> {
    let far = || Term::record(0, number(5));
    let mut merges = Vec::new();
    for n in [2_046, 2_047] {
        for part in [Term::top(), number(1)] {
            merges.push(times(n, far(), |e| Term::merge(e, part.clone())));
            merges.push(times(n, far(), |e| Term::merge(part.clone(), e)));
        }
    }
    // Equal records may be merged.
    let mut parts: Vec<Term> = (0..600).map(|n| Term::record(1 + (n % 255) as u8, number(1))).collect();
    parts.push(far());
    merges.extend(deepest::merges(&parts).map(|(_, merge)| merge));
    let mut terms: Vec<Term> = merges.iter().flat_map(|e| [0, 9].map(|label| Term::projection(label, e.clone()))).collect();
    // Of a variable whose type is as deep, and of fields within fields.
    let shown = |side: fn(Type) -> Type| (0..2_043).fold(Type::record(0, int()), |t, _| side(t));
    for input in [shown(|t| Type::intersection(t, top())), shown(|t| Type::intersection(top(), t))] {
        let read = Term::function(Term::projection(0, Term::variable(0)), input, int());
        terms.push(Term::application(read, far()));
    }
    let nested = times(1_023, number(5), |e| Term::merge(Term::top(), Term::record(0, e)));
    terms.push(times(1_023, nested.clone(), |e| Term::projection(0, e)));
    terms.push(times(1_022, Term::projection(1, nested), |e| Term::projection(0, e)));
    terms
}

/// All labels but one merged, some read, and the one that is missing, with and without something top-like.
fn reads_of_every_label() -> Vec<Term> {
    let fields: Vec<Term> = (0..255).map(|label| Term::record(label, number(i32::from(label)))).collect();
    let mut terms = Vec::new();
    for (_, merge) in deepest::merges(&fields) {
        let with_top = Term::merge(merge.clone(), Term::function(Term::variable(0), int(), top()));
        for label in [0, 128, 254, 255] {
            terms.extend([&merge, &with_top].map(|of| Term::projection(label, of.clone())));
        }
    }
    terms
}

/// Reads of types that are far larger than the book: of many variables, each with many top-like parts.
fn reads_of_many_variables() -> Vec<Term> {
    let wide = left(&Type::record(2, top()), 30);
    let copies = times(60, Term::record(1, number(5)), |e| Term::merge(e, Term::variable(0)));
    let read = |label| Term::function(Term::projection(label, copies.clone()), wide.clone(), top());
    let applied = Term::application(read(1), Term::record(2, number(6)));
    vec![read(1), read(2), read(3), applied]
}

/// Sums and choices at the limit and just past it.
fn deep_numbers() -> Vec<Term> {
    let mut terms = Vec::new();
    let [least, most] = [i32::MIN, i32::MAX].map(number);
    for n in [2_046, 2_047, 2_048] {
        for start in [number(0), least.clone(), most.clone()] {
            terms.push(times(n, start.clone(), |e| Term::sum(e, number(1))));
            terms.push(times(n, start, |e| Term::sum(number(-1), e)));
        }
        terms.push(times(n, Term::top(), |e| Term::sum(e, number(1))));
        terms.push(times(n, Term::top(), |e| Term::sum(number(1), e)));
    }
    for n in [1_364, 1_365] {
        for tested in [0, 1, 65_536] {
            terms.push(times(n, number(tested), |e| Term::choice(e, number(1), number(0))));
            terms.push(times(n, number(7), |e| Term::choice(number(tested), e, number(8))));
            terms.push(times(n, number(7), |e| Term::choice(number(tested), number(8), e)));
        }
        terms.push(times(n, Term::top(), |e| Term::choice(number(1), number(2), e)));
    }
    // Exactly at the limit.
    let choices = times(1_364, number(0), |e| Term::choice(e, number(1), number(0)));
    terms.extend([Term::sum(choices.clone(), number(2)), Term::sum(number(2), choices)]);
    terms
}

/// Equal and nearly equal large bodies of sums and choices, the one difference in the first part or in the last.
fn large_number_bodies() -> Vec<Term> {
    type Wrap = fn(Term) -> Term;
    let nested = |n: usize, far: i32, wrap: Wrap| Term::function(times(n, number(far), wrap), int(), int());
    let ways: [(usize, Wrap); 5] = [
        (1_000, |e| Term::sum(e, Term::variable(0))),
        (1_000, |e| Term::sum(Term::variable(0), e)),
        (680, |e| Term::choice(e, Term::variable(0), number(1))),
        (680, |e| Term::choice(Term::variable(0), e, number(1))),
        (680, |e| Term::choice(Term::variable(0), number(1), e)),
    ];
    let pairs = ways.iter().flat_map(|&(n, wrap)| [1, 2].map(|far| Term::merge(nested(n, 1, wrap), nested(n, far, wrap))));
    pairs.collect()
}

/// No room in a part of a sum or choice, from every size of what is around.
fn numbers_with_little_room() -> Vec<Term> {
    let mut terms = Vec::new();
    for n in 0..8 {
        let other = times(n, number(1), |e| Term::annotation(Term::record(6, e), top()));
        let beside = Term::merge(number(2), Term::annotation(other, top()));
        terms.push(Term::sum(own_fixpoint(), beside.clone()));
        terms.push(Term::sum(beside.clone(), own_fixpoint()));
        terms.push(Term::choice(own_fixpoint(), beside.clone(), number(1)));
        terms.push(Term::choice(own_fixpoint(), number(1), beside.clone()));
        terms.push(Term::choice(number(0), own_fixpoint(), beside.clone()));
        terms.push(Term::choice(beside, number(0), own_fixpoint()));
    }
    terms
}

/// No room, from every size of the term around.
fn little_room() -> Vec<Term> {
    let mut terms = Vec::new();
    for n in 0..8 {
        terms.push(times(n, own_fixpoint(), |e| Term::record(6, e)));
        terms.push(times(n, own_fixpoint(), |e| Term::merge(Term::top(), e)));
        let at = left(&int(), n + 1);
        terms.push(Term::fixpoint(Term::variable(0), at.clone()));
        terms.push(Term::record(1, Term::fixpoint(Term::variable(0), at)));
    }
    terms
}

/// Just within, just past, and far past every number; choices grow threefold, and so sooner.
fn sizes_by_sharing() -> Vec<Vec<u8>> {
    let mut books = Vec::new();
    for times in [6, 7, 8, 9, 10, 11, 12, 13, 31, 32, 63, 64, 65, 4_093, 4_094] {
        books.push(doubled(number_cell(1), times));
        books.push(doubled(zeroed(kind::TOP_VALUE), times));
        books.extend([1, 1 << 20, -(1 << 20), 0].map(|first| doubled_numbers(number_cell(first), times)).concat());
        let types = chain(zeroed(kind::TOP), usize::from(times), |n| Cell::new(kind::INTERSECTION, 0, [n, n, 0]));
        let root = types.len() as u16 + 1;
        let mut book = Cells::new(types, root);
        book.cells.push(number_cell(1));
        book.cells.push(Cell::new(kind::ANNOTATION, 0, [book.root - 1, book.root - 2, 0]));
        books.push(book.bytes());
        // The same cells, not reached.
        books.push(Cells { root: book.root - 1, ..book }.bytes());
    }
    books
}

/// Sums of a cell with itself so many times over by sharing; and choices of a cell among itself.
fn doubled_numbers(first: Cell, times: u16) -> [Vec<u8>; 2] {
    let book = |next: fn(u16) -> Cell| Cells::new(chain(first, usize::from(times) + 1, next), times).bytes();
    [book(|n| Cell::new(kind::SUM, 0, [n, n, 0])), book(|n| Cell::new(kind::CHOICE, 0, [n, n, n]))]
}

/// Every cell reached, none but the root, the longest length and past it.
fn full_books() -> Vec<Vec<u8>> {
    let mut books = Vec::new();
    for count in [4_094, 4_095, 4_096] {
        for root in [0, count as u16 - 1] {
            let cells = chain(number_cell(7), count, |n| Cell::new(kind::RECORD, 1, [n, 0, 0]));
            books.push(Cells::new(cells, root).bytes());
            let cells = vec![zeroed(kind::TOP_VALUE); count];
            books.push(Cells::new(cells, root).bytes());
        }
    }
    books
}
