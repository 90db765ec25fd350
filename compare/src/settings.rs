//! Settings sheets, and books that nearly are. Document 02, (ix): "Most books are plain settings."

use crate::cells::{encode, number_cell, zeroed, Cells, Sharing};
use crate::engines::Call;
use crate::extremes::{int, number, times, top};
use crate::families::{changed, encoded_in, loose_cell, one_book_in, typed_term};
use crate::maker::{Maker, Weights, EVEN, LABELS};
use crate::random::Random;
use crate::refusals::by_turns;
use crate::samples::{doubled, doubled_by, own_fixpoint, Sample};
use evaluator::{encode_term, infer, kind, Answer, Cell, Sort, Term, Type, Version, FORBIDDEN};

fn as_int(e: Term) -> Term {
    Term::annotation(e, int())
}

fn to_top() -> Type {
    Type::function(int(), top())
}

fn function(body: Term) -> Term {
    Term::function(body, int(), int())
}

fn field(label: u8, content: Term) -> Term {
    Term::record(label, content)
}

/// A number annotated with Int.
fn annotated() -> [Cell; 3] {
    [zeroed(kind::INT), number_cell(1), Cell::new(kind::ANNOTATION, 0, [1, 0, 0])]
}

/// Books of which the words of document 02 give the answer, those of terms in both versions.
pub fn stated() -> Vec<Sample> {
    let sheet = |size, steps| Answer::Sheet { size, steps };
    let refused = |number, cell| Answer::Refused { number, cell };
    let both = Type::intersection(int(), int());
    let read = Term::projection(1, Term::merge(field(1, as_int(number(1))), field(2, number(2))));
    let terms = [
        ("a number as a sheet", number(1), sheet(1, 0)),
        ("an annotation as a sheet", as_int(number(1)), sheet(1, 1)),
        ("two annotations as a sheet", as_int(Term::annotation(number(1), both)), sheet(1, 2)),
        ("the top value applied, as a sheet", Term::application(Term::top(), number(3)), sheet(1, 1)),
        (
            "an annotated top value applied, as a sheet",
            Term::application(Term::annotation(Term::top(), to_top()), as_int(number(3))),
            sheet(1, 3),
        ),
        ("two sums as a sheet", Term::sum(number(1), Term::sum(number(2), number(3))), sheet(1, 2)),
        ("a field read as a sheet", read, sheet(1, 2)),
        ("a function as a sheet", function(Term::variable(0)), refused(17, 3)),
        ("an ill-typed book as a sheet", Term::application(number(1), function(Term::variable(3))), refused(17, 5)),
        ("a choice as a sheet", Term::choice(number(1), number(1), number(1)), refused(17, 3)),
        ("a variable as a sheet", Term::variable(0), refused(17, 0)),
        ("a fixpoint as a sheet", own_fixpoint(), refused(17, 2)),
        ("a number applied, as a sheet", Term::application(number(1), number(1)), refused(12, 2)),
        ("two numbers as a sheet", Term::merge(number(1), number(2)), refused(14, 2)),
    ];
    let sample = |name, book, answer| Sample { name, book, call: Call::Sheet, answer, value: None };
    let in_both = |(name, term, answer)| Version::ALL.map(|version| sample(name, encode_term(&term, version), answer));
    let mut list: Vec<Sample> = terms.into_iter().flat_map(in_both).collect();
    list.push(sample("a number annotated and doubled nine times", doubled_by(kind::SUM, &annotated(), 9), sheet(1, 1_023)));
    let variable = zeroed(kind::VARIABLE);
    list.push(sample("a variable doubled 11 times", doubled(variable, 11), refused(17, 11)));
    list.push(sample("a variable doubled 12 times", doubled(variable, 12), refused(10, 12)));
    list.push(sample("a type as a sheet", Cells::to_last(vec![zeroed(kind::INT)]).bytes(), refused(9, 0)));
    let beside = Cells::new(vec![variable, number_cell(4)], 1);
    list.push(sample("a variable that is not reached", beside.bytes(), sheet(1, 0)));
    list
}

/// Where a term can stand, with one field or two around it.
const PLACES: [fn(Term) -> Term; 12] = [
    as_int,
    |e| Term::annotation(e, top()),
    |e| Term::annotation(e, to_top()),
    |e| Term::application(e, number(2)),
    |e| Term::application(Term::top(), e),
    |e| Term::merge(e, field(9, number(3))),
    |e| Term::merge(Term::projection(2, Term::top()), e),
    |e| field(1, e),
    |e| Term::projection(1, e),
    |e| Term::projection(1, Term::merge(field(1, e), Term::top())),
    |e| Term::sum(e, number(4)),
    |e| Term::sum(as_int(number(5)), e),
];

/// What may stand there, and what no sheet has.
fn leaves() -> Vec<Term> {
    let sheets = [number(1), Term::top(), Term::annotation(Term::top(), to_top()), Term::sum(number(1), number(1))];
    let others = [
        Term::variable(0),
        function(number(1)),
        function(Term::variable(0)),
        own_fixpoint(),
        Term::fixpoint(number(1), int()),
        Term::choice(number(0), number(1), number(1)),
    ];
    sheets.into_iter().chain(others).collect()
}

/// Each of these alone, in every place, and in every two.
fn in_places() -> Vec<Vec<u8>> {
    let around = |e: &Term| PLACES.map(|place| place(e.clone()));
    let of = |leaf: Term| {
        let once = around(&leaf);
        let twice: Vec<Term> = once.iter().flat_map(around).collect();
        [leaf].into_iter().chain(once).chain(twice).collect()
    };
    let lists: Vec<Vec<Term>> = leaves().into_iter().map(of).collect();
    by_turns(&lists).iter().map(|term| encode(term, Sharing::Always, &mut Random::of(0, "", 0)).bytes()).collect()
}

/// A cell of one of these kinds that passes the rows 5 to 8 at this place, if one is soon found.
fn loose_of(kinds: &[u8], book: &Cells, at: usize, random: &mut Random) -> Option<Cell> {
    (0..200).map(|_| loose_cell(book, at, random)).find(|cell| kinds.contains(&cell.kind))
}

/// Each of the kinds that no sheet has, or another, beside a sheet that does not reach it: before it, within it and behind it.
fn unreached() -> Vec<Vec<u8>> {
    let mut random = Random::of(0, "", 0);
    let sheets = [as_int(number(1)), PLACES[9](as_int(number(7))), Term::application(Term::top(), Term::top())];
    let kinds = FORBIDDEN.into_iter().chain([kind::SUM, kind::RECORD]);
    let mut books = Vec::new();
    for (kind, term) in kinds.flat_map(|kind| sheets.clone().map(|term| (kind, term))) {
        let book = Cells::of(&encode_term(&term, Version::One)).expect("a book");
        for at in [0, 2, book.cells.len()] {
            let mut book = book.clone();
            let Some(cell) = loose_of(&[kind], &book, at, &mut random) else { continue };
            book.insert(at, cell);
            books.push(book.bytes());
        }
    }
    books
}

/// Doubled by sharing, within the limit and past it.
fn heavily_shared() -> Vec<Vec<u8>> {
    let [value, variable] = [kind::TOP_VALUE, kind::VARIABLE].map(zeroed);
    let starts = [vec![number_cell(1)], vec![value], vec![variable], annotated().to_vec()];
    let kinds = [kind::SUM, kind::APPLICATION, kind::MERGE];
    let of = |times| starts.iter().flat_map(move |first| kinds.map(|kind| doubled_by(kind, first, times)));
    [1, 2, 5, 8, 9, 10, 11, 12, 13, 31, 32, 64].into_iter().flat_map(of).collect()
}

/// A term of so many cells, of type Top over such a leaf, in which every cell but the leaves is a step to take: in a book that shares all it can, of
/// few.
fn stepping(leaf: &Term, cells: u64) -> Term {
    match cells {
        1 => leaf.clone(),
        _ if cells.is_multiple_of(2) => Term::projection(3, stepping(leaf, cells - 1)),
        _ => {
            let half = stepping(leaf, (cells - 1) / 2);
            Term::application(half.clone(), half)
        }
    }
}

/// At the limit and one past it, shared and not; deep ones, and what no sheet has at the far end of them.
fn large() -> Vec<Vec<u8>> {
    let mut random = Random::of(0, "", 0);
    let mut terms: Vec<(Term, Sharing)> = Vec::new();
    for cells in [255, 256, 257, 4_093, 4_094, 4_095, 4_096, 4_097] {
        terms.extend([Term::top(), Term::variable(0)].map(|leaf| (stepping(&leaf, cells), Sharing::Always)));
        terms.push((Term::merge(stepping(&Term::top(), cells - 2), number(1)), Sharing::Always));
    }
    for leaf in [Term::top(), Term::variable(0)] {
        terms.push((times(4_094, leaf.clone(), |e| Term::projection(1, e)), Sharing::Never));
        terms.push((times(2_047, leaf.clone(), |e| Term::application(Term::top(), e)), Sharing::Always));
        terms.push((times(2_046, leaf, |e| Term::annotation(e, top())), Sharing::Always));
    }
    for place in PLACES {
        terms.push((times(300, number(1), place), Sharing::Always));
        terms.push((times(20, Term::choice(number(1), number(1), number(1)), place), Sharing::Always));
    }
    terms.iter().map(|(term, sharing)| encode(term, *sharing, &mut random).bytes()).collect()
}

/// A sheet, and a book that is none, with each byte another one.
fn damaged() -> Vec<Vec<u8>> {
    let other = Term::application(Term::top(), function(Term::choice(number(1), Term::variable(0), own_fixpoint())));
    let each_byte = |term: Term| {
        let book = encode_term(&term, Version::One);
        let places = (0..book.len()).flat_map(|at| [0, 2, 16, 28].map(|byte| (at, byte)));
        places.map(|(at, byte)| [&book[..at], &[byte], &book[at + 1..]].concat()).collect()
    };
    by_turns(&[PLACES[9](number(7)), other].map(each_byte))
}

/// All of these by turns.
pub fn sheets() -> Vec<Vec<u8>> {
    let stated = stated().into_iter().map(|sample| sample.book).collect();
    by_turns(&[stated, in_places(), unreached(), heavily_shared(), large(), damaged()])
}

/// Settings: no variable, function, fixpoint or choice is asked for.
const SETTINGS: Weights = Weights {
    variable: 0,
    application: 0,
    fixpoint: 0,
    choice: 0,
    annotation: 4,
    projection: 4,
    merge: 4,
    duplicate: 2,
    sum: 5,
    ..EVEN
}
.of_type(kind::FUNCTION_TYPE, 0);

/// Something of a top-like type: the top value applied, read and annotated, at times with function types.
fn of_top(random: &mut Random) -> Term {
    let label = *random.pick(&LABELS);
    let mut maker = Maker::new(random, SETTINGS, 3);
    let input = maker.a_type(1);
    let argument = maker.term(&input);
    match random.lower(5) {
        0 => Term::application(Term::top(), argument),
        1 => Term::application(Term::annotation(Term::top(), Type::function(input, top())), argument),
        2 => Term::projection(label, Term::annotation(argument, top())),
        3 => Term::annotation(Term::top(), Type::function(Type::function(input, int()), Type::record(label, top()))),
        _ => Term::annotation(argument, Type::intersection(top(), Type::function(input, top()))),
    }
}

/// The term within something more that takes steps; mostly its type stays, or becomes one below.
fn within(term: Term, random: &mut Random) -> Term {
    let label = *random.pick(&LABELS);
    let of = infer(&mut Vec::new(), &term);
    match (random.lower(5), of) {
        (0 | 1, Ok(of)) => {
            let beside = if random.once_in(2) { Term::merge(term, of_top(random)) } else { term };
            Term::annotation(beside, of)
        }
        (2, _) => Term::projection(label, field(label, term)),
        (3, _) => Term::projection(label, Term::merge(field(label, term), of_top(random))),
        _ => Term::merge(of_top(random), term),
    }
}

/// The term with some of its parts within something more. What is a value stays one, for it may be merged with an equal one.
fn dressed(term: &Term, random: &mut Random) -> Term {
    let node = term.node();
    let mut whole = term.clone();
    for (part_field, _, part) in node.terms().filter(|_| !term.is_value()) {
        whole = whole.with_part(part_field, &dressed(part, random));
    }
    if random.once_in(6) {
        return within(whole, random);
    }
    whole
}

/// Mostly a typed sheet, for a book of this version.
fn sheet_term(version: Version, random: &mut Random) -> Term {
    let fuel = if random.once_in(20) { 80 } else { 20 };
    let term = typed_term(version, random, SETTINGS, fuel);
    let term = dressed(&term, random);
    if random.once_in(3) {
        return within(term, random);
    }
    term
}

/// Typed sheets of both versions; at times a sum of one with itself, and again, by sharing.
pub fn typed_sheets(random: &mut Random) -> Vec<Vec<u8>> {
    let version = *random.pick(&Version::ALL);
    let term = sheet_term(version, random);
    if !random.once_in(8) {
        return one_book_in(version, &term, random);
    }
    let count = random.between(1, 6);
    let doubled = times(count, as_int(Term::merge(number(1), field(9, term))), |e| Term::sum(e.clone(), e));
    vec![encoded_in(version, &doubled, Sharing::Always, random).bytes()]
}

/// The book with one more cell at this place, of a kind that no sheet has.
fn with_other(book: &Cells, at: usize, random: &mut Random) -> Cells {
    let mut other = book.clone();
    let cell = loose_of(&FORBIDDEN, book, at, random).unwrap_or(zeroed(kind::VARIABLE));
    other.insert(at, cell);
    other
}

/// One reference to a term, behind this cell, now goes to it: the root's, if there is none.
fn referred(book: &mut Cells, to: usize, random: &mut Random) {
    let is_term = |(_, sort): &(usize, Option<Sort>)| *sort == Some(Sort::Term);
    let fields = |at: usize| book.cells[at].references().into_iter().enumerate().filter(is_term).map(move |(field, _)| (at, field));
    let later: Vec<(usize, usize)> = (to + 1..=usize::from(book.root)).flat_map(fields).collect();
    match later.as_slice() {
        [] => book.root = to as u16,
        _ => {
            let &(at, field) = random.pick(&later);
            book.cells[at].fields[field] = to as u16;
        }
    }
}

/// A sheet with a cell more that no sheet has and that its root does not reach; the same, mostly reached, at times with one more behind the root or
/// another root; and sheets one change away, mostly ill typed.
pub fn nearly_sheets(random: &mut Random) -> Vec<Vec<u8>> {
    let version = *random.pick(&Version::ALL);
    let term = sheet_term(version, random);
    let sharing = Sharing::any(random);
    let book = encoded_in(version, &term, sharing, random);
    let at = random.between(0, book.cells.len());
    let unreached = with_other(&book, at, random);
    let mut reached = unreached.clone();
    referred(&mut reached, at, random);
    if random.once_in(4) {
        reached = with_other(&reached, reached.cells.len(), random);
    }
    if random.once_in(8) {
        reached.root = random.lower(reached.cells.len()) as u16;
    }
    let changes = [(); 2].map(|()| {
        let mut miss = book.clone();
        changed(&mut miss, random);
        miss
    });
    [unreached, reached].into_iter().chain(changes).map(|book| book.bytes()).collect()
}
