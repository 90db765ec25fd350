//! Books of both versions. Document 02, (iv): "Version 2 in the trailer stores a number in bytes 2–7, signed." Numbers at the ends of each version
//! and of each field, trailers and cells that only one version takes, and books of version 2 made at random.

use crate::cells::{encode_in, zeroed, Cells, Sharing};
use crate::contexts::within_many;
use crate::engines::Call;
use crate::families::{changed, one_book_in, typed_any, typed_term};
use crate::loops::counting_loops;
use crate::maker::{Weights, EVEN};
use crate::numbers::arithmetic;
use crate::random::Random;
use crate::refusals::{by_turns, damaged};
use crate::samples::{hidden_field, identity, Sample};
use evaluator::{encode_term, infer, kind, restamped, Answer, Cell, Term, Type, Version, CELL, TRAILER};
use std::collections::BTreeMap;
use Version::{One, Two};

fn int() -> Type {
    Type::int()
}

fn number(n: i64) -> Term {
    Term::number(n)
}

/// A function from Int to Int.
fn function(body: Term) -> Term {
    Term::function(body, int(), int())
}

const LEAST: i64 = Two.least();
const MOST: i64 = Two.most();

/// About both ends of each version, about zero, 2^16 and 2^32, and with zero in some of the three fields.
const NUMBERS: [i64; 40] = [
    MOST,
    0,
    LEAST,
    1 << 32,
    -1,
    65_536,
    1,
    (1 << 31) - 1,
    -(1 << 31),
    MOST - 1,
    LEAST + 1,
    1 << 31,
    -(1 << 31) - 1,
    -(1 << 32),
    (1 << 32) - 1,
    (1 << 32) + 1,
    -65_536,
    1 << 40,
    65_535,
    65_537,
    -65_535,
    -65_537,
    (1 << 31) - 2,
    (1 << 31) + 1,
    -(1 << 31) + 1,
    -(1 << 31) - 2,
    -(1 << 32) + 1,
    -(1 << 32) - 1,
    1 << 46,
    -(1 << 46),
    (1 << 46) - 1,
    -(1 << 46) - 1,
    0xFFFF_0000,
    0x7FFF_0000_0000,
    0x7FFF_FFFF_0000,
    0x7FFF_0000_FFFF,
    0x1234_5678_9ABC,
    -2,
    2,
    -(1 << 40),
];

/// Those that a version has.
fn numbers_of(version: Version) -> Vec<i64> {
    NUMBERS.into_iter().filter(|&n| version.held(n) == n).collect()
}

/// A number for a book of version 2: one of the list, one bit and its neighbours, or any.
pub fn wide_number(random: &mut Random) -> i64 {
    match random.lower(6) {
        0 => Two.number([(); 3].map(|()| random.draw() as u16)),
        1 => Two.held((1 << random.lower(48)) * [1, -1][random.lower(2)] + random.lower(3) as i64 - 1),
        _ => *random.pick(&NUMBERS),
    }
}

/// A number with a field beside it, on either side.
fn with_field(n: i64, left: bool) -> Term {
    let field = Term::record(7, number(n / 2));
    if left {
        Term::merge(number(n), field)
    } else {
        Term::merge(field, number(n))
    }
}

/// What a number is by itself: as it stands, in a field, tested in several ways, one past itself and back, added to itself in a body.
fn alone(n: i64) -> Vec<Term> {
    let plain = [number(n), Term::projection(7, with_field(n, true)), Term::application(identity(), number(n))];
    let tests = [number(n), with_field(n, true), with_field(n, false), Term::annotation(number(n), int())];
    let tested = tests.map(|test| Term::choice(test, number(5), number(n)));
    let past = [1, -1].map(|one| Term::sum(Term::sum(number(n), number(one)), number(-one)));
    let beside = [1, -1].map(|one| Term::sum(with_field(n, one > 0), with_field(one, one < 0)));
    let body = Term::choice(Term::variable(0), number(n), Term::sum(Term::variable(0), number(n)));
    let applied = Term::application(function(body), number(n));
    plain.into_iter().chain(tested).chain(past).chain(beside).chain([applied]).collect()
}

/// Two numbers added, their sum tested, and added as merges, the field on either side by turns.
fn sums(m: i64, n: i64, turn: usize) -> [Term; 3] {
    let sum = Term::sum(number(m), number(n));
    let beside = Term::sum(with_field(m, turn.is_multiple_of(2)), with_field(n, turn % 4 < 2));
    [Term::choice(sum.clone(), number(5), sum.clone()), sum, beside]
}

/// Every two numbers of a version added: each with the one so far behind it, so that the first are of all kinds.
fn added(version: Version) -> Vec<Term> {
    let numbers = numbers_of(version);
    let count = numbers.len();
    let pairs = (0..count).flat_map(|apart| (0..count).map(move |place| (place, (place + apart) % count)));
    pairs.enumerate().flat_map(|(turn, (one, other))| sums(numbers[one], numbers[other], turn)).collect()
}

/// Where two numbers can stand that have to be equal.
const MERGED: [fn(i64, i64) -> Term; 7] = [
    |m, n| Term::merge(number(m), number(n)),
    |m, n| Term::merge(function(number(m)), function(number(n))),
    |m, n| Term::merge(Term::record(7, number(m)), Term::record(7, number(n))),
    |m, n| Term::merge(number(m), Term::merge(Term::record(7, number(1)), number(n))),
    |m, n| {
        let [one, other] = [m, n].map(|n| function(Term::sum(Term::variable(0), number(n))));
        Term::application(Term::annotation(Term::merge(one, other), Type::function(int(), int())), number(m))
    },
    |m, n| {
        let [one, other] = [m, n].map(|n| function(Term::choice(Term::variable(0), number(n), number(3))));
        Term::merge(Term::merge(number(4), Term::record(7, one)), Term::record(7, other))
    },
    |m, n| Term::annotation(Term::merge(Term::record(7, number(m)), Term::record(7, number(n))), Type::record(7, int())),
];

/// Numbers that differ from this one in one bit, and so in one field of its cell: the lowest bit of each field, the highest, and one between.
fn one_field_apart(n: i64, version: Version) -> Vec<i64> {
    let bits = (0..48).filter(|bit| [0, 6, 15].contains(&(bit % 16)));
    let apart = bits.map(|bit| n ^ (1 << bit)).map(|other| version.number(version.fields(other)));
    apart.filter(|&other| other != n).collect()
}

/// Every number of a version merged with itself, and every third with those that differ from it in one field: on either side by turns.
fn merged(version: Version) -> Vec<Term> {
    let numbers = numbers_of(version);
    let others = |n: i64| one_field_apart(n, version).into_iter().enumerate().map(move |(turn, other)| (turn, n, other));
    let equal = numbers.iter().flat_map(|&n| MERGED.map(|merge| merge(n, n)));
    let unequal = numbers.iter().step_by(3).flat_map(|&n| others(n)).flat_map(|(turn, n, other)| {
        let [one, other] = if turn % 2 == 0 { [n, other] } else { [other, n] };
        MERGED.map(|merge| merge(one, other))
    });
    by_turns(&[equal.collect(), unequal.collect()])
}

/// Numbers at the ends of both versions and of each field: alone, added, merged, and what is stated of them.
pub fn ends() -> Vec<Vec<u8>> {
    let mut random = Random::of(0, "", 0);
    let mut lists = vec![stated().into_iter().map(|sample| sample.book).collect()];
    for version in Version::ALL {
        let alone = numbers_of(version).into_iter().flat_map(alone).collect();
        let mut book = |term: &Term| encode_in(version, term, Sharing::Sometimes, &mut random).bytes();
        lists.extend([alone, added(version), merged(version)].map(|terms| terms.iter().map(&mut book).collect()));
    }
    by_turns(&lists)
}

/// Books that both versions accept, as version 1: with a number, with several, and with none.
fn good() -> Vec<Cells> {
    let terms = [
        number(5),
        Term::annotation(Term::merge(number(-5), Term::record(7, number(65_536))), int()),
        Term::top(),
        Term::choice(Term::sum(number(1), number(-1)), number(1), number(2)),
    ];
    let mut random = Random::of(0, "", 0);
    terms.iter().map(|term| encode_in(One, term, Sharing::Never, &mut random)).collect()
}

/// The book with another byte.
fn with_byte(book: &[u8], at: usize, byte: u8) -> Vec<u8> {
    let mut bytes = book.to_vec();
    bytes[at] = byte;
    bytes
}

fn with_trailer_byte(book: &[u8], place: usize, byte: u8) -> Vec<u8> {
    with_byte(book, book.len() - CELL + place, byte)
}

/// The book cut short or lengthened by zeros.
fn with_length(book: &[u8], length: usize) -> Vec<u8> {
    let mut bytes = book.to_vec();
    bytes.resize(length, 0);
    bytes
}

/// Every version on good books, their numbers as version 1 has them and as version 2 does; then every other byte of a version 2 trailer that
/// is tested with it.
fn trailers() -> Vec<Vec<u8>> {
    let every = |book: &[u8], place: usize| (0..=255).map(|byte| with_trailer_byte(book, place, byte)).collect::<Vec<_>>();
    let good = good().into_iter().map(|book| book.bytes());
    let both: Vec<Vec<u8>> = good.flat_map(|one| [restamped(&one).expect("version 1"), one]).collect();
    let mut lists: Vec<Vec<Vec<u8>>> = both.iter().map(|book| every(book, 1)).collect();
    lists.extend([0, 6, 7].map(|place| every(&both[2], place)));
    by_turns(&lists)
}

/// A cell in each version: for a root, behind the root, before it, and as a part of it.
fn placed(cell: Cell) -> Vec<Vec<u8>> {
    let top = zeroed(kind::TOP_VALUE);
    let record = Cell::new(kind::RECORD, 7, [0, 0, 0]);
    let lists = [(vec![cell], 0), (vec![top, cell], 0), (vec![cell, top], 1), (vec![cell, record], 1)];
    let book = |version: Version| lists.clone().map(|(cells, root)| Cells { cells, root, version }.bytes());
    Version::ALL.into_iter().flat_map(book).collect()
}

/// Every bit of a number's field a, with other fields and with a label too; every label; and what else is not named in version 2.
fn fields() -> Vec<Vec<u8>> {
    let number = |label: u8, fields: [u16; 3]| Cell::new(kind::NUMBER, label, fields);
    let bits = (0..16).flat_map(|bit| [[1 << bit, 5, 0], [1 << bit, 0, 0], [1 << bit, u16::MAX, u16::MAX]]);
    let fields = bits.flat_map(|fields| [number(0, fields), number(3, fields)]);
    let labels = (0..=255).map(|label| number(label, [0, 5, 0]));
    let lists = [fields.flat_map(placed).collect(), labels.flat_map(placed).collect()];
    let unnamed: Vec<Vec<u8>> = damaged().iter().filter_map(|book| restamped(book)).collect();
    by_turns(&[&lists[..], &[unnamed]].concat())
}

/// Trailers and cells that one version takes and another does not.
pub fn damaged_versions() -> Vec<Vec<u8>> {
    by_turns(&[trailers(), fields()])
}

/// Small books of version 2.
fn small_books() -> Vec<Vec<u8>> {
    let read = Term::annotation(Term::merge(number(1 << 40), Term::record(7, number(-1))), int());
    let chosen = Term::choice(Term::sum(number(MOST), number(1 << 32)), number(1), number(LEAST));
    let mut random = Random::of(0, "", 0);
    [read, chosen].map(|term| encode_in(Two, &term, Sharing::Always, &mut random).bytes()).to_vec()
}

/// Small books of version 2 with each byte set to every value, and cut short or lengthened.
pub fn every_byte() -> Vec<Vec<u8>> {
    let books = small_books();
    let places = |book: &Vec<u8>| (0..book.len()).flat_map(|at| (0..=255).map(move |value| (at, value))).collect::<Vec<_>>();
    let changed = books.iter().flat_map(|book| places(book).into_iter().map(|(at, value)| with_byte(book, at, value)));
    let cut = books.iter().flat_map(|book| (0..book.len() + 24).map(|length| with_length(book, length)));
    by_turns(&[changed.collect(), cut.collect()])
}

/// Sums and choices of wide numbers.
pub fn wide_arithmetic(random: &mut Random) -> Vec<Vec<u8>> {
    match random.lower(8) {
        0 => counting_loops(Two, random),
        _ => arithmetic(Two, random),
    }
}

/// A term of any form with wide numbers in it.
fn wide_term(random: &mut Random) -> Term {
    let weights = Weights { sum: 4, choice: 3, merge: 4, duplicate: 3, ..EVEN }.of_type(kind::INT, 10);
    typed_term(Two, random, weights, 25)
}

pub fn wide_terms(random: &mut Random) -> Vec<Vec<u8>> {
    let term = wide_term(random);
    one_book_in(Two, &term, random)
}

/// Ways to have a number in the body of a function from Int to Int.
const IN_BODIES: [fn(Term) -> Term; 7] = [
    |e| Term::sum(e, Term::variable(0)),
    |e| Term::sum(Term::variable(0), e),
    |e| Term::choice(e, Term::variable(0), number(2)),
    |e| Term::choice(Term::variable(0), e, number(2)),
    |e| Term::choice(Term::variable(0), number(2), e),
    |e| Term::annotation(e, int()),
    |e| Term::application(identity(), e),
];

/// Two numbers merged that are equal or one field apart: as they are, in fields, or anywhere in bodies; read as one at times.
pub fn wide_merges(random: &mut Random) -> Vec<Vec<u8>> {
    let n = wide_number(random);
    let others = one_field_apart(n, Two);
    let other = if random.once_in(3) { n } else { *random.pick(&others) };
    let mut merge = random.pick(&MERGED)(n, other);
    if random.once_in(2) {
        let ways: Vec<_> = (0..random.lower(6)).map(|_| *random.pick(&IN_BODIES)).collect();
        let [one, other] = [n, other].map(|n| function(ways.iter().fold(number(n), |e, way| way(e))));
        merge = Term::merge(one, other);
    }
    let of = infer(&mut Vec::new(), &merge).unwrap_or_else(|_| int());
    let count = random.lower(3);
    let term = within_many((merge, of), count, random).0;
    one_book_in(Two, &term, random)
}

/// The book in version 2 with wide numbers in place of its own: equal ones stay equal, others often differ in one field or two, and zero mostly
/// stays.
pub fn widened(book: &Cells, random: &mut Random) -> Cells {
    let first = wide_number(random);
    let mut images = BTreeMap::new();
    if !random.once_in(8) {
        images.insert(0, 0);
    }
    let mut image = |n: i64| {
        *images.entry(n).or_insert_with(|| match random.lower(3) {
            0 => wide_number(random),
            _ => Two.number(Two.fields(first ^ (1 << random.lower(48)))),
        })
    };
    let widen = |cell: &Cell| match cell.kind {
        kind::NUMBER => Cell::number(image(One.number(cell.fields)), Two),
        _ => *cell,
    };
    Cells { cells: book.cells.iter().map(widen).collect(), root: book.root, version: Two }
}

/// Typed books of all forms, their numbers widened; and books one change away from them.
pub fn widened_books(random: &mut Random) -> Vec<Vec<u8>> {
    let mut book = typed_any(random);
    book = widened(&book, random);
    if random.once_in(3) {
        changed(&mut book, random);
    }
    vec![book.bytes()]
}

/// One to three bits changed.
pub fn flipped(book: &[u8], random: &mut Random) -> Vec<u8> {
    let mut bytes = book.to_vec();
    for _ in 0..random.between(1, 3) {
        let at = random.lower(bytes.len());
        bytes[at] ^= 1 << random.lower(8);
    }
    bytes
}

/// Two cells exchanged, of which one may be the trailer.
pub fn exchanged(book: &[u8], random: &mut Random) -> Vec<u8> {
    let mut rows: Vec<&[u8]> = book.chunks(CELL).collect();
    let [one, other] = [(); 2].map(|()| random.lower(rows.len()));
    rows.swap(one, other);
    rows.concat()
}

/// Cut short, and a trailer behind that fits; at times within a cell.
pub fn cut(book: &[u8], random: &mut Random) -> Vec<u8> {
    let cells = random.lower(book.len() / CELL);
    let length = cells * CELL + if random.once_in(4) { random.lower(CELL) } else { 0 };
    let trailer = Cell::trailer(cells as u16, cells.saturating_sub(1) as u16, Two);
    [&book[..length], &trailer.bytes()].concat()
}

/// Books of version 2 with something broken.
pub fn scrambled(random: &mut Random) -> Vec<Vec<u8>> {
    let book = wide_terms(random).remove(0);
    [flipped, flipped, exchanged, cut].map(|broken: fn(&[u8], &mut Random) -> Vec<u8>| broken(&book, random)).to_vec()
}

/// The cell of a number with something else in it, in a book of this version.
pub fn another_number(cell: Cell, version: Version, random: &mut Random) -> Cell {
    match (version, random.lower(6)) {
        (Two, 0) => Cell::number(wide_number(random), Two),
        (Two, 1..=3) => {
            let mut other = cell;
            other.fields[random.lower(3)] ^= 1 << random.lower(16);
            other
        }
        (_, n) => Cell::number(n as i64 - 1, version),
    }
}

/// Books of which the documents' words give the answer.
pub fn stated() -> Vec<Sample> {
    let checked = |name, book: Vec<u8>, answer| Sample { name, book, call: Call::Check, answer, value: None };
    let refused = |number, cell| Answer::Refused { number, cell };
    let one_cell = |cell: Cell, version: u8| [cell.bytes(), Cell::new(TRAILER, version, [1, 0, 0]).bytes()].concat();
    let field_a = Cell::new(kind::NUMBER, 0, [1, 5, 0]);
    let labelled = Cell { label: 1, ..field_a };
    let cells = [
        checked("field a of a number, version 1", one_cell(field_a, 1), refused(6, 0)),
        checked("field a of a number, version 2", one_cell(field_a, 2), Answer::Accepted { size: 1 }),
        checked("a number with a label, version 2", one_cell(labelled, 2), refused(6, 0)),
    ];
    let versions = [0, 3, 255].map(|version| checked("another version", one_cell(zeroed(kind::TOP_VALUE), version), refused(3, 0)));
    let merges = [(1, 2), (1, (1 << 32) + 1), (1 << 32, 0)].into_iter().flat_map(|(m, n)| {
        let [numbers, bodies] = [MERGED[0], MERGED[1]].map(|merge| encode_term(&merge(m, n), Two));
        [checked("unequal numbers", numbers, refused(14, 2)), checked("unequal bodies", bodies, refused(14, 8))]
    });
    let equal = checked("equal numbers", encode_term(&MERGED[0](1 << 40, 1 << 40), Two), Answer::Accepted { size: 3 });
    values().into_iter().chain(cells).chain(versions).chain(merges).chain([equal]).collect()
}

/// Those that run, in each version that is meant.
fn values() -> Vec<Sample> {
    let mut list = Vec::new();
    let mut add = |name, version, term: Term, value: i64, (steps, mark)| {
        let (call, answer) = (Call::Run { limit: 10_000 }, Answer::Value { steps, mark });
        list.push(Sample { name, book: encode_term(&term, version), call, answer, value: Some(number(value)) });
    };
    let sum = |m: i64, n: i64| Term::sum(number(m), number(n));
    let [least, most] = [One.least(), One.most()];
    add("a number of 41 bits", Two, number(1 << 40), 1 << 40, (0, 1));
    add("minus one", Two, number(-1), -1, (0, 1));
    add("a sum held above", Two, sum(MOST, 1), MOST, (1, 3));
    add("a sum held below", Two, sum(LEAST, -1), LEAST, (1, 3));
    add("a sum past 32 bits", Two, sum(most, 1), most + 1, (1, 3));
    add("a sum past 32 bits, below", Two, sum(least, -1), least - 1, (1, 3));
    add("a sum held above, version 1", One, sum(most, 1), most, (1, 3));
    add("a sum held below, version 1", One, sum(least, -1), least, (1, 3));
    add("a sum of a wide number", Two, sum(1 << 40, -1), (1 << 40) - 1, (1, 3));
    for tested in [1 << 32, 65_536, 1] {
        add("a choice for a number with zeros in it", Two, Term::choice(number(tested), number(1), number(2)), 2, (2, 4));
    }
    add("the hidden field", Two, hidden_field(), 2, (4, 18));
    list
}
