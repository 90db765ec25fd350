//! Document 02, (iv): "Version 2 in the trailer stores a number in bytes 2–7, signed." What is laid down has the version it came from, sums are
//! held to its ends, and a version 1 book without sums is the same restamped.

mod sizes;

use evaluator::{
    check, decode, desk, encode_term, encode_type, kind, on_large_stack, restamped, row, run, successors, Answer, Cell, Field,
    Term, TermShape, Type, Version, TABLE, WORK,
};
use sizes::greatest;
use Version::{One, Two};

/// The least and the most of 48 bits and of 32.
const LEAST: i64 = -(1 << 47);
const MOST: i64 = (1 << 47) - 1;
const LEAST_32: i64 = -(1 << 31);
const MOST_32: i64 = (1 << 31) - 1;

fn number(n: i64) -> Term {
    Term::number(n)
}

fn int() -> Type {
    Type::int()
}

fn sum(m: i64, n: i64) -> Term {
    Term::sum(number(m), number(n))
}

/// A row of a laid-down book: kind, label, a, b, c.
type Line = [u16; 5];

/// These cells and a trailer with this version and root.
fn book(version: u8, cells: &[Line], root: u16) -> Vec<u8> {
    let cell = |&[kind, label, a, b, c]: &Line| Cell::new(kind as u8, label as u8, [a, b, c]);
    let trailer = Cell::new(0xF0, version, [cells.len() as u16, root, 0]);
    cells.iter().map(cell).chain([trailer]).flat_map(Cell::bytes).collect()
}

/// What a call answers, and the book that it leaves, behind which there are zeros.
fn left(call: impl FnOnce(&mut [u8]) -> Answer) -> (Answer, Vec<u8>) {
    let mut work = vec![7; WORK];
    let answer = call(&mut work);
    let end = work.chunks(8).position(|cell| cell[0] == 0xF0).map_or(0, |at| at * 8 + 8);
    assert!(work[end..].iter().all(|&byte| byte == 0));
    work.truncate(end);
    (answer, work)
}

fn checked(book: &[u8]) -> (Answer, Vec<u8>) {
    left(|work| check(book, work))
}

fn ran(book: &[u8], limit: u32) -> (Answer, Vec<u8>) {
    left(|work| run(book, work, limit))
}

/// Both calls refuse it.
fn refused(bytes: &[u8], number: u8, cell: usize) {
    assert_eq!(checked(bytes), (Answer::Refused { number, cell }, vec![]), "{bytes:?}");
    assert_eq!(ran(bytes, 9), (Answer::Refused { number, cell }, vec![]), "{bytes:?}");
}

fn accepted(term: &Term, version: Version) {
    assert!(matches!(checked(&encode_term(term, version)).0, Answer::Accepted { .. }), "{term}, {version:?}");
}

/// The term of this version has type Int and comes to one number, laid down like this.
fn comes_to(term: &Term, version: Version, steps: u32, line: Line) {
    let bytes = encode_term(term, version);
    let byte = version.byte();
    assert_eq!(checked(&bytes), (Answer::Accepted { size: 1 }, book(byte, &[[1, 0, 0, 0, 0]], 0)), "{term}");
    let mark = |steps: u32| greatest(term, version, steps);
    let came = (Answer::Value { steps, mark: mark(steps) }, book(byte, &[line], 0));
    for limit in [steps, steps + 1, u32::MAX] {
        assert_eq!(ran(&bytes, limit), came, "{term}, {version:?}");
    }
    if let Some(steps) = steps.checked_sub(1) {
        assert_eq!(ran(&bytes, steps).0, Answer::Spent { steps, mark: mark(steps) }, "{term}, {version:?}");
    }
}

#[test]
fn numbers_of_version_2() {
    comes_to(&number(1 << 40), Two, 0, [17, 0, 0, 0, 256]);
    comes_to(&number(-1), Two, 0, [17, 0, 65_535, 65_535, 65_535]);
    comes_to(&number(MOST), Two, 0, [17, 0, 65_535, 65_535, 32_767]);
    comes_to(&number(LEAST), Two, 0, [17, 0, 0, 0, 32_768]);
    comes_to(&number(0x1234_5678_9ABC), Two, 0, [17, 0, 0x9ABC, 0x5678, 0x1234]);
    comes_to(&number(-5), One, 0, [17, 0, 0, 65_531, 65_535]);
    comes_to(&number(-5), Two, 0, [17, 0, 65_531, 65_535, 65_535]);
}

/// "Sums in version 2 are held to the ends of 48 bits, in version 1 to those of 32."
#[test]
fn sums_are_held_to_the_ends_of_their_version() {
    comes_to(&sum(MOST, 1), Two, 1, [17, 0, 65_535, 65_535, 32_767]);
    comes_to(&sum(LEAST, -1), Two, 1, [17, 0, 0, 0, 32_768]);
    comes_to(&sum(MOST_32, 1), Two, 1, [17, 0, 0, 32_768, 0]);
    comes_to(&sum(MOST_32, 1), One, 1, [17, 0, 0, 65_535, 32_767]);
    comes_to(&sum(LEAST_32, -1), Two, 1, [17, 0, 65_535, 32_767, 65_535]);
    comes_to(&sum(LEAST_32, -1), One, 1, [17, 0, 0, 0, 32_768]);
    comes_to(&sum(1 << 40, -1), Two, 1, [17, 0, 65_535, 65_535, 255]);
    // Held at each sum, not at the last.
    let back = Term::sum(sum(MOST, 1), number(-1));
    comes_to(&back, Two, 2, [17, 0, 65_534, 65_535, 32_767]);
    comes_to(&Term::sum(sum(MOST_32, 1), number(-1)), One, 2, [17, 0, 0, 65_534, 32_767]);
    comes_to(&Term::sum(sum(MOST_32, 1), number(-1)), Two, 2, [17, 0, 65_535, 32_767, 0]);
}

/// A version with the ends of its numbers.
const ENDS: [(Version, i64, i64); 2] = [(One, LEAST_32, MOST_32), (Two, LEAST, MOST)];

/// Every two of the numbers about the ends, about zero and about each field's, added without steps.
#[test]
fn every_sum_is_what_adding_gives() {
    let about = [LEAST, LEAST_32, -65_536, 0, 65_536, 1 << 31, 1 << 32, -(1 << 32), MOST];
    let numbers: Vec<i64> = about.iter().flat_map(|n| [n - 1, *n, n + 1]).collect();
    let pairs = || numbers.iter().flat_map(|m| numbers.iter().map(|n| (*m, *n)));
    for ((version, least, most), (m, n)) in ENDS.into_iter().flat_map(|ends| pairs().map(move |pair| (ends, pair))) {
        if [m, n].iter().any(|n| !(least..=most).contains(n)) {
            continue;
        }
        let held = number((m + n).clamp(least, most));
        let got = ran(&encode_term(&sum(m, n), version), 5);
        assert_eq!(got, (Answer::Value { steps: 1, mark: 3 }, encode_term(&held, version)), "{m} + {n}, {version:?}");
        assert_eq!(successors(&sum(m, n), version), [held]);
    }
}

#[test]
fn field_a_of_a_number_is_named_in_version_2_alone() {
    for bit in 0..16 {
        let cells = [[17, 0, 1 << bit, 5, 0]];
        refused(&book(1, &cells, 0), 6, 0);
        assert_eq!(ran(&book(2, &cells, 0), 9), (Answer::Value { steps: 0, mark: 1 }, book(2, &cells, 0)));
    }
    // Also in a cell that the root does not reach.
    refused(&book(1, &[[18, 0, 0, 0, 0], [17, 0, 1, 5, 0]], 0), 6, 1);
    assert_eq!(checked(&book(2, &[[18, 0, 0, 0, 0], [17, 0, 1, 5, 0]], 0)).0, Answer::Accepted { size: 1 });
}

#[test]
fn version_2_names_no_field_of_another_kind() {
    for unnamed in [[1, 0, 1, 0, 0], [2, 0, 1, 0, 0], [18, 0, 1, 0, 0], [16, 0, 0, 1, 0], [24, 1, 0, 0, 1]] {
        refused(&book(2, &[[17, 0, 0, 0, 0], unnamed], 0), 6, 1);
    }
}

#[test]
fn a_number_has_no_label() {
    for label in [1, 2, 128, 255] {
        refused(&book(1, &[[17, label, 0, 5, 0]], 0), 6, 0);
        refused(&book(2, &[[17, label, 1, 5, 0]], 0), 6, 0);
    }
}

#[test]
fn the_rows_say_what_is_named() {
    for row in TABLE {
        assert_eq!(row.fields_in(One), row.fields);
        assert_eq!(row.fields_in(Two) != row.fields, row.kind == kind::NUMBER, "{}", row.meaning);
    }
    assert_eq!(row(kind::NUMBER).expect("a kind").fields_in(Two), [Field::Plain; 3]);
}

#[test]
fn other_versions_are_refused() {
    let cells = [[17, 0, 0, 1, 0]];
    for version in 0..=255 {
        match version {
            1 | 2 => assert_eq!(checked(&book(version, &cells, 0)).0, Answer::Accepted { size: 1 }),
            _ => refused(&book(version, &cells, 0), 3, 0),
        }
    }
}

#[test]
fn a_trailer_of_version_2_is_tested_as_one_of_version_1() {
    for (place, byte) in [(0, 0), (0, 0xF1), (6, 1), (7, 1)] {
        let mut bytes = book(2, &[[17, 0, 0, 1, 0]], 0);
        bytes[8 + place] = byte;
        refused(&bytes, 3, 0);
    }
    // Before 4, and before what is wrong with a cell.
    refused(&book(3, &[[0, 0, 0, 0, 0]], 7), 3, 0);
    refused(&book(2, &[[0, 0, 0, 0, 0]], 7), 4, 0);
    refused(&book(2, &[[0, 0, 0, 0, 0]], 0), 5, 0);
}

/// A function from Int to Int that gives this number.
fn constant(n: i64) -> Term {
    Term::function(number(n), int(), int())
}

/// These are not disjoint, and not consistent in version 2: 14 names the merge of both, either way about.
fn not_merged(one: Term, other: Term) {
    let cell = (one.size() + other.size()) as usize;
    refused(&encode_term(&Term::merge(one.clone(), other.clone()), Two), 14, cell);
    refused(&encode_term(&Term::merge(other, one), Two), 14, cell);
}

/// Numbers are consistent if all three fields are equal.
#[test]
fn unequal_numbers_are_not_merged() {
    for (m, n) in [(1, 2), (1, (1 << 32) + 1), (1 << 32, 0), (1 << 16, 0), (1, 65_537), (LEAST, 0), (-1, MOST), (LEAST, MOST)] {
        not_merged(number(m), number(n));
        not_merged(constant(m), constant(n));
        not_merged(Term::record(7, number(m)), Term::record(7, number(n)));
    }
}

#[test]
fn numbers_are_compared_in_every_bit() {
    for bit in 0..48 {
        let other = Two.number(Two.fields(1_234_567 ^ (1 << bit)));
        not_merged(number(1_234_567), number(other));
        not_merged(constant(1_234_567), constant(other));
    }
}

#[test]
fn equal_numbers_are_merged() {
    for n in [1 << 40, LEAST, MOST, -1, 0, 1] {
        accepted(&Term::merge(number(n), number(n)), Two);
        accepted(&Term::merge(constant(n), constant(n)), Two);
    }
}

/// "b for zero and c for anything else": a number with a zero in any field, or in any two, is something else.
#[test]
fn zero_in_every_field_chooses_b() {
    let choice = |n: i64| Term::choice(number(n), number(1), number(2));
    for n in [1 << 32, 65_536, 1, -1, LEAST, MOST, 1 << 46, (1 << 32) + 1, (1 << 32) + 65_536, 65_537, -65_536, -(1 << 32)] {
        comes_to(&choice(n), Two, 2, [17, 0, 2, 0, 0]);
    }
    comes_to(&choice(0), Two, 2, [17, 0, 1, 0, 0]);
    let zero = Term::choice(sum(1 << 40, -(1 << 40)), number(1), number(2));
    comes_to(&zero, Two, 3, [17, 0, 1, 0, 0]);
    // What a sum comes to in its version is what is tested.
    let past = |n: i64| Term::choice(Term::sum(sum(MOST_32, 1), number(-n)), number(1), number(2));
    comes_to(&past(MOST_32), One, 4, [17, 0, 0, 1, 0]);
    comes_to(&past(MOST_32), Two, 4, [17, 0, 2, 0, 0]);
}

#[test]
fn minus_five_restamped() {
    let five = encode_term(&number(-5), One);
    let bytes = [0x11, 0, 0xFB, 0xFF, 0xFF, 0xFF, 0xFF, 0xFF, 0xF0, 2, 1, 0, 0, 0, 0, 0];
    assert_eq!(restamped(&five), Some(bytes.to_vec()));
    assert_eq!(restamped(&five), Some(encode_term(&number(-5), Two)));
}

/// Every number is extended, whether the root reaches it or not; a version 2 book, or no book, is not restamped.
#[test]
fn restamping_changes_numbers_and_the_version_alone() {
    let one = [[17, 0, 0, 1, 32_768], [24, 9, 0, 0, 0], [18, 0, 0, 0, 0], [16, 0, 40_000, 0, 0], [17, 0, 0, 7, 32_767]];
    let two = [[17, 0, 1, 32_768, 65_535], [24, 9, 0, 0, 0], [18, 0, 0, 0, 0], [16, 0, 40_000, 0, 0], [17, 0, 7, 32_767, 0]];
    assert_eq!(restamped(&book(1, &one, 1)), Some(book(2, &two, 1)));
    for other in [book(2, &two, 1), book(3, &one, 1), book(1, &one, 1)[..47].to_vec(), vec![], vec![0xF0, 1]] {
        assert_eq!(restamped(&other), None);
    }
}

/// Document 01's hidden field.
fn hidden_field() -> Term {
    let merge = Term::merge(Term::record(1, number(2)), Term::variable(0));
    let body = Term::projection(1, Term::annotation(merge, Type::record(1, int())));
    let function = Term::function(body, Type::record(2, int()), int());
    Term::application(function, Term::merge(Term::record(1, number(1)), Term::record(2, number(9))))
}

/// Accepted books without sums.
fn without_sums() -> Vec<Term> {
    let negative = Term::merge(number(-7), Term::record(3, number(LEAST_32)));
    let identity = Term::function(Term::variable(0), int(), int());
    let chosen = |n: i64| Term::choice(number(n), Term::annotation(number(-1), int()), number(MOST_32));
    let fixed = Term::fixpoint(Term::merge(number(-2), Term::record(1, Term::variable(0))), int());
    vec![
        hidden_field(),
        Term::merge(number(-1), number(-1)),
        Term::merge(constant(-9), constant(-9)),
        Term::annotation(negative.clone(), Type::intersection(Type::record(3, int()), int())),
        Term::application(identity, negative),
        chosen(0),
        chosen(-65_536),
        Term::record(5, Term::annotation(fixed, int())),
        Term::fixpoint(Term::variable(0), int()),
        Term::annotation(constant(-3), Type::function(int(), Type::top())),
    ]
}

/// The term's book restamped has the same type, and under every limit the same stop, steps and mark, and leaves the same restamped.
fn is_the_same_restamped(term: &Term) {
    let one = encode_term(term, One);
    let two = restamped(&one).expect("version 1");
    assert_eq!(two, encode_term(term, Two));
    let [(of, left), (again, right)] = [checked(&one), checked(&two)];
    assert!(matches!(of, Answer::Accepted { .. }), "{term}");
    assert_eq!((of, restamped(&left)), (again, Some(right)), "{term}");
    for limit in (0..12).chain([2_045, 2_046, 2_047, u32::MAX]) {
        let [(one, left), (two, right)] = [ran(&one, limit), ran(&two, limit)];
        assert_eq!((one, restamped(&left)), (two, Some(right)), "{term}, limit {limit}");
    }
}

/// "Every accepted version 1 book without sums, restamped as version 2 with each number extended by its sign, shows the same type and takes
/// the same steps."
#[test]
fn a_book_without_sums_is_the_same_restamped() {
    without_sums().iter().for_each(is_the_same_restamped);
    comes_to(&hidden_field(), Two, 4, [17, 0, 2, 0, 0]);
}

/// A type, a value, a term that was spent and one that had no room.
#[test]
fn a_laid_down_book_has_the_version_it_came_from() {
    let looping = Term::fixpoint(Term::variable(0), int());
    for (version, byte) in [(One, 1), (Two, 2)] {
        let counting = Term::record(2, Term::sum(number(4), looping.clone()));
        let bytes = encode_term(&counting, version);
        let (answer, of) = checked(&bytes);
        assert_eq!((answer, of), (Answer::Accepted { size: 2 }, book(byte, &[[1, 0, 0, 0, 0], [5, 2, 0, 0, 0]], 1)));
        refused(&encode_type(&Type::record(2, int()), version), 9, 1);
        let (spent, half) = ran(&bytes, 1_000);
        assert_eq!((spent, half[half.len() - 7]), (Answer::Spent { steps: 1_000, mark: 2_006 }, byte));
        let (room, last) = ran(&bytes, u32::MAX);
        assert_eq!((room, last[last.len() - 7]), (Answer::Room { steps: 2_044, mark: 4_094 }, byte));
        // What was left goes on in its version.
        assert_eq!(ran(&half, u32::MAX), (Answer::Room { steps: 1_044, mark: 4_094 }, last));
    }
}

/// After some steps a book of version 2 is still held to its own ends.
#[test]
fn a_run_that_was_spent_goes_on_in_its_version() {
    let term = Term::sum(Term::annotation(number(MOST_32), int()), number(1));
    for (version, n) in [(One, MOST_32), (Two, 1 << 31)] {
        let (answer, half) = ran(&encode_term(&term, version), 1);
        assert_eq!(answer, Answer::Spent { steps: 1, mark: 5 });
        assert_eq!(ran(&half, 9), (Answer::Value { steps: 1, mark: 3 }, encode_term(&number(n), version)));
    }
}

#[test]
fn the_desk_prints_all_three_fields() {
    assert_eq!(desk(&encode_term(&sum(1 << 40, -1), Two)), "accepted 1\nvalue 1\n0 17 0 65535 65535 255\n");
    assert_eq!(desk(&encode_term(&number(-2), Two)), "accepted 1\nvalue 0\n0 17 0 65534 65535 65535\n");
    assert_eq!(desk(&encode_term(&number(-2), One)), "accepted 1\nvalue 0\n0 17 0 0 65534 65535\n");
    assert_eq!(desk(&book(3, &[[17, 0, 0, 1, 0]], 0)), "refused 3 0\n");
    assert_eq!(desk(&book(1, &[[17, 0, 1, 5, 0]], 0)), "refused 6 0\n");
}

/// A number's cell holds it.
fn is_read_again(n: i64, version: Version) {
    let cell = Cell::number(n, version);
    assert_eq!((cell.kind, cell.label, version.number(cell.fields)), (kind::NUMBER, 0, n));
    let (term, of) = decode(&encode_term(&number(n), version)).expect("a number");
    assert!(matches!(term.shape(), TermShape::Number(m) if *m == n) && of == version);
}

#[test]
fn numbers_are_written_and_read_in_the_whole_range() {
    for (version, least, most) in ENDS {
        assert_eq!((version.half(), version.least(), version.most()), (most + 1, least, most));
        let numbers = [least, least + 1, -65_537, -65_536, -2, -1, 0, 1, 65_535, 65_536, most - 1, most];
        numbers.into_iter().for_each(|n| is_read_again(n, version));
    }
}

#[test]
fn cells_of_numbers_are_read_and_written() {
    for fields in [[0, 0, 0], [1, 2, 3], [65_535, 0, 32_768], [0, 65_535, 65_535], [65_535, 65_535, 65_535]] {
        assert_eq!(Two.fields(Two.number(fields)), fields);
        assert_eq!(One.fields(One.number(fields)), [0, fields[1], fields[2]]);
    }
}

/// The bytes with one to four of them others.
fn changed(bytes: &[u8], draw: &mut impl FnMut() -> u32) -> Vec<u8> {
    let mut changed = bytes.to_vec();
    for _ in 0..1 + draw() % 4 {
        let at = draw() as usize % bytes.len();
        changed[at] = draw() as u8;
    }
    changed
}

/// Whatever the bytes are, there is an answer.
#[test]
fn no_bytes_are_left_without_an_answer() {
    let mut state = 1_u32;
    let mut draw = move || {
        state = state.wrapping_mul(1_664_525).wrapping_add(1_013_904_223);
        state >> 16
    };
    let start = encode_term(&Term::merge(hidden_field(), Term::choice(sum(MOST, LEAST), number(-1), number(MOST))), Two);
    on_large_stack(|| {
        for _ in 0..20_000 {
            let bytes = changed(&start, &mut draw);
            let (check, run) = (checked(&bytes).0, ran(&bytes, 50).0);
            assert_eq!(matches!(check, Answer::Refused { .. }), check == run);
        }
    });
}
