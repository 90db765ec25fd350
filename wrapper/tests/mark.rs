//! The mark of a run is the greatest size of any term so far: no more, no less. The sizes are counted in what runs with lower limits leave, and in
//! the terms that the evaluator's rules give one after another.

#![cfg(not(library_missing))]

mod pages;

use cerealbank::{run, RunAnswer, WORK};
use compare::cells::{number_cell, zeroed, Cells};
use compare::extremes::times;
use compare::loops::triangular;
use compare::samples::{doubled, hidden_field, identity, own_fixpoint};
use evaluator::{decode, encode_term, kind, on_large_stack, restamped, successors, Cell, Term, Type, Version, CELL, DESK_LIMIT};
use pages::blocks::{blocks, format};
use pages::{asked, books_and, cut, files, ran};

extern "C" {
    fn cerealbank_check(book: *const u8, book_len: usize, work: *mut u8, work_len: usize) -> u64;
    fn cerealbank_run(book: *const u8, book_len: usize, work: *mut u8, work_len: usize, limit: u32) -> u64;
}

/// The number that the library returns of a check.
fn packed_check(book: &[u8], work: &mut [u8]) -> u64 {
    // SAFETY: both slices are valid for their lengths, the second is lent to be written, and the two do not overlap.
    unsafe { cerealbank_check(book.as_ptr(), book.len(), work.as_mut_ptr(), work.len()) }
}

/// The same of a run.
fn packed_run(book: &[u8], work: &mut [u8], limit: u32) -> u64 {
    // SAFETY: as in `packed_check`.
    unsafe { cerealbank_run(book.as_ptr(), book.len(), work.as_mut_ptr(), work.len(), limit) }
}

/// A book, and what runs of it with these limits say.
struct Case {
    name: &'static str,
    book: Vec<u8>,
    answers: &'static [(u32, &'static str)],
}

fn case(name: &'static str, term: Term, answers: &'static [(u32, &'static str)]) -> Case {
    Case { name, book: encode_term(&term, Version::One), answers }
}

fn int() -> Type {
    Type::int()
}

fn number(n: i64) -> Term {
    Term::number(n)
}

fn to_int() -> Type {
    Type::function(int(), int())
}

/// `fix.(if 0 then #0 else 1) : Int`: a step that takes a cell away between steps that add some.
fn choosing() -> Term {
    Term::fixpoint(Term::choice(number(0), Term::variable(0), number(1)), int())
}

/// The argument, read as a merge of three numbers, in three fields, of which one is shown.
fn three_fields() -> Term {
    let [one, two, three] = [1, 2, 3].map(|label| Term::record(label, Term::variable(0)));
    let input = Type::intersection(int(), Type::intersection(int(), int()));
    let function = Term::function(Term::merge(one, Term::merge(two, three)), input, Type::record(1, int()));
    Term::application(function, number(1))
}

/// Terms that grow, that grow and shrink, and that are largest on the way.
fn growing() -> Vec<Case> {
    let own = &[
        (0, "spent 0, mark 3"),
        (1, "spent 1, mark 5"),
        (5, "spent 5, mark 13"),
        (2_045, "spent 2045, mark 4093"),
        (2_046, "spent 2046, mark 4095"),
        (2_047, "room 2046, mark 4095"),
        (u32::MAX, "room 2046, mark 4095"),
    ];
    let choices = &[
        (0, "spent 0, mark 6"),
        (1, "spent 1, mark 11"),
        (2, "spent 2, mark 11"),
        (3, "spent 3, mark 15"),
        (4, "spent 4, mark 15"),
        (u32::MAX, "room 2044, mark 4095"),
    ];
    let fields = &[(0, "spent 0, mark 18"), (1, "spent 1, mark 23"), (2, "value 2, mark 23"), (u32::MAX, "value 2, mark 23")];
    vec![
        case("the fixpoint of its own variable", own_fixpoint(), own),
        case("the fixpoint of a choice", choosing(), choices),
        case("three fields, one shown", three_fields(), fields),
        case("the numbers to 4 added up", triangular(4), &[(38, "value 38, mark 61"), (u32::MAX, "value 38, mark 61")]),
    ]
}

/// Document 01's sample books that are marked M and accepted.
fn samples() -> Vec<Case> {
    let both = Type::intersection(int(), int());
    let twice = Term::annotation(Term::annotation(number(1), both), int());
    let merge = Term::merge(number(1), Term::record(7, number(5)));
    let under_top = Term::annotation(identity(), Type::function(int(), Type::top()));
    vec![
        case("1 merged with 1", Term::merge(number(1), number(1)), &[(0, "value 0, mark 3"), (1, "value 0, mark 3")]),
        case("1 under Int and Int, then Int", twice, &[(2, "value 2, mark 7"), (3, "value 2, mark 7")]),
        case("the identity on a merge", Term::application(identity(), merge), &[(2, "value 2, mark 9")]),
        case("the identity under Int to Top", under_top, &[(1, "value 1, mark 8")]),
        case("the top value applied to 3", Term::application(Term::top(), number(3)), &[(1, "value 1, mark 3")]),
        case("the hidden field", hidden_field(), &[(4, "value 4, mark 18"), (10_000, "value 4, mark 18")]),
    ]
}

/// Books whose cells are fewer or more than those of any term, terms as large as can be, and a first step that has no room.
fn edges() -> Vec<Case> {
    let beside = (1..=5).map(|n| Cell::new(kind::MERGE, 0, [n, n, 0]));
    let cells = [zeroed(kind::INT), number_cell(1)].into_iter().chain(beside);
    let unreached = cells.chain([Cell::new(kind::ANNOTATION, 0, [1, 0, 0])]).collect();
    let body = times(1_350, number(1), |e| Term::annotation(e, int()));
    let read_twice = Term::annotation(Term::function(body, int(), int()), Type::intersection(to_int(), to_int()));
    let top = doubled(zeroed(kind::TOP_VALUE), 11);
    vec![
        Case { name: "12 cells that are shared", book: top, answers: &[(0, "value 0, mark 4095"), (9, "value 0, mark 4095")] },
        Case {
            name: "8 cells, of which the root reaches 3",
            book: Cells::to_last(unreached).bytes(),
            answers: &[(0, "spent 0, mark 3"), (1, "value 1, mark 3")],
        },
        case("4,094 records", times(4_094, number(1), |e| Term::record(7, e)), &[(0, "value 0, mark 4095")]),
        case("a function read twice", read_twice, &[(0, "spent 0, mark 2712"), (1, "room 0, mark 2712")]),
        case("a number", number(7), &[(0, "value 0, mark 1"), (u32::MAX, "value 0, mark 1")]),
    ]
}

fn cases() -> Vec<Case> {
    [growing(), samples(), edges()].into_iter().flatten().collect()
}

/// The answer of a run that is not refused: its tag, its steps and its mark.
fn stop(answer: RunAnswer) -> Option<(u64, u32, u32)> {
    match answer {
        RunAnswer::Value { steps, mark } => Some((33, steps, mark)),
        RunAnswer::Spent { steps, mark } => Some((34, steps, mark)),
        RunAnswer::Room { steps, mark } => Some((35, steps, mark)),
        RunAnswer::Refused { .. } => None,
        RunAnswer::Unknown { packed } => panic!("{packed:#x} is no answer"),
    }
}

fn mark(answer: RunAnswer) -> u32 {
    stop(answer).expect("no refusal").2
}

/// The cells of the term left, which its trailer counts too.
fn size(left: &[u8]) -> u32 {
    let book = cut(left);
    let trailer = &book[book.len() - CELL..];
    let counted = u16::from_le_bytes([trailer[2], trailer[3]]);
    assert_eq!(usize::from(counted), book.len() / CELL - 1);
    counted.into()
}

#[test]
fn every_case_has_its_mark() {
    for Case { name, book, answers } in cases() {
        for (limit, said) in answers {
            assert_eq!(Some(asked(|work| run(&book, work, *limit)).0), ran(said), "{name}, limit {limit}");
        }
    }
}

#[test]
fn the_mark_stands_alone_in_bits_40_to_63() {
    for Case { name, book, answers } in cases() {
        for (limit, said) in answers {
            let (tag, steps, mark) = ran(said).and_then(stop).expect("a stop");
            let packed = u64::from(mark) << 40 | tag << 32 | u64::from(steps);
            assert_eq!(asked(|work| packed_run(&book, work, *limit)).0, packed, "{name}, limit {limit}");
        }
    }
    let hidden = encode_term(&hidden_field(), Version::One);
    assert_eq!(asked(|work| packed_run(&hidden, work, 10)).0, 0x0000_1221_0000_0004);
}

#[test]
fn the_mark_does_not_depend_on_what_the_work_buffer_held() {
    let (_, large) = asked(|work| run(&encode_term(&own_fixpoint(), Version::One), work, 2_046));
    assert_eq!(size(&large), 4_095);
    let [zeros, ones, trailers] = [0, 0xFF, 0xF0].map(|byte| vec![byte; WORK]);
    for Case { name, book, answers } in cases() {
        for (limit, said) in answers {
            for mut work in [&zeros, &ones, &trailers, &large].map(Vec::clone) {
                assert_eq!(Some(run(&book, &mut work, *limit)), ran(said), "{name}, limit {limit}");
            }
        }
    }
}

/// The refused book of each section, with a work buffer of another length for 1, after a run with the greatest mark.
#[test]
fn a_refused_book_has_no_mark() {
    let heavy = encode_term(&own_fixpoint(), Version::One);
    let sections = format().1.into_iter().filter(|(number, _)| *number <= 15);
    let mut numbers = Vec::new();
    for (number, section) in sections {
        let book = blocks(&section).remove(0).book;
        let mut work = vec![9; if number == 1 { WORK - 1 } else { WORK }];
        assert_eq!(asked(|work| packed_run(&heavy, work, 2_046)).0 >> 40, 4_095);
        let checked = packed_check(&book, &mut work);
        assert_eq!(checked >> 32, number.into(), "bits 40 to 63 are zero");
        for limit in [0, 1, 10_000, u32::MAX] {
            assert_eq!(packed_run(&book, &mut work, limit), checked, "{number}, limit {limit}");
        }
        numbers.push(number);
    }
    assert_eq!(numbers, (1..=15).collect::<Vec<u8>>());
}

/// So many limits are tried, from 0 on.
const LIMITS: u32 = 40;

/// The cases and many others.
fn books() -> Vec<Vec<u8>> {
    books_and(cases().into_iter().map(|case| case.book))
}

/// A run with each limit in turn, until it ends: what it says, and the size of the term left. Of a refused book none.
fn walked(book: &[u8]) -> Vec<(RunAnswer, u32)> {
    let mut walk = Vec::new();
    for limit in 0..=LIMITS {
        let (answer, left) = asked(|work| run(book, work, limit));
        if stop(answer).is_none() {
            break;
        }
        walk.push((answer, size(&left)));
        if !matches!(answer, RunAnswer::Spent { .. }) {
            assert_eq!(asked(|work| run(book, work, u32::MAX)), (answer, left), "a run that ended");
            break;
        }
    }
    walk
}

/// Of many books the first term is the largest, of many a later one that is not the last, and of many the last.
#[test]
fn the_mark_is_the_greatest_size_of_what_lower_limits_leave() {
    let mut places = [0; 3];
    for book in books() {
        let (answers, sizes): (Vec<RunAnswer>, Vec<u32>) = walked(&book).into_iter().unzip();
        for (limit, answer) in answers.iter().enumerate() {
            assert_eq!(Some(mark(*answer)), sizes[..=limit].iter().max().copied(), "{answer:?}, limit {limit}: {book:?}");
        }
        let Some(greatest) = sizes.iter().max() else { continue };
        let at = sizes.iter().position(|size| size == greatest).expect("the greatest");
        let place = if at == 0 { 0 } else { 1 + usize::from(at + 1 == sizes.len()) };
        places[place] += 1;
    }
    assert!(places.iter().all(|&count| count >= 50), "{places:?}");
}

/// The greatest size of the root and the terms that so many steps by the evaluator's rules give.
fn in_the_calculus(book: &[u8], steps: u32) -> u64 {
    on_large_stack(|| {
        let (mut term, version) = decode(book).expect("a term");
        let mut greatest = term.size();
        for _ in 0..steps {
            term = successors(&term, version).pop().expect("a successor");
            greatest = greatest.max(term.size());
        }
        greatest
    })
}

#[test]
fn the_mark_is_that_of_the_terms_of_the_calculus() {
    let known = [("revision_counter", 71), ("ignored_argument", 474), ("spent_loop", 2_288), ("growing_loop", 4_095)];
    let mut found = Vec::new();
    for (name, book) in files() {
        let answer = asked(|work| run(&book, work, DESK_LIMIT)).0;
        let Some((_, steps, mark)) = stop(answer) else { continue };
        assert_eq!(u64::from(mark), in_the_calculus(&book, steps), "{name}: {answer:?}");
        found.push((name, mark));
    }
    assert!(known.iter().all(|(name, mark)| found.contains(&(format!("{name}.book"), *mark))), "{found:?}");
}

#[test]
fn a_run_in_two_parts_has_the_greater_of_both_marks() {
    let mut second_greater = 0;
    for book in books() {
        let walk = walked(&book);
        let Some((whole, _)) = walk.last() else { continue };
        let limit = walk.len() as u32 - 1;
        for part in [0, 1, limit / 2, limit.saturating_sub(1), limit] {
            let (first, half) = asked(|work| run(&book, work, part));
            let (second, _) = asked(|work| run(cut(&half), work, limit - part.min(limit)));
            assert_eq!(mark(first).max(mark(second)), mark(*whole), "{part} of {limit}: {book:?}");
            second_greater += u32::from(mark(second) > mark(first));
        }
    }
    assert!(second_greater >= 50, "{second_greater}");
}

/// "Sizes do not depend on the version": without sums every answer is the same, restamped.
#[test]
fn a_restamped_book_has_the_same_mark() {
    let mut marks = 0;
    for book in books() {
        let Some(two) = restamped(&book) else { continue };
        if book.chunks(CELL).any(|cell| cell[0] == kind::SUM) {
            continue;
        }
        for limit in [0, 1, 2, 5, LIMITS] {
            let answer = asked(|work| run(&book, work, limit)).0;
            if let Some(stop) = stop(answer) {
                assert_eq!(Some(stop), self::stop(asked(|work| run(&two, work, limit)).0), "limit {limit}: {book:?}");
                marks += 1;
            }
        }
    }
    assert!(marks > 500, "{marks}");
}
