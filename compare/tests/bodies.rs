//! The family of bodies one cell apart has every kind, every item and every depth in it, is answered as the documents say, and finds every
//! planted fault in comparing functions; the random one has enough that is accepted and enough that is refused.

use compare::bodies::{one_cell_apart, stated, Difference, Expected, Item, Pair, DEPTHS};
use compare::families::families;
use evaluator::{check, decode, kind, on_large_stack, with_fault, Answer, Fault, TABLE, WORK};
use std::collections::BTreeSet;

/// Both families' names.
const WHOLE: &str = "one cell apart";
const RANDOM: &str = "nearly equal bodies";
/// As many as a self-test asks about.
const SEARCHED: usize = 500;

fn checked(book: &[u8]) -> Answer {
    check(book, &mut vec![0; WORK])
}

fn books(name: &str, count: usize) -> Vec<Vec<u8>> {
    let family = families().into_iter().find(|family| family.name == name).expect("the family");
    family.books(1, count).take(count).collect()
}

#[test]
fn the_stated_answers_are_given() {
    for sample in stated() {
        assert_eq!(checked(&sample.book), sample.answer, "{}", sample.name);
    }
}

/// Equal bodies and inputs are accepted, whatever the outputs are; others are refused, and where both functions are typed it is the merge.
#[test]
fn every_pair_is_answered_as_expected() {
    let (mut accepted, mut inconsistent, mut refused) = (0, 0, 0);
    for Pair { difference, expected, book } in one_cell_apart() {
        let merge = Answer::Refused { number: 14, cell: usize::from(book.root) };
        match (expected, checked(&book.bytes())) {
            (Expected::Accepted, Answer::Accepted { .. }) if difference.is_none() => accepted += 1,
            (Expected::Inconsistent, answer) if difference.is_some() && answer == merge => inconsistent += 1,
            (Expected::Refused, answer @ Answer::Refused { number: 11..=15, .. }) if answer != merge => refused += 1,
            (_, answer) => panic!("{expected:?}, {difference:?}: {answer:?} for {:?}", decode(&book.bytes())),
        }
    }
    println!("{accepted} accepted, {inconsistent} refused at the merge, {refused} before");
    assert!(accepted >= 500 && inconsistent >= 3_000 && refused >= 400);
}

/// Where functions differ that are both typed.
fn depths() -> BTreeSet<(u8, Item, usize)> {
    let compared = one_cell_apart().into_iter().filter(|pair| pair.expected == Expected::Inconsistent);
    let differences = compared.map(|pair| pair.difference.expect("a difference"));
    differences.map(|Difference { kind, item, depth }| (kind, item, depth)).collect()
}

/// In a body's first cell, a variable cannot differ, for there is but one; nor can a label, for the types would be disjoint; nor is it a type,
/// which only an input's can be.
#[test]
fn bodies_differ_in_every_item_of_every_kind_at_every_depth() {
    let depths = depths();
    for row in TABLE {
        for item in Item::all(row.kind) {
            let first = match (row.kind, item) {
                (kind::VARIABLE, _) | (kind::RECORD, Item::Label) => 1,
                _ => 0,
            };
            let missing: Vec<usize> = (first..=DEPTHS).filter(|&depth| !depths.contains(&(row.kind, item, depth))).collect();
            assert!(missing.is_empty(), "{}, {item:?}: not at {missing:?}", row.meaning);
        }
    }
}

/// The faults in comparing functions, and the one in comparing choices, which stand in bodies.
const FAULTS: [Fault; 27] = [
    Fault::EqualByTwoParts,
    Fault::BodiesByCell,
    Fault::BodiesByBytes,
    Fault::BodiesByLowByte,
    Fault::SharedPartEnough,
    Fault::SharingCompared,
    Fault::OneForSeveral,
    Fault::SeveralForOne,
    Fault::EightLevels,
    Fault::LabelsIgnored,
    Fault::TypesIgnored,
    Fault::VariablesAlike,
    Fault::VariablesByLowByte,
    Fault::LowHalfIgnored,
    Fault::HighHalfIgnored,
    Fault::FirstIgnored,
    Fault::SecondOfTwoIgnored,
    Fault::FunctionsByTwoParts,
    Fault::PairsAlike,
    Fault::RecordsAsReads,
    Fault::AnnotationsAsFixpoints,
    Fault::FunctionTypesAsIntersections,
    Fault::IntAsTop,
    Fault::InputsIgnored,
    Fault::InputsByFirstCell,
    Fault::InputSharingCompared,
    Fault::OutputsCompared,
];

/// The first books, those that a self-test asks about, find each of them.
#[test]
fn every_fault_in_comparing_functions_is_found() {
    on_large_stack(|| {
        let books = books(WHOLE, SEARCHED);
        for fault in FAULTS {
            let found = books.iter().filter(|book| with_fault(Some(fault), || checked(book)) != checked(book)).count();
            println!("{fault:?}: {found} of {SEARCHED} books");
            assert!(found >= 1, "{fault:?}");
        }
    });
}

/// What a check says of random books.
#[test]
fn nearly_equal_bodies_are_accepted_and_refused() {
    let (mut accepted, mut inconsistent, mut other) = (0, 0, 0);
    on_large_stack(|| {
        for book in books(RANDOM, SEARCHED) {
            match checked(&book) {
                Answer::Accepted { .. } => accepted += 1,
                Answer::Refused { number: 14, .. } => inconsistent += 1,
                _ => other += 1,
            }
        }
    });
    println!("of {SEARCHED} books: {accepted} accepted, {inconsistent} refused by 14, {other} otherwise");
    assert!(accepted >= SEARCHED / 3 && inconsistent >= SEARCHED / 3 && other > 0 && other <= SEARCHED / 5);
}
