//! The deepest and the widest books, checked, run, previewed and joined, take no more stack than the wrapper and the header promise.

#![cfg(not(library_missing))]

use cerealbank::{check, join, preview, run, sheet, Answer, Joined, RunAnswer, SheetAnswer, PROJECT, STACK, WORK};
use compare::deepest::{deepest, Deep};
use compare::extremes::{extremes, times};
use compare::stack::{in_stack, taken};
use evaluator::{encode_term, on_large_stack, restamped, Term, Type, Version};

const LIMITS: [u32; 6] = [0, 1, 2, 3, 10, 10_000];
/// Every book fits a thread with so much stack, of which the thread itself takes a little; so many that take most are run in one.
const THREAD: usize = 1 << 20;
const ITSELF: usize = 16 << 10;
const MOST: usize = 100;
/// Far more than any engine takes, to measure one that takes too much.
const AMPLE: usize = 16 << 20;

fn books() -> Vec<Deep> {
    let others = extremes().into_iter().enumerate();
    let named = |(n, book): (usize, Vec<u8>)| Deep { group: "extremes", name: n.to_string(), book };
    deepest().into_iter().chain(others.map(named)).chain(halves()).collect()
}

/// Books that are joined to themselves with a joint of 4,095 cells, or as near as their form comes.
fn halves() -> [Deep; 4] {
    let function = |e: Term| Term::function(e, Type::top(), Type::int());
    let terms = [
        ("records", times(2_046, Term::number(1), |e| Term::record(7, e))),
        ("merges to the right", times(1_023, Term::number(1), |e| Term::merge(Term::number(1), e))),
        ("a function of field reads", function(times(2_043, Term::top(), |e| Term::projection(7, e)))),
        ("a function of sums", function(times(1_021, Term::number(1), |e| Term::sum(e, Term::number(1))))),
    ];
    let book = |term: &Term| encode_term(term, Version::One);
    terms.map(|(name, term)| Deep { group: "halves", name: name.to_string(), book: book(&term) })
}

/// The limits in turn, until the run has ended: with higher ones it is the same.
fn check_and_run(book: &[u8]) {
    let mut work = vec![0; WORK];
    if !matches!(check(book, &mut work), Answer::Accepted { .. }) {
        return;
    }
    for limit in LIMITS {
        match run(book, &mut work, limit) {
            RunAnswer::Spent { steps, .. } => assert_eq!(steps, limit),
            RunAnswer::Value { steps, .. } | RunAnswer::Room { steps, .. } => return assert!(steps <= limit),
            other => panic!("{other:?}"),
        }
    }
}

/// The top value, which may stand beside every book, in version 2.
const TOP_VALUE: [u8; 16] = [18, 0, 0, 0, 0, 0, 0, 0, 0xF0, 2, 1, 0, 0, 0, 0, 0];

/// A book as the project, as the part, and as both.
fn all_ways(book: &[u8], call: fn(&mut [u8], usize, &[u8], &mut [u8]) -> Joined) {
    let (mut project, mut work) = (vec![0; PROJECT], vec![0; WORK]);
    for (one, part) in [(book, &TOP_VALUE[..]), (&TOP_VALUE, book), (book, book)] {
        let held = one.len().min(PROJECT);
        project[..held].copy_from_slice(&one[..held]);
        let joined = call(&mut project, one.len(), part, &mut work);
        assert!(matches!(joined.answer, Answer::Accepted { .. } | Answer::Refused { .. }), "{joined:?}");
    }
}

/// Books are measured; none takes more than four fifths of what is promised, and those that take most do with a thread's mebibyte. As version 2
/// they take no more than is allowed either.
fn suffices(does: impl Fn(&[u8]) + Sync) {
    let books = on_large_stack(books);
    let bytes = taken(AMPLE, &books, |deep| does(&deep.book));
    let mut all: Vec<(usize, &Deep)> = bytes.into_iter().zip(&books).collect();
    all.sort_by_key(|(bytes, _)| std::cmp::Reverse(*bytes));
    println!("{} bytes at most, of {} books", all[0].0, all.len());
    let allowed = (THREAD - ITSELF).min(STACK / 5 * 4);
    let over = all.iter().filter(|(bytes, _)| *bytes > allowed);
    let over: Vec<String> = over.map(|(bytes, deep)| format!("{bytes} bytes: {}, {}", deep.group, deep.name)).collect();
    assert!(over.is_empty(), "{} of {} books take more than {allowed}:\n{}", over.len(), all.len(), over.join("\n"));
    let most: Vec<&[u8]> = all.iter().take(MOST).map(|(_, deep)| &deep.book[..]).collect();
    in_stack(THREAD, || most.iter().for_each(|book| does(book)));
    let restamped: Vec<Vec<u8>> = most.iter().filter_map(|book| restamped(book)).collect();
    let bytes = taken(AMPLE, &restamped, |book| does(book));
    assert!(restamped.len() == MOST && bytes.iter().all(|bytes| *bytes <= allowed), "restamped: {:?}", bytes.iter().max());
}

#[test]
fn every_book_runs_in_a_mebibyte_and_in_four_fifths_of_the_stack_promised() {
    suffices(check_and_run);
}

#[test]
fn every_book_is_joined_in_a_mebibyte_and_in_four_fifths_of_the_stack_promised() {
    suffices(|book| all_ways(book, join));
}

/// Many of the deepest books are sheets of many steps; others are found to be none far within.
#[test]
fn every_book_is_counted_in_a_mebibyte_and_in_four_fifths_of_the_stack_promised() {
    let answer = |book: &[u8]| sheet(book, &mut vec![0; WORK]);
    let long = |deep: &Deep| matches!(answer(&deep.book), SheetAnswer::Accepted { steps: 1_000.., .. });
    let sheets = on_large_stack(|| books().iter().filter(|deep| long(deep)).count());
    assert!(sheets > 50, "{sheets} of the deepest books are sheets of a thousand steps or more");
    suffices(|book| assert!(!matches!(answer(book), SheetAnswer::Unknown { .. })));
}

#[test]
fn every_book_is_previewed_in_a_mebibyte_and_in_four_fifths_of_the_stack_promised() {
    suffices(|book| all_ways(book, |project, length, part, work| preview(project, length, part, work)));
}
