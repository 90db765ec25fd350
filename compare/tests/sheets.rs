//! The families of sheets have enough of each, are answered as the documents say, and show every planted fault of sheets: beside the evaluator, and
//! mostly by what one side says of a book's check, sheet and runs; of the evaluator itself all of that holds.

use compare::cells::Cells;
use compare::comparing::{Comparison, Question};
use compare::engines::{Call, Engine, Evaluator};
use compare::families::families;
use compare::random::Random;
use compare::restamping::is_version_2;
use compare::settings::stated;
use compare::sheets::{hold, holds};
use compare::theory;
use evaluator::{decode, on_large_stack, Answer, Fault, Term, COUNTED, FORBIDDEN};

const SEED: u64 = 1;
const WHOLE: &str = "sheets";
const TYPED: &str = "typed sheets";
const NEARLY: &str = "nearly sheets";
/// As many as a self-test asks about.
const SEARCHED: usize = 500;
const FEW: usize = 3;

fn books(name: &str, count: usize) -> Vec<Vec<u8>> {
    let family = families().into_iter().find(|family| family.name == name).expect("the family");
    family.in_both_versions(SEED, count).take(count).collect()
}

fn of_sheets() -> Vec<Fault> {
    Fault::ALL.into_iter().filter(|fault| fault.is_of_sheets()).collect()
}

fn asked(call: Call, book: &[u8]) -> (Answer, Vec<u8>) {
    theory::call(&Evaluator(None), call, book).expect("an answer")
}

#[test]
fn the_stated_answers_are_given() {
    for sample in stated() {
        assert_eq!(asked(sample.call, &sample.book).0, sample.answer, "{}", sample.name);
    }
}

/// How many terms of these kinds are in a term.
fn count(kinds: &[u8], e: &Term) -> usize {
    let node = e.node();
    node.terms().map(|(.., part)| count(kinds, part)).sum::<usize>() + usize::from(kinds.contains(&node.row.kind))
}

/// What the books of a family are.
#[derive(Default, Debug)]
struct Shares {
    sheets: usize,
    /// Of the sheets, those of version 2, those with each of the kinds that are counted, and those with a function type.
    second: usize,
    with_each: [usize; 4],
    function_types: usize,
    /// Those that take no step, and a hundred or more.
    values: usize,
    long: usize,
    /// Those of a tenth of the root's cells at most; those with a kind that no sheet has, not reached.
    shared: usize,
    unreached: usize,
    /// By 17, with each of the four kinds; of these, those that a check accepts, and those whose root is not the last cell.
    with_other: [usize; 4],
    typed: usize,
    inner_root: usize,
    /// By 12 to 15, and by 10.
    ill_typed: [usize; 4],
    large: usize,
}

impl Shares {
    fn of(name: &str, count: usize) -> (Shares, usize) {
        on_large_stack(|| {
            let (mut shares, books) = (Shares::default(), books(name, count));
            books.iter().for_each(|book| shares.enter(book));
            println!("{name}, {} books: {shares:?}", books.len());
            (shares, books.len())
        })
    }

    fn enter(&mut self, book: &[u8]) {
        match asked(Call::Sheet, book).0 {
            Answer::Sheet { steps, .. } => self.enter_sheet(book, steps),
            Answer::Refused { number: 17, cell } => self.enter_other(book, cell),
            Answer::Refused { number: number @ 12..=15, .. } => self.ill_typed[usize::from(number) - 12] += 1,
            Answer::Refused { number: 10, .. } => self.large += 1,
            _ => {}
        }
    }

    fn enter_sheet(&mut self, book: &[u8], steps: u32) {
        let (root, _) = decode(book).expect("a root");
        let cells = Cells::of(book).expect("a book").cells;
        self.sheets += 1;
        self.second += usize::from(is_version_2(book));
        self.values += usize::from(steps == 0);
        self.long += usize::from(steps >= 100);
        self.shared += usize::from(cells.len() as u64 * 10 <= root.size());
        self.unreached += usize::from(cells.iter().any(|cell| FORBIDDEN.contains(&cell.kind)));
        self.function_types += usize::from(cells.iter().any(|cell| cell.kind == evaluator::kind::FUNCTION_TYPE));
        enter_kinds(&mut self.with_each, COUNTED, &root);
    }

    fn enter_other(&mut self, book: &[u8], cell: usize) {
        let (root, _) = decode(book).expect("a root");
        let last = Cells::of(book).expect("a book").cells.len() - 1;
        self.typed += usize::from(matches!(asked(Call::Check, book).0, Answer::Accepted { .. }));
        self.inner_root += usize::from(cell != last);
        enter_kinds(&mut self.with_other, FORBIDDEN, &root);
    }
}

fn enter_kinds(counts: &mut [usize; 4], kinds: [u8; 4], root: &Term) {
    counts.iter_mut().zip(kinds).for_each(|(with, kind)| *with += usize::from(count(&[kind], root) > 0));
}

#[test]
fn the_whole_family_has_enough_of_each() {
    let (shares, books) = Shares::of(WHOLE, usize::MAX);
    let Shares { sheets, second, with_each, values, long, shared, unreached, .. } = shares;
    assert!(sheets * 5 >= books && second * 5 >= sheets && with_each.iter().all(|count| count * 10 >= sheets));
    assert!(values >= 30 && long >= 40 && shared >= 40 && unreached >= 30);
    let Shares { with_other, typed, ill_typed, large, function_types, .. } = shares;
    assert!(with_other.iter().all(|count| *count >= 100) && typed >= 100 && function_types >= 100);
    assert!(ill_typed.iter().all(|count| *count >= 10) && large >= 50);
}

#[test]
fn the_typed_sheets_are_sheets() {
    let (shares, books) = Shares::of(TYPED, 1_000);
    let Shares { sheets, second, with_each, function_types, values, long, .. } = shares;
    assert!(sheets * 10 >= books * 9 && second * 3 >= sheets && with_each.iter().all(|count| count * 10 >= sheets));
    assert!(function_types * 10 >= sheets && values < sheets / 5 && long >= 10);
}

#[test]
fn the_nearly_sheets_have_enough_of_each() {
    let (shares, books) = Shares::of(NEARLY, 1_000);
    let Shares { sheets, unreached, with_other, typed, inner_root, ill_typed, .. } = shares;
    assert!(sheets * 3 >= books && unreached * 10 >= books && typed * 50 >= books && inner_root * 50 >= books);
    assert!(with_other.iter().all(|count| count * 50 >= books) && ill_typed.iter().all(|count| *count >= 5));
}

/// The books that a fault of sheets is searched in first.
fn searched() -> Vec<Vec<u8>> {
    [WHOLE, TYPED, NEARLY].map(|name| books(name, SEARCHED)).concat()
}

/// The comparison finds each of them in the first books, by the sheet call.
#[test]
fn every_fault_of_sheets_is_found() {
    on_large_stack(|| {
        let books = searched();
        for fault in of_sheets() {
            let faulty = Evaluator(Some(fault));
            let comparison = Comparison::new(&faulty, false);
            let by_sheet = |(place, book): &(usize, &Vec<u8>)| {
                let random = &mut Random::of(SEED, "limits", *place as u64);
                matches!(comparison.book(book, random), Err((Question::Call(Call::Sheet, _), _)))
            };
            assert_eq!(books.iter().enumerate().filter(by_sheet).take(FEW).count(), FEW, "{fault:?}");
        }
    });
}

/// How many of these books do not hold, as this side answers, up to a few.
fn broken(side: &dyn Engine, books: &[Vec<u8>]) -> usize {
    books.iter().filter(|book| holds(side, book).is_err()).take(FEW).count()
}

/// Whether a fault shows in what one side says of a book: what is no sheet, its cell, and a work buffer of another length do not.
fn shows(fault: Fault) -> bool {
    let unseen = [
        Fault::ApplicationsForbidden,
        Fault::SumsForbidden,
        Fault::FunctionTypesForbidden,
        Fault::ForbiddenUnreached,
        Fault::ValuesNoSheet,
        Fault::WideNoSheet,
        Fault::NoSheetBeforeWork,
        Fault::NoSheetCellZero,
        Fault::NoSheetNamesFirst,
        Fault::NoSheetNamesLast,
        Fault::IllTypedNoSheet,
        Fault::WrongWorkOfSheetZeroed,
        // What may then be a sheet is still refused, by 11 to 15.
        Fault::VariablesAllowed,
        Fault::NoSheetAfterTyping,
        // The work buffer is zero before.
        Fault::NoSheetLeavesWork,
        Fault::IllTypedLeavesWork,
        Fault::SheetLeavesRest,
    ];
    !unseen.contains(&fault)
}

#[test]
fn sheets_hold_unless_a_fault_is_planted() {
    on_large_stack(|| {
        let books = searched();
        assert_eq!(broken(&Evaluator(None), &books), 0);
        for fault in of_sheets() {
            assert_eq!(broken(&Evaluator(Some(fault)), &books), if shows(fault) { FEW } else { 0 }, "{fault:?}");
        }
        for fault in [Fault::HalfNamed, Fault::SumWraps, Fault::MarkNothing] {
            assert_eq!(broken(&Evaluator(Some(fault)), &books), 0, "{fault:?}");
        }
        for fault in [Fault::DescentCounted, Fault::SpentBeforeValue, Fault::TopAppliedEarly] {
            assert_eq!(broken(&Evaluator(Some(fault)), &books), FEW, "{fault:?}");
        }
    });
}

/// Nothing else differs: with each of them, a check and a run say and leave the same.
#[test]
fn a_fault_of_sheets_is_one_of_sheets_alone() {
    on_large_stack(|| {
        let books = [WHOLE, NEARLY, "near misses"].map(|name| books(name, 60)).concat();
        let calls = [Call::Check, Call::Run { limit: 2 }, Call::Run { limit: u32::MAX }];
        for (fault, book) in of_sheets().into_iter().flat_map(|fault| books.iter().map(move |book| (fault, book))) {
            for call in calls {
                let faulty = theory::call(&Evaluator(Some(fault)), call, book).expect("an answer");
                assert!(faulty == asked(call, book), "{fault:?}, {call:?}");
            }
        }
    });
}

#[test]
fn each_law_of_sheets_can_fail() {
    let accepted = |size| Answer::Accepted { size };
    let sheet = |size, steps| Answer::Sheet { size, steps };
    let refused = |number, cell| Answer::Refused { number, cell };
    let value = |steps| Answer::Value { steps, mark: 9 };
    let spent = |steps| Answer::Spent { steps, mark: 9 };
    let runs = [(0, spent(0)), (2, spent(2)), (3, value(3)), (4, value(3)), (u32::MAX, value(3))];
    assert_eq!(hold(accepted(1), sheet(1, 3), &runs), Ok(()));
    for wrong in [
        (3, spent(3)),
        (2, value(2)),
        (3, value(2)),
        (4, value(4)),
        (2, spent(1)),
        (2, value(3)),
        (9, Answer::Room { steps: 3, mark: 9 }),
        (2, Answer::Room { steps: 2, mark: 9 }),
        (3, refused(14, 2)),
        (3, accepted(1)),
    ] {
        assert!(hold(accepted(1), sheet(1, 3), &[runs[0], wrong]).is_err(), "{wrong:?}");
    }
    for check in [accepted(1), refused(11, 2), refused(15, 2)] {
        assert_eq!(hold(check, refused(17, 5), &[]), Ok(()));
    }
    assert_eq!(hold(refused(14, 2), refused(14, 2), &[]), Ok(()));
    for (check, sheet) in [
        (accepted(2), sheet(1, 3)),
        (refused(14, 2), sheet(1, 3)),
        (refused(10, 2), refused(17, 2)),
        (refused(2, 0), refused(17, 2)),
        (refused(14, 2), refused(14, 3)),
        (refused(16, 0), refused(16, 0)),
        (accepted(1), refused(14, 2)),
        (accepted(1), accepted(1)),
    ] {
        assert!(hold(check, sheet, &[]).is_err(), "{check:?}, {sheet:?}");
    }
}
