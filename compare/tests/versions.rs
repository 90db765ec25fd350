//! The families of both versions have every value of what a version decides, are answered as the documents say, and find every planted fault of
//! versions; every other family has its books restamped, and these are the same as the version 1 books unless a fault is planted.

use compare::cells::Cells;
use compare::engines::{Call, Engine, Evaluator};
use compare::families::{families, Family};
use compare::restamping::{holds, is_version_2, narrowed};
use compare::theory;
use compare::versions::stated;
use evaluator::{encode_term, kind, on_large_stack, restamped, Answer, Cell, Fault, Term, Version, CELL, TRAILER, WORK};
use std::collections::BTreeSet;

const SEED: u64 = 1;
/// As many as a self-test asks about.
const SEARCHED: usize = 500;

/// The families that are made for this.
const OWN: [&str; 8] = [
    "ends of both ranges",
    "damaged versions",
    "every byte of wide",
    "wide arithmetic",
    "wide terms",
    "wide merges",
    "widened",
    "scrambled",
];

fn is_own(family: &Family) -> bool {
    OWN.contains(&family.name)
}

fn books(name: &str, count: usize) -> Vec<Vec<u8>> {
    let family = families().into_iter().find(|family| family.name == name).expect("the family");
    family.books(SEED, count).take(count).collect()
}

/// What a call says and leaves.
fn asked(call: Call, book: &[u8]) -> (Answer, Vec<u8>) {
    theory::call(&Evaluator(None), call, book).expect("an answer")
}

#[test]
fn the_stated_answers_are_given() {
    for sample in stated() {
        let (answer, work) = asked(sample.call, &sample.book);
        assert_eq!(answer, sample.answer, "{}", sample.name);
        assert!(sample.left().is_none_or(|left| work.starts_with(&left)), "{}", sample.name);
    }
}

/// The faults of one version, or of telling them apart.
const FAULTS: [Fault; 34] = [
    Fault::OlderVersions,
    Fault::ThirdVersion,
    Fault::VersionZero,
    Fault::TypeOfVersion1,
    Fault::TermOfVersion1,
    Fault::NarrowFieldUntested,
    Fault::WideFieldRefused,
    Fault::WideLabelUntested,
    Fault::FirstFieldUntested,
    Fault::ZeroExtended,
    Fault::NarrowFromAllBytes,
    Fault::WideUnsigned,
    Fault::WideFromLastBytes,
    Fault::WideFromFirstBytes,
    Fault::NarrowingLeftOut,
    Fault::NarrowingInVersion2,
    Fault::NarrowingKeepsHighFields,
    Fault::SumOf48Bits,
    Fault::WideSumOf32Bits,
    Fault::WideSumOfLowBits,
    Fault::WideSumWraps,
    Fault::WideSumShortAbove,
    Fault::WideSumShortBelow,
    Fault::LostToVersion1,
    Fault::LostToVersion2,
    Fault::ConsistentWithoutA,
    Fault::ConsistentWithoutB,
    Fault::ConsistentWithoutC,
    Fault::BodiesWithoutA,
    Fault::BodiesWithoutB,
    Fault::BodiesWithoutC,
    Fault::ZeroWithoutA,
    Fault::ZeroWithoutB,
    Fault::ZeroWithoutC,
];

/// The first books of the families made for this, those that a self-test asks about, find each of them.
#[test]
fn every_fault_of_versions_is_found() {
    on_large_stack(|| {
        let whole = ["ends of both ranges", "damaged versions"];
        let books: Vec<Vec<u8>> = whole.iter().flat_map(|name| books(name, SEARCHED)).collect();
        let both = |side: Evaluator, book: &[u8]| {
            [Call::Check, Call::Run { limit: 100 }].map(|call| {
                let mut work = vec![0; WORK];
                (side.call(call, book, &mut work), work)
            })
        };
        let right: Vec<_> = books.iter().map(|book| both(Evaluator(None), book)).collect();
        for fault in FAULTS {
            let differs = |(book, right): &(&Vec<u8>, &_)| both(Evaluator(Some(fault)), book) != **right;
            let found = books.iter().zip(&right).filter(differs).count();
            println!("{fault:?}: {found} of {} books", books.len());
            assert!(found >= 1, "{fault:?}");
        }
    });
}

/// Every family but those made for this has its books in version 2 as well: a good part of them.
#[test]
fn every_other_family_is_restamped() {
    on_large_stack(|| {
        for family in families().iter().filter(|family| !is_own(family)) {
            let own = family.books(SEED, 90).take(90).filter(|book| restamped(book).is_some()).count();
            let again = family.in_both_versions(SEED, 90).take(90).filter(|book| is_version_2(book)).count();
            println!("{}: {again} restamped, {own} of 90 can be", family.name);
            assert!(again * 20 >= own, "{}", family.name);
        }
    });
}

/// The restamped books of a family, with those that they come from.
fn pairs(family: &Family, count: usize) -> Vec<(Vec<u8>, Vec<u8>)> {
    let books = family.books(SEED, count).take(count).filter(|book| book.len() < 8_192);
    books.filter_map(|book| restamped(&book).map(|two| (book, two))).collect()
}

/// A restamped book is narrowed to the one that it comes from, if no number's cell in it is refused.
#[test]
fn narrowing_undoes_restamping() {
    let all = families();
    let refused = |cell: &Cell| cell.kind == kind::NUMBER && cell.fields[0] != 0;
    let fitting = |one: &[u8]| Cells::of(one).is_some_and(|book| !book.cells.iter().any(refused));
    let pairs = all.iter().filter(|family| !is_own(family)).flat_map(|family| pairs(family, 60));
    let pairs: Vec<_> = pairs.filter(|(one, _)| fitting(one)).collect();
    assert!(pairs.len() > 500, "{}", pairs.len());
    assert!(pairs.into_iter().all(|(one, two)| narrowed(&two) == Some(one)));
    assert_eq!(narrowed(&encode_term(&Term::number(1_i64 << 31), Version::Two)), None);
    assert_eq!(narrowed(&encode_term(&Term::number(1), Version::One)), None);
}

/// The faults that a restamped book without sums shows by itself.
const OF_PAIRS: [Fault; 12] = [
    Fault::OlderVersions,
    Fault::TypeOfVersion1,
    Fault::TermOfVersion1,
    Fault::WideFieldRefused,
    Fault::NarrowFromAllBytes,
    Fault::WideFromLastBytes,
    Fault::NarrowingLeftOut,
    Fault::NarrowingInVersion2,
    Fault::NarrowingKeepsHighFields,
    Fault::ZeroWithoutA,
    Fault::ZeroWithoutB,
    Fault::BranchesRun,
];

/// How many of these books hold, as this side answers.
fn holding(side: &dyn Engine, books: &[Vec<u8>]) -> usize {
    books.iter().filter(|book| holds(side, book).is_ok()).count()
}

#[test]
fn restamped_books_are_the_same_unless_a_fault_is_planted() {
    on_large_stack(|| {
        let all = families();
        let names = ["samples", "ends of the range", "hidden fields", "counting bodies", "merges", "one cell apart", "arithmetic"];
        let asked = all.iter().filter(|family| names.contains(&family.name));
        let books: Vec<Vec<u8>> = asked.flat_map(|family| pairs(family, 150)).map(|(_, two)| two).collect();
        assert_eq!(holding(&Evaluator(None), &books), books.len());
        for fault in OF_PAIRS {
            let broken = books.len() - holding(&Evaluator(Some(fault)), &books);
            println!("{fault:?}: {broken} of {}", books.len());
            // What is wrong in both versions alike is no matter of restamping.
            assert_eq!(broken > 0, fault != Fault::BranchesRun, "{fault:?}");
        }
    });
}

/// Every version, every other byte of a trailer that is tested with it, every bit of field a, every label, in each version.
#[test]
fn all_that_a_version_decides_is_damaged() {
    let (mut versions, mut others) = (BTreeSet::new(), BTreeSet::new());
    let (mut fields, mut labels) = (BTreeSet::new(), BTreeSet::new());
    for book in books("damaged versions", usize::MAX) {
        let trailer = &book[book.len() - CELL..];
        let version = trailer[1];
        versions.insert(version);
        others.extend([0, 6, 7].map(|place| (place, trailer[place])).into_iter().filter(|_| version == 2));
        let numbers = book.chunks(CELL).map(Cell::of).filter(|cell| cell.kind == kind::NUMBER && trailer[0] == TRAILER);
        fields.extend(numbers.clone().map(|cell| (version, cell.fields[0])));
        labels.extend(numbers.map(|cell| (version, cell.label)));
    }
    assert_eq!((versions.len(), others.len()), (256, 3 * 256));
    let bits = |version: u8| (0..16).all(|bit| fields.contains(&(version, 1 << bit)));
    assert!([1, 2].into_iter().all(|version| bits(version) && (0..=255).all(|label| labels.contains(&(version, label)))));
}

/// Numbers that are merged and refused differ in one field of a cell, each of the three; and equal ones are accepted.
#[test]
fn merged_numbers_differ_in_each_field() {
    let (mut equal, mut apart) = (0, [0; 3]);
    for book in books("ends of both ranges", usize::MAX).into_iter().filter(|book| is_version_2(book)) {
        let cells = Cells::of(&book).expect("a book");
        let [Cell { kind: kind::NUMBER, fields: one, .. }, Cell { kind: kind::NUMBER, fields: other, .. }, merge] = cells.cells[..]
        else {
            continue;
        };
        if merge.kind != kind::MERGE {
            continue;
        }
        let (answer, _) = asked(Call::Check, &book);
        let fields: Vec<usize> = (0..3).filter(|&field| one[field] != other[field]).collect();
        match fields[..] {
            [] => equal += usize::from(answer == Answer::Accepted { size: 3 }),
            [field] => apart[field] += usize::from(answer == Answer::Refused { number: 14, cell: 2 }),
            _ => assert!(fields.len() < 2 || stated().iter().any(|sample| sample.book == book), "{fields:?}"),
        }
    }
    println!("{equal} merges of two numbers are accepted, {apart:?} differ in a, b and c");
    assert!(equal >= 10 && apart.iter().all(|&count| count >= 10));
}

/// What a check says of the random books.
#[test]
fn wide_books_are_accepted_and_refused() {
    on_large_stack(|| {
        for (name, [accepted, refused]) in
            [("wide terms", [90, 0]), ("wide merges", [20, 30]), ("widened", [60, 5]), ("scrambled", [5, 50])]
        {
            let books = books(name, SEARCHED);
            let good = books.iter().filter(|book| matches!(asked(Call::Check, book).0, Answer::Accepted { .. })).count();
            println!("{name}: {good} of {SEARCHED} accepted");
            assert!(good * 100 >= accepted * SEARCHED && (SEARCHED - good) * 100 >= refused * SEARCHED, "{name}");
            let wide = books.iter().filter(|book| is_version_2(book) && narrowed(book).is_none()).count();
            assert!(wide * 2 >= SEARCHED, "{name}: {wide} with a number past 32 bits");
        }
    });
}
