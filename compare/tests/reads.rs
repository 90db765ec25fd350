//! The family of field reads has enough of each: merges that a run reads a field of, fields that no part has, and reads refused.

use compare::contexts::redex;
use compare::families::families;
use evaluator::{check, decode, on_large_stack, successors, Answer, Term, TermShape, Version, WORK};
use std::iter;

const SEED: u64 = 1;
/// As many as a self-test asks about, nearly.
const BOOKS: usize = 400;
/// A run is followed for so many steps.
const STEPS: usize = 30;

/// What a read of a merge gives in a run.
#[derive(Default, Debug)]
struct Shares {
    refused: usize,
    /// Books whose run reads a field of a merge, and those where there are several such reads.
    reading: usize,
    reading_again: usize,
    /// Reads that give a content, and reads that give the top value.
    contents: usize,
    tops: usize,
    /// Reads of a merge of more than two parts, and of more than a hundred.
    nested: usize,
    deep: usize,
}

/// How many parts a merge has.
fn parts(term: &Term) -> usize {
    match term.shape() {
        TermShape::Merge(left, right) => parts(left) + parts(right),
        _ => 1,
    }
}

impl Shares {
    /// A read of a merge that is taken.
    fn enter_read(&mut self, read: &Term, of: &Term) {
        match successors(read, Version::One)[0].shape() {
            TermShape::Top => self.tops += 1,
            _ => self.contents += 1,
        }
        self.nested += usize::from(parts(of) > 2);
        self.deep += usize::from(parts(of) > 100);
    }

    /// A book's run.
    fn enter_run(&mut self, root: Term) {
        let mut reads = 0;
        for term in iter::successors(Some(root), |term| successors(term, Version::One).pop()).take(STEPS) {
            let step = redex(&term);
            let TermShape::Projection(_, of) = step.shape() else { continue };
            if let TermShape::Merge(..) = of.shape() {
                reads += 1;
                self.enter_read(step, of);
            }
        }
        self.reading += reads.min(1);
        self.reading_again += usize::from(reads > 1);
    }

    fn enter(&mut self, book: &[u8]) {
        match check(book, &mut vec![0; WORK]) {
            Answer::Accepted { .. } => self.enter_run(decode(book).expect("a term").0),
            Answer::Refused { number: 13, .. } => self.refused += 1,
            _ => {}
        }
    }
}

#[test]
fn the_family_of_field_reads_has_enough_of_each() {
    on_large_stack(|| {
        let family = families().into_iter().find(|family| family.name == "reads of merges").expect("the family");
        let mut shares = Shares::default();
        family.books(SEED, BOOKS).for_each(|book| shares.enter(&book));
        println!("of {BOOKS} books: {shares:?}");
        let Shares { refused, reading, reading_again, contents, tops, nested, deep } = shares;
        let percent = |count: usize| count * 100 / BOOKS;
        assert!(percent(refused) >= 10 && percent(reading) >= 50 && percent(reading_again) >= 10);
        assert!(percent(contents) >= 40 && percent(tops) >= 10 && percent(nested) >= 40 && deep >= 2);
    });
}
