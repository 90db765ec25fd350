//! The heavy families have enough of each, and show every planted fault of marks: beside the evaluator, and by what one side says of a book's runs
//! under several limits; of the evaluator itself all of that holds.

use compare::cells::Cells;
use compare::engines::{Call, Engine, Evaluator};
use compare::families::families;
use compare::marks::{hold, holds, Ran};
use compare::random::Random;
use compare::restamping::is_version_2;
use compare::{comparing, samples, theory};
use evaluator::{decode, on_large_stack, run, successors, Answer, Fault, CELL, SIZE_LIMIT, TRAILER, WORK};

const SEED: u64 = 1;
const WHOLE: &str = "heavy";
const RANDOM: &str = "rising and falling";
/// As many as a self-test asks about.
const SEARCHED: usize = 500;
const FEW: usize = 3;

fn books(name: &str, count: usize) -> Vec<Vec<u8>> {
    let family = families().into_iter().find(|family| family.name == name).expect("the family");
    family.in_both_versions(SEED, count).take(count).collect()
}

fn of_marks() -> Vec<Fault> {
    Fault::ALL.into_iter().filter(|fault| fault.is_of_marks()).collect()
}

/// What the runs of a family's books come to.
#[derive(Default, Debug)]
struct Shares {
    accepted: usize,
    second: usize,
    /// The largest term is the first alone, the last alone, or neither.
    first: usize,
    last: usize,
    between: usize,
    /// The mark is 4,094, and 4,095.
    short: usize,
    full: usize,
    /// The successor that found no room has 4,096 cells, 4,097, more than 10,000.
    one_more: usize,
    two_more: usize,
    far_more: usize,
    /// A tenth of the root's cells at most are in the book; a tenth of the book's are in the root.
    shared: usize,
    unreached: usize,
    /// A mark of 1,000 or more in five steps at most, and one of 500 at most in 1,000 steps or more.
    fast: usize,
    slow: usize,
}

impl Shares {
    fn of(name: &str, count: usize) -> (Shares, usize) {
        on_large_stack(|| {
            let (mut shares, books) = (Shares::default(), books(name, count));
            books.iter().for_each(|book| shares.enter(book));
            println!("{name}, {} books: {shares:?}", books.len());
            (shares, books.len())
        })
    }

    fn enter(&mut self, book: &[u8]) {
        let mut work = vec![0; WORK];
        let answer = run(book, &mut work, 10_000);
        let Some((steps, mark)) = answer.ran() else { return };
        self.accepted += 1;
        self.second += usize::from(is_version_2(book));
        let end = work.chunks(CELL).position(|cell| cell[0] == TRAILER).expect("a trailer");
        let (first, last) = (decode(book).expect("a root").0.size(), end as u64);
        self.first += usize::from(mark == first && last < mark);
        self.last += usize::from(mark == last && first < mark);
        self.between += usize::from(mark > first && mark > last);
        self.short += usize::from(mark == SIZE_LIMIT - 1);
        self.full += usize::from(mark == SIZE_LIMIT);
        self.fast += usize::from(mark >= 1_000 && steps <= 5);
        self.slow += usize::from(mark <= 500 && steps >= 1_000);
        let cells = Cells::of(book).expect("a book").cells.len() as u64;
        self.shared += usize::from(cells * 10 <= first);
        self.unreached += usize::from(first * 10 <= cells);
        if let Answer::Room { .. } = answer {
            self.enter_room(&work[..(end + 1) * CELL]);
        }
    }

    fn enter_room(&mut self, left: &[u8]) {
        let (term, version) = decode(left).expect("a term");
        let size = successors(&term, version)[0].size();
        self.one_more += usize::from(size == SIZE_LIMIT + 1);
        self.two_more += usize::from(size == SIZE_LIMIT + 2);
        self.far_more += usize::from(size > 10_000);
    }
}

#[test]
fn the_whole_family_has_enough_of_each() {
    let (shares, books) = Shares::of(WHOLE, usize::MAX);
    let Shares { accepted, second, first, last, between, short, full, one_more, two_more, far_more, .. } = shares;
    assert!(accepted == books && second * 4 >= books && first * 10 >= books && last * 20 >= books && between * 3 >= books);
    assert!([short, full, one_more, two_more, far_more].into_iter().all(|count| count >= 8));
    let Shares { shared, unreached, fast, slow, .. } = shares;
    assert!(shared * 5 >= books && unreached >= 20 && fast >= 50 && slow >= 8);
}

#[test]
fn the_random_family_has_enough_of_each() {
    let (shares, books) = Shares::of(RANDOM, 1_000);
    let Shares { accepted, second, first, last, between, .. } = shares;
    assert!(accepted * 10 >= books * 9 && second * 5 >= books && first * 10 >= books && last * 50 >= books && between * 3 >= books);
}

/// How many of these books do not hold, as this side answers, up to a few.
fn broken(side: &dyn Engine, books: &[Vec<u8>]) -> usize {
    books.iter().filter(|book| holds(side, book).is_err()).take(FEW).count()
}

/// What one side says of a book's runs shows each of the faults.
#[test]
fn marks_hold_unless_a_fault_is_planted() {
    on_large_stack(|| {
        let books = [books(WHOLE, SEARCHED), books(RANDOM, SEARCHED)].concat();
        let small: Vec<Vec<u8>> = books.into_iter().filter(|book| book.len() < 1_000).collect();
        assert_eq!(broken(&Evaluator(None), &small), 0);
        for fault in of_marks() {
            assert_eq!(broken(&Evaluator(Some(fault)), &small), FEW, "{fault:?}");
        }
        for fault in [Fault::HalfNamed, Fault::OutputKept, Fault::SumWraps, Fault::RoomOneEarly] {
            assert_eq!(broken(&Evaluator(Some(fault)), &small), 0, "{fault:?}");
        }
    });
}

/// Nothing else differs: with each of them, a check says the same, and a run but for its steps and its mark; and both leave the same.
#[test]
fn a_fault_of_marks_is_one_of_marks_alone() {
    on_large_stack(|| {
        let books = [books(WHOLE, 60), books(RANDOM, 60), books("near misses", 60)].concat();
        let calls = [Call::Check, Call::Run { limit: 2 }, Call::Run { limit: u32::MAX }];
        for (fault, book) in of_marks().into_iter().flat_map(|fault| books.iter().map(move |book| (fault, book))) {
            for call in calls {
                let [(one, left), (other, right)] =
                    [None, Some(fault)].map(|fault| theory::call(&Evaluator(fault), call, book).expect("an answer"));
                let steps = if fault == Fault::MarkAsSteps { 0 } else { one.ran().map_or(0, |(steps, _)| steps) };
                let other = if fault == Fault::MarkAsSteps { other.with(0, 0) } else { other.with(steps, 0) };
                assert!(one.with(steps, 0) == other && left == right, "{fault:?}, {call:?}");
            }
        }
    });
}

/// The comparison finds each of them in the first books.
#[test]
fn every_fault_of_marks_is_found() {
    on_large_stack(|| {
        let books = [books(WHOLE, SEARCHED), books(RANDOM, SEARCHED)].concat();
        for fault in of_marks() {
            let faulty = Evaluator(Some(fault));
            let comparison = comparing::Comparison::new(&faulty, false);
            let differs =
                |(place, book): &(usize, &Vec<u8>)| comparison.book(book, &mut Random::of(SEED, "limits", *place as u64)).is_err();
            assert_eq!(books.iter().enumerate().filter(differs).take(FEW).count(), FEW, "{fault:?}");
        }
    });
}

/// Of a book whose marks are wrong beyond the evaluator's word, what is promised fails: a run in two parts, and each term reached.
#[test]
fn the_theory_holds_unless_a_fault_is_planted() {
    on_large_stack(|| {
        let books: Vec<Vec<u8>> =
            [books(RANDOM, SEARCHED), samples::samples().into_iter().map(|sample| sample.book).collect()].concat();
        let broken = |fault| books.iter().filter(|book| theory::holds(&Evaluator(fault), book).is_err()).take(FEW).count();
        assert_eq!(broken(None), 0);
        // Those that need terms of more than 200 cells, a hundred steps or cells that are not reached are not met there.
        let far = [
            Fault::HundredMarked,
            Fault::RoomlessMarked,
            Fault::RoomlessFull,
            Fault::MarkHeldShort,
            Fault::RoomMarkedOne,
            Fault::MarkOfBook,
        ];
        for fault in of_marks().into_iter().filter(|fault| !far.contains(fault)) {
            assert_eq!(broken(Some(fault)), FEW, "{fault:?}");
        }
    });
}

fn ran(limit: u32, steps: u32, mark: u64, cells: u64) -> Ran {
    Ran { limit, steps, mark, cells }
}

#[test]
fn each_law_of_marks_can_fail() {
    let right = [ran(0, 0, 6, 6), ran(1, 1, 11, 11), ran(2, 2, 11, 10), ran(7, 7, 23, 20), ran(9, 8, 23, 19), ran(10, 8, 23, 19)];
    assert_eq!(hold(&right), Ok(()));
    let broken = |place: usize, mark: u64, words: &str| {
        let mut runs = right;
        runs[place].mark = mark;
        let said = hold(&runs).expect_err(words);
        assert!(said.contains(words), "{said}");
    };
    // Of the first and of the term reached, the greatest so far, and no more where each was left.
    broken(0, 5, "below 6, the size of a term so far");
    broken(0, 7, "above 6, the greatest size of any term so far");
    broken(1, 10, "below 11, the size of a term so far");
    broken(2, 10, "below 11, the size of a term so far");
    broken(2, 12, "above 11, the greatest size of any term so far");
    // Of terms that no run has left, at least those that one has; and never less than before.
    broken(3, 19, "below 20, the size of a term so far");
    broken(3, 4_096, "above 4095");
    broken(4, 22, "below the mark 23 under limit 7");
    broken(5, 24, "not the mark 23 under limit 9, after as many steps");
    assert_eq!(hold(&[ran(5, 5, 40, 9), ran(6, 6, 40, 30)]), Ok(()));
    assert!(hold(&[ran(1, 0, 41, 40), ran(10_000, 0, 41, 40)]).is_err());
}
