//! The families of reordered merges have enough of each, are answered as the documents say, and show every planted fault for which left and
//! right matter, by what one side says of the orders of a value; of the evaluator itself all of them hold.

use compare::engines::{Call, Engine, Evaluator};
use compare::families::families;
use compare::ordering::{any_order, holds, ordered};
use compare::orders::stated;
use compare::random::Random;
use evaluator::{
    check, decode, disjoint, infer, on_large_stack, reorderings, run, swapped, type_of_value, value_parts, Answer, Fault, Term,
    TermShape, Type, WORK,
};
use std::collections::BTreeSet;

const SEED: u64 = 1;
const WHOLE: &str = "every order";
const RANDOM: &str = "reordered merges";
/// As many as a self-test asks about.
const SEARCHED: usize = 500;
const FEW: usize = 3;

fn books(name: &str, count: usize) -> Vec<Vec<u8>> {
    let family = families().into_iter().find(|family| family.name == name).expect("the family");
    family.books(SEED, count).take(count).collect()
}

fn checked(book: &[u8]) -> Answer {
    check(book, &mut vec![0; WORK])
}

#[test]
fn the_stated_answers_are_given() {
    for sample in stated() {
        let mut work = vec![7; WORK];
        let reply = Evaluator(None).call(sample.call, &sample.book, &mut work);
        assert_eq!(reply, Ok(sample.answer), "{}", sample.name);
        assert!(sample.left().is_none_or(|left| work.starts_with(&left)), "{}", sample.name);
    }
}

/// What the books of a family are.
#[derive(Default, Debug)]
struct Shares {
    accepted: usize,
    /// By 14, and by 15.
    inconsistent: usize,
    not_below: usize,
    annotated: usize,
    room: usize,
    /// Accepted values whose halves are disjoint, and whose halves are no more than consistent.
    disjoint: usize,
    consistent: usize,
    /// Values of three parts, and of more than ten.
    three: usize,
    many: usize,
    /// Values that are asked about, and those with a merge within a record.
    asked: usize,
    within_records: usize,
}

fn has_merge_within(v: &Term) -> bool {
    let within = |part: &&Term| matches!(part.shape(), TermShape::Record(_, content) if value_parts(content).len() > 1);
    value_parts(v).iter().any(within)
}

impl Shares {
    fn enter(&mut self, book: &[u8]) {
        match checked(book) {
            Answer::Accepted { .. } => self.accepted += 1,
            Answer::Refused { number: 14, .. } => self.inconsistent += 1,
            Answer::Refused { number: 15, .. } => self.not_below += 1,
            _ => {}
        }
        let root = decode(book).expect("a term").0;
        let Some((value, by)) = ordered(&root) else { return };
        let count = value_parts(value).len();
        self.annotated += usize::from(by.is_some());
        self.room += usize::from(matches!(run(book, &mut vec![0; WORK], 1), Answer::Room { steps: 0, .. }));
        self.three += usize::from(count == 3);
        self.many += usize::from(count > 10);
        self.within_records += usize::from(has_merge_within(value));
        self.asked += holds(&Evaluator(None), book).expect("it holds");
        self.enter_halves(value);
    }

    fn enter_halves(&mut self, value: &Term) {
        if infer(&mut Vec::new(), value).is_err() {
            return;
        }
        let TermShape::Merge(left, right) = value.shape() else { return };
        match disjoint(&type_of_value(left), &type_of_value(right)) {
            true => self.disjoint += 1,
            false => self.consistent += 1,
        }
    }
}

fn shares(name: &str, count: usize) -> (Shares, usize) {
    on_large_stack(|| {
        let (mut shares, books) = (Shares::default(), books(name, count));
        books.iter().for_each(|book| shares.enter(book));
        println!("{name}, {} books: {shares:?}", books.len());
        (shares, books.len())
    })
}

#[test]
fn the_whole_family_has_enough_of_each() {
    let (shares, books) = shares(WHOLE, usize::MAX);
    let Shares { accepted, inconsistent, not_below, annotated, room, disjoint, consistent, three, asked, within_records, .. } =
        shares;
    assert!(accepted * 2 >= books && inconsistent * 10 >= books && not_below == 0 && annotated * 10 >= books && room == 2);
    assert!(disjoint * 5 >= books && consistent * 8 >= books && three * 2 >= books && within_records * 8 >= books);
    // All but those without room, which are large.
    assert_eq!(asked, books - room);
}

#[test]
fn the_random_family_has_enough_of_each() {
    let (shares, books) = shares(RANDOM, 2_000);
    let Shares { accepted, inconsistent, not_below, annotated, room, disjoint, consistent, many, asked, within_records, .. } =
        shares;
    assert!(accepted * 2 >= books && inconsistent * 20 >= books && not_below * 50 >= books && annotated * 3 >= books && room >= 10);
    assert!(disjoint * 10 >= books && consistent * 5 >= books && many * 5 >= books && within_records * 5 >= books);
    assert!(asked * 10 >= books * 9);
}

/// The faults for which left and right matter: those of orders, from the first to the last of them, and two older ones.
fn of_order() -> Vec<Fault> {
    let place = |fault: Fault| Fault::ALL.iter().position(|one| *one == fault).expect("a fault");
    let of_order = &Fault::ALL[place(Fault::AdjacentParts)..=place(Fault::RightHalfCounted)];
    [of_order, &[Fault::MergeByLeftHalf, Fault::DisjointByLeftHalf]].concat()
}

/// What is wrong in every order alike is no matter of order.
const ALIKE: [Fault; 4] = [Fault::HalfNamed, Fault::CovariantInputs, Fault::OutputsCompared, Fault::RoomOneEarly];

/// How many of these books do not hold, as this side answers, up to a few: a faulty side may take long for some.
fn broken(side: &dyn Engine, books: &[Vec<u8>]) -> usize {
    books.iter().filter(|book| holds(side, book).is_err()).take(FEW).count()
}

#[test]
fn orders_are_the_same_unless_a_fault_is_planted() {
    on_large_stack(|| {
        let books = [books(WHOLE, 3_000), books(RANDOM, 1_000)].concat();
        assert_eq!(broken(&Evaluator(None), &books), 0);
        for fault in of_order() {
            assert_eq!(broken(&Evaluator(Some(fault)), &books), FEW, "{fault:?}");
        }
        for fault in ALIKE {
            assert_eq!(broken(&Evaluator(Some(fault)), &books), 0, "{fault:?}");
        }
    });
}

/// The first books, those that a self-test asks about, are answered otherwise with each of them.
#[test]
fn every_fault_of_order_is_found() {
    on_large_stack(|| {
        let books = [books(WHOLE, SEARCHED), books(RANDOM, SEARCHED)].concat();
        let both = |side: Evaluator, book: &[u8]| {
            [Call::Check, Call::Run { limit: 0 }, Call::Run { limit: 1 }].map(|call| {
                let mut work = vec![0; WORK];
                (side.call(call, book, &mut work), work)
            })
        };
        let right: Vec<_> = books.iter().map(|book| both(Evaluator(None), book)).collect();
        for fault in of_order() {
            let differs = |(book, right): &(&Vec<u8>, &_)| both(Evaluator(Some(fault)), book) != **right;
            assert_eq!(books.iter().zip(&right).filter(differs).take(FEW).count(), FEW, "{fault:?}");
        }
    });
}

/// Any order has the same parts, and all of them are drawn.
#[test]
fn any_order_is_drawn() {
    let parts = [1, 2, 3].map(|label| Term::record(label, Term::number(1)));
    let value = parts.into_iter().reduce(Term::merge).expect("a part");
    let mut random = Random::of(SEED, "", 0);
    let drawn: BTreeSet<String> = (0..300).map(|_| any_order(&value, &mut random).to_string()).collect();
    assert_eq!(drawn.len(), 12);
    let nested = Term::record(7, Term::merge(value, Term::number(1)));
    assert!(reorderings(&nested).iter().all(|order| order.size() == nested.size()));
}

/// Nothing is asked of other roots: no value, not closed, nothing to reorder.
#[test]
fn only_closed_values_are_asked_about() {
    let two = || Term::merge(Term::number(1), Term::record(1, Term::number(2)));
    let int = Type::int;
    let by = |term: Term| Term::annotation(term, int());
    assert!(swapped(&two()).is_some() && ordered(&two()).is_some() && ordered(&by(two())).is_some());
    let open = Term::merge(two(), Term::function(Term::variable(1), int(), int()));
    let function = Term::function(two(), int(), int());
    for term in [by(by(two())), open, function, Term::number(1), Term::record(1, Term::number(1)), Term::merge(two(), by(two()))] {
        assert!(ordered(&term).is_none(), "{term}");
    }
}
