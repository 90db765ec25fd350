//! Document 02, (v): "For a closed value that is a merge: with its halves swapped, or three merged values regrouped, it is accepted exactly when
//! the original is. Once accepted, under every type both readings are possible together and equal."

use evaluator::{casts, check, encode_term, regrouped, reorderings, run, swapped, Answer, Term, Type, Version, WORK};
use std::collections::BTreeSet;

fn number(n: i32) -> Term {
    Term::number(n)
}

fn int() -> Type {
    Type::int()
}

fn field(label: u8, content: Term) -> Term {
    Term::record(label, content)
}

fn merge(one: Term, other: Term) -> Term {
    Term::merge(one, other)
}

fn both(one: Type, other: Type) -> Type {
    Type::intersection(one, other)
}

/// What a call says of a term's book, and the buffer after it.
fn asked(call: impl FnOnce(&[u8], &mut [u8]) -> Answer, term: &Term) -> (Answer, Vec<u8>) {
    let mut work = vec![7; WORK];
    let answer = call(&encode_term(term, Version::One), &mut work);
    (answer, work)
}

fn checked(term: &Term) -> Answer {
    asked(check, term).0
}

fn ran(term: &Term, limit: u32) -> (Answer, Vec<u8>) {
    asked(|book, work| run(book, work, limit), term)
}

/// A book with zeros behind it.
fn laid_down(term: &Term) -> Vec<u8> {
    let mut work = encode_term(term, Version::One);
    work.resize(WORK, 0);
    work
}

/// Annotated with this type, the value takes one step and comes to this.
fn reads(value: &Term, under: &Type, reading: &Term) {
    assert_eq!(casts(value, under), [reading.clone()], "{value}");
    let annotated = Term::annotation(value.clone(), under.clone());
    assert_eq!(checked(&annotated), Answer::Accepted { size: under.size() as usize }, "{annotated}");
    assert_eq!(ran(&annotated, 0), (Answer::Spent { steps: 0, mark: annotated.size() }, laid_down(&annotated)), "{annotated}");
    for limit in [1, 2, u32::MAX] {
        let mark = annotated.size().max(reading.size());
        assert_eq!(ran(&annotated, limit), (Answer::Value { steps: 1, mark }, laid_down(reading)), "{annotated}");
    }
}

#[test]
fn swapped_halves_have_the_same_readings() {
    let (one, two) = (number(1), field(1, number(2)));
    let values = [merge(one.clone(), two.clone()), merge(two.clone(), one.clone())];
    assert_eq!(swapped(&values[0]), Some(values[1].clone()));
    let of_field = Type::record(1, int());
    for value in &values {
        assert_eq!(checked(value), Answer::Accepted { size: 4 });
        reads(value, &both(int(), of_field.clone()), &values[0]);
        reads(value, &both(of_field.clone(), int()), &values[1]);
        reads(value, &int(), &one);
        reads(value, &of_field, &two);
        reads(value, &Type::top(), &Term::top());
        let neither = Term::annotation(value.clone(), Type::record(2, int()));
        assert_eq!(checked(&neither), Answer::Refused { number: 15, cell: 3 });
    }
}

#[test]
fn three_regrouped_have_the_same_readings() {
    let [one, two, three] = [number(1), field(1, number(2)), field(2, number(3))];
    let left = merge(merge(one.clone(), two.clone()), three.clone());
    let right = merge(one.clone(), merge(two.clone(), three.clone()));
    assert_eq!(regrouped(&left), [Some(right.clone()), None]);
    assert_eq!(regrouped(&right), [None, Some(left.clone())]);
    let [first, second] = [1, 2].map(|label| Type::record(label, int()));
    for value in [left, right] {
        assert_eq!(checked(&value), Answer::Accepted { size: 7 });
        reads(&value, &both(second.clone(), int()), &merge(three.clone(), one.clone()));
        let nested = both(first.clone(), both(second.clone(), first.clone()));
        reads(&value, &nested, &merge(two.clone(), merge(three.clone(), two.clone())));
    }
}

/// 1 and 2 meet in both groupings, in the outermost merge, which is cell 5.
#[test]
fn three_regrouped_are_refused_together() {
    let of = |n| [number(1), field(1, number(2)), number(n)];
    let groupings = |[a, b, c]: [Term; 3]| [merge(merge(a.clone(), b.clone()), c.clone()), merge(a, merge(b, c))];
    for value in groupings(of(2)) {
        assert_eq!(checked(&value), Answer::Refused { number: 14, cell: 5 });
    }
    for value in groupings(of(1)) {
        assert_eq!(checked(&value), Answer::Accepted { size: 6 });
    }
}

/// With no step taken, each lays down its own root: with limit 0, and where the reading has no room.
#[test]
fn without_a_step_the_roots_stay() {
    let values = [merge(number(1), field(3, number(2))), merge(field(3, number(2)), number(1))];
    for value in values {
        reads(&value, &Type::record(3, int()), &field(3, number(2)));
    }
    let long = (0..2_758).fold(Term::top(), |of, _| Term::projection(3, of));
    let function = Term::function(merge(number(1), long), int(), int());
    assert_eq!(function.size(), 2_764);
    let as_function = Type::function(int(), int());
    for value in [merge(function.clone(), field(3, number(1))), merge(field(3, number(1)), function)] {
        let annotated = Term::annotation(value, both(as_function.clone(), as_function.clone()));
        assert_eq!(ran(&annotated, 1), (Answer::Room { steps: 0, mark: annotated.size() }, laid_down(&annotated)));
    }
}

/// The values that any number of moves can give, shown.
fn reached(from: Term) -> BTreeSet<String> {
    let (mut known, mut waiting) = (BTreeSet::from([from.to_string()]), vec![from]);
    while let Some(value) = waiting.pop() {
        let new = reorderings(&value).into_iter().filter(|next| known.insert(next.to_string()));
        waiting.extend(new.collect::<Vec<_>>());
    }
    known
}

/// Three parts have six orders and two groupings, four have 24 and five.
#[test]
fn moves_reach_every_order_and_grouping() {
    let parts = |count: u8| (1..=count).map(|label| field(label, number(1)));
    for (count, orders) in [(1, 1), (2, 2), (3, 12), (4, 120)] {
        let merged = parts(count).reduce(merge).expect("a part");
        assert_eq!(reached(merged.clone()).len(), orders);
        let beside = merge(field(9, merged), number(1));
        assert_eq!(reached(beside).len(), 2 * orders, "{count} within a record");
    }
}

/// Neither in a function's body, nor in what is no value.
#[test]
fn only_values_are_reordered() {
    let two = || merge(number(1), field(1, number(2)));
    let function = Term::function(merge(two(), Term::top()), int(), int());
    let others =
        [function, Term::annotation(two(), int()), merge(two(), Term::annotation(two(), int())), Term::projection(1, two())];
    for term in others.into_iter().chain([number(1), Term::top(), Term::variable(0), field(1, number(1))]) {
        assert_eq!((swapped(&term), regrouped(&term), reorderings(&term)), (None, [None, None], vec![]), "{term}");
    }
}
