//! Merges of closed values in every order and grouping, for document 02, (v): "Head office asks in which order to list parts."

use crate::engines::Call;
use crate::extremes::{int, number, top};
use crate::families::one_book;
use crate::maker::{Maker, Weights, EVEN, LABELS};
use crate::ordering::{any_order, grouped, types};
use crate::random::Random;
use crate::reads::{shuffled, top_like_value};
use crate::refusals::by_turns;
use crate::samples::{identity, Sample};
use evaluator::{casts, encode_term, kind, type_of_value, Answer, Term, Type, Version, SIZE_LIMIT};

fn field(label: u8, content: Term) -> Term {
    Term::record(label, content)
}

fn field_type(label: u8) -> Type {
    Type::record(label, int())
}

fn merge(one: &Term, other: &Term) -> Term {
    Term::merge(one.clone(), other.clone())
}

/// Closed values that are equal, consistent, disjoint, or none of these: numbers, the top value, fields, functions, and a merge by itself and in a
/// field. Of the functions, two have the identity's input, one its body, two a body of their own with two outputs, of which one is an
/// intersection.
fn values() -> Vec<Term> {
    let fields = || merge(&field(1, number(1)), &field(2, number(1)));
    let nested = merge(&number(1), &field(2, number(1)));
    vec![
        number(1),
        number(2),
        Term::top(),
        field(1, number(1)),
        field(1, number(2)),
        field(2, number(1)),
        field(1, Term::top()),
        identity(),
        Term::function(number(1), int(), int()),
        Term::function(number(1), top(), int()),
        Term::function(Term::variable(0), int(), top()),
        Term::function(fields(), int(), Type::intersection(field_type(1), field_type(2))),
        Term::function(fields(), int(), field_type(1)),
        field(1, nested.clone()),
        nested,
    ]
}

/// Every two of these merged, and annotated with the type of the merge and with that of the swapped one.
fn twos(values: &[Term]) -> [Vec<Term>; 2] {
    let pairs = || values.iter().flat_map(|one| values.iter().map(move |other| [one, other]));
    let annotated = |[one, other]: [&Term; 2]| {
        [[one, other], [other, one]].map(|[a, b]| Term::annotation(merge(one, other), type_of_value(&merge(a, b))))
    };
    [pairs().map(|[one, other]| merge(one, other)).collect(), pairs().flat_map(annotated).collect()]
}

/// Every three merged, to the left and to the right; and some of these annotated with the types of the last and the first.
fn threes(values: &[Term]) -> [Vec<Term>; 3] {
    let pairs = || values.iter().flat_map(|one| values.iter().map(move |other| [one, other]));
    let all: Vec<[&Term; 3]> = pairs().flat_map(|[one, other]| values.iter().map(move |last| [one, other, last])).collect();
    let left = |&[a, b, c]: &[&Term; 3]| merge(&merge(a, b), c);
    let right = |&[a, b, c]: &[&Term; 3]| merge(a, &merge(b, c));
    let annotated = all.iter().step_by(7).flat_map(|parts| {
        let by = Type::intersection(type_of_value(parts[2]), type_of_value(parts[0]));
        [left(parts), right(parts)].map(|merge| Term::annotation(merge, by.clone()))
    });
    [all.iter().map(left).collect(), all.iter().map(right).collect(), annotated.collect()]
}

/// Every merge of two and of three, in both groupings, some annotated; and what is stated.
pub fn every_order() -> Vec<Vec<u8>> {
    let mut random = Random::of(0, "", 0);
    let values = values();
    let [pairs, annotated] = twos(&values);
    let [left, right, more] = threes(&values);
    let [left, right, annotated] = [left, right, [annotated, more].concat()].map(|terms| shuffled(terms, &mut random));
    let terms = pairs.into_iter().chain(by_turns(&[left, right, annotated]));
    let books = terms.map(|term| encode_term(&term, Version::One));
    stated().into_iter().map(|sample| sample.book).chain(books).collect()
}

/// Values above this size are no parts of merges made at random; nor are there more parts once they have so many cells, but seldom.
const PART: u64 = 40;
const PARTS: u64 = 90;

/// Closed values that are typed and consistent: a number, a function, and a field for each label, merges and functions in them.
fn stock(random: &mut Random) -> Vec<Term> {
    let mut maker =
        Maker::new(random, Weights { merge: 4, ..EVEN }.of_type(kind::INTERSECTION, 5).of_type(kind::RECORD_TYPE, 5), 6);
    let [input, output] = [1, 2].map(|depth| maker.a_type(depth));
    let mut stock = vec![maker.number(), maker.closed_value(&Type::function(input, output))];
    for label in LABELS {
        let content = maker.a_type(2);
        let value = if maker.random.once_in(4) { maker.duplicate(&content) } else { maker.closed_value(&content) };
        stock.push(field(label, value));
    }
    stock.retain(|value| value.size() <= PART && value.is_value() && maker.inferred(value).is_some());
    stock
}

/// A value itself, or its reading under a type above its own: the two are consistent.
fn again(value: &Term, random: &mut Random) -> Term {
    if random.once_in(2) {
        return value.clone();
    }
    let above = Maker::new(random, EVEN, 2).supertype(&type_of_value(value));
    casts(value, &above).pop().unwrap_or_else(|| value.clone())
}

/// Up to thirty parts, several of one value; at times one that may not be consistent with them.
pub fn some_parts(random: &mut Random) -> Vec<Term> {
    let values = stock(random);
    let count = random.between(1, 30);
    let most = if random.once_in(8) { PARTS * 8 } else { PARTS };
    let mut parts = vec![random.pick(&values).clone()];
    while parts.len() < count && parts.iter().map(Term::size).sum::<u64>() < most {
        let value = random.pick(&values).clone();
        parts.push(if random.once_in(6) { top_like_value(random) } else { again(&value, random) });
    }
    let other = if random.once_in(2) { stock(random) } else { values };
    parts.push(random.pick(&other).clone());
    parts
}

/// A long function and more, and a type under which their reading has about as many cells as there is room for. It has the function many times
/// over, then a field, which takes three cells with its merge, or none, and top values, which take two.
fn long_readings(random: &mut Random) -> (Vec<Term>, Type) {
    let size = SIZE_LIMIT + random.between(0, 4) as u64 - 2;
    let rest = |length: u64| (size + 1) % (length + 1);
    let lengths: Vec<u64> = (90..=120).filter(|&length| (2..=12).contains(&rest(length))).collect();
    let length = *random.pick(&lengths);
    let (times, fields) = ((size + 1) / (length + 1), rest(length) % 2);
    let tops = (rest(length) - 3 * fields) / 2;
    let counted = [(Type::function(int(), int()), times), (field_type(3), fields), (top(), tops)];
    let types = counted.into_iter().flat_map(|(of, count)| vec![of; count as usize]);
    let parts = vec![long_function(length), field(3, number(1)), number(4)];
    (parts, types.reduce(Type::intersection).expect("a type"))
}

/// A merge of closed values and a reordering of it, plain and annotated with one type.
pub fn reordered_merges(random: &mut Random) -> Vec<Vec<u8>> {
    let (parts, by) = match random.lower(10) {
        0 => {
            let (parts, by) = long_readings(random);
            (parts, Some(by))
        }
        _ => (some_parts(random), None),
    };
    let value = grouped(shuffled(parts, random), random);
    let other = any_order(&value, random);
    let some = types([&value, &other], random);
    let by = by.unwrap_or_else(|| random.pick(&some).clone());
    let annotated = [&value, &other].map(|value| Term::annotation(value.clone(), by.clone()));
    [value, other].iter().chain(&annotated).flat_map(|term| one_book(term, random)).collect()
}

/// A function of so many cells from Int to Int: fields read of the top value, beside a number.
fn long_function(cells: u64) -> Term {
    let long = (6..cells).fold(Term::top(), |of, _| Term::projection(3, of));
    Term::function(Term::merge(number(1), long), int(), int())
}

/// Books of which the documents' words give the answer: merges that are swapped or regrouped, and what they leave.
pub fn stated() -> Vec<Sample> {
    let [one, two, three] = [number(1), field(1, number(2)), field(2, number(3))];
    let mut list: Vec<Sample> = Vec::new();
    let mut check = |name, value: Term, answer| {
        list.push(Sample { name, book: encode_term(&value, Version::One), call: Call::Check, answer, value: None });
    };
    let [swapped, back] = [merge(&one, &two), merge(&two, &one)];
    check("a number and a field", swapped.clone(), Answer::Accepted { size: 4 });
    check("a field and a number", back.clone(), Answer::Accepted { size: 4 });
    let groupings = |c: &Term| [merge(&swapped, c), merge(&one, &merge(&two, c))];
    for value in groupings(&three) {
        check("three parts regrouped", value, Answer::Accepted { size: 7 });
    }
    for value in groupings(&number(2)) {
        check("three parts of which two are unequal", value, Answer::Refused { number: 14, cell: 5 });
    }
    list.extend([&swapped, &back].into_iter().flat_map(|value| readings(value, [&swapped, &back])));
    list.extend(groupings(&three).iter().flat_map(|value| readings(value, [&swapped, &back])));
    list.extend(without_a_step());
    list
}

/// A value read under the types of a number and a field, in both orders. A reading without functions has fewer cells than the annotation.
fn readings(value: &Term, expected: [&Term; 2]) -> Vec<Sample> {
    let by = |reading: &Term| Term::annotation(value.clone(), type_of_value(reading));
    let run = |reading: &Term| {
        let root = by(reading);
        let (call, answer) = (Call::Run { limit: 1 }, Answer::Value { steps: 1, mark: root.size() });
        let book = encode_term(&root, Version::One);
        Sample { name: "the order of the type", book, call, answer, value: Some(reading.clone()) }
    };
    expected.map(run).into()
}

/// Each order stays as it is where no step is taken: with limit 0, and where there is no room for the reading.
fn without_a_step() -> Vec<Sample> {
    let as_function = Type::function(int(), int());
    let cases = [
        (field(3, number(2)), number(1), field_type(3), 0, Answer::Spent { steps: 0, mark: 7 }),
        (
            field(3, number(1)),
            long_function(2_764),
            Type::intersection(as_function.clone(), as_function),
            1,
            Answer::Room { steps: 0, mark: 2_775 },
        ),
    ];
    let both = cases.into_iter().flat_map(|(one, other, by, limit, answer)| {
        [merge(&one, &other), merge(&other, &one)].map(|value| {
            let root = Term::annotation(value, by.clone());
            let book = encode_term(&root, Version::One);
            Sample { name: "no step taken", book, call: Call::Run { limit }, answer, value: Some(root) }
        })
    });
    both.collect()
}
