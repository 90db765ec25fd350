//! Sums and choices, which document 02 adds: "the sum is held to the ends of the 32-bit range"; "the choice becomes b for zero and c for
//! anything else".

mod sizes;

use evaluator::{check, decode, infer, on_large_stack, run, Answer, Cell, Term, Type, Version, WORK};
use sizes::greatest;
use std::iter;

/// The version 1 book of a term.
fn encode_term(term: &Term) -> Vec<u8> {
    evaluator::encode_term(term, Version::One)
}

/// The version 1 book of a type.
fn encode_type(t: &Type) -> Vec<u8> {
    evaluator::encode_type(t, Version::One)
}

/// Sums held to the range of version 1.
fn successors(term: &Term) -> Vec<Term> {
    evaluator::successors(term, Version::One)
}

fn number(n: i32) -> Term {
    Term::number(n)
}

fn int() -> Type {
    Type::int()
}

fn top() -> Type {
    Type::top()
}

fn variable(skipped: u16) -> Term {
    Term::variable(skipped)
}

fn sum(left: Term, right: Term) -> Term {
    Term::sum(left, right)
}

fn choice(test: Term, for_zero: Term, otherwise: Term) -> Term {
    Term::choice(test, for_zero, otherwise)
}

/// The term annotated Int.
fn as_int(term: Term) -> Term {
    Term::annotation(term, int())
}

/// A function from Int to Int.
fn function(body: Term) -> Term {
    Term::function(body, int(), int())
}

/// A number with a field beside it.
fn with_field(n: i32) -> Term {
    Term::merge(number(n), Term::record(7, number(5)))
}

/// What a call answers, and that it leaves this book with zeros behind it.
fn leaves(call: impl FnOnce(&mut [u8]) -> Answer, left: &[u8]) -> Answer {
    let mut work = vec![7; WORK];
    let answer = call(&mut work);
    assert_eq!(&work[..left.len()], left);
    assert!(work[left.len()..].iter().all(|&byte| byte == 0));
    answer
}

/// The book is accepted with type Int and comes to this number after so many steps.
fn comes_to(term: &Term, value: i32, steps: u32) {
    let book = encode_term(term);
    assert_eq!(leaves(|work| check(&book, work), &encode_type(&int())), Answer::Accepted { size: 1 }, "{term}");
    let mark = |steps: u32| greatest(term, Version::One, steps);
    let came = Answer::Value { steps, mark: mark(steps) };
    for limit in [steps, steps + 1, u32::MAX] {
        assert_eq!(leaves(|work| run(&book, work, limit), &encode_term(&number(value))), came, "{term}");
    }
    if let Some(steps) = steps.checked_sub(1) {
        assert_eq!(run(&book, &mut vec![0; WORK], steps), Answer::Spent { steps, mark: mark(steps) }, "{term}");
    }
}

fn refused(term: &Term, number: u8, cell: usize) {
    let book = encode_term(term);
    assert_eq!(leaves(|work| check(&book, work), &[]), Answer::Refused { number, cell }, "{term}");
    assert_eq!(leaves(|work| run(&book, work, 9), &[]), Answer::Refused { number, cell }, "{term}");
}

/// The run goes through these terms, one a step, to the last, and with every limit leaves the one that it names.
fn goes_through(terms: &[Term]) {
    let followed: Vec<Term> = iter::successors(Some(terms[0].clone()), |term| successors(term).pop()).collect();
    assert_eq!(followed, terms);
    let book = encode_term(&terms[0]);
    for (steps, term) in terms.iter().enumerate() {
        let mark = terms[..=steps].iter().map(Term::size).fold(0, u64::max);
        let steps = steps as u32;
        let answer = if term.is_value() { Answer::Value { steps, mark } } else { Answer::Spent { steps, mark } };
        assert_eq!(leaves(|work| run(&book, work, steps), &encode_term(term)), answer);
    }
}

const LEAST: i32 = i32::MIN;
const MOST: i32 = i32::MAX;

#[test]
fn a_sum_is_one_step() {
    comes_to(&sum(number(2), number(3)), 5, 1);
    comes_to(&sum(number(2), number(-3)), -1, 1);
    comes_to(&sum(number(0), number(0)), 0, 1);
    comes_to(&sum(number(65_535), number(1)), 65_536, 1);
    comes_to(&sum(number(-1), number(1)), 0, 1);
    comes_to(&sum(number(-65_536), number(65_535)), -1, 1);
}

/// "Held to the ends of the 32-bit range."
#[test]
fn a_sum_is_held_to_both_ends() {
    for (one, other, held) in [
        (MOST, 0, MOST),
        (MOST, 1, MOST),
        (MOST, 2, MOST),
        (MOST, -1, MOST - 1),
        (MOST - 1, 1, MOST),
        (MOST - 1, 2, MOST),
        (MOST - 2, 1, MOST - 1),
        (MOST, MOST, MOST),
        (1 << 30, 1 << 30, MOST),
        (1 << 30, (1 << 30) - 1, MOST),
        (1 << 30, (1 << 30) - 2, MOST - 1),
        (LEAST, 0, LEAST),
        (LEAST, -1, LEAST),
        (LEAST, -2, LEAST),
        (LEAST, 1, LEAST + 1),
        (LEAST + 1, -1, LEAST),
        (LEAST + 1, -2, LEAST),
        (LEAST + 2, -1, LEAST + 1),
        (LEAST, LEAST, LEAST),
        (-(1 << 30), -(1 << 30), LEAST),
        (-(1 << 30), -(1 << 30) - 1, LEAST),
        (-(1 << 30), -(1 << 30) + 1, LEAST + 1),
        (LEAST, MOST, -1),
    ] {
        comes_to(&sum(number(one), number(other)), held, 1);
        comes_to(&sum(number(other), number(one)), held, 1);
    }
    // Held at each sum, not at the last.
    comes_to(&sum(sum(number(MOST), number(1)), number(-1)), MOST - 1, 2);
    comes_to(&sum(number(MOST), sum(number(1), number(-1))), MOST, 2);
    comes_to(&sum(sum(number(LEAST), number(-1)), number(1)), LEAST + 1, 2);
}

/// "Sides of a sum run left first."
#[test]
fn the_left_of_a_sum_runs_first() {
    let [one, two] = [1, 2].map(number);
    goes_through(&[
        sum(as_int(as_int(one.clone())), as_int(two.clone())),
        sum(as_int(one.clone()), as_int(two.clone())),
        sum(one.clone(), as_int(two.clone())),
        sum(one, two),
        number(3),
    ]);
}

/// A sum of sums, to the left, to the right and both.
#[test]
fn sums_of_sums() {
    let ones = |n: usize| vec![number(1); n];
    comes_to(&ones(5).into_iter().reduce(sum).expect("a part"), 5, 4);
    comes_to(&ones(5).into_iter().reduce(|right, left| sum(left, right)).expect("a part"), 5, 4);
    goes_through(&[
        sum(sum(number(1), number(2)), sum(number(3), number(4))),
        sum(number(3), sum(number(3), number(4))),
        sum(number(3), number(7)),
        number(10),
    ]);
}

/// "Both are read under Int": what is below Int will do, and reading is no step of its own.
#[test]
fn merges_are_read_under_int() {
    comes_to(&sum(with_field(1), number(2)), 3, 1);
    comes_to(&sum(number(2), with_field(1)), 3, 1);
    comes_to(&sum(with_field(1), with_field(-1)), 0, 1);
    let last = Term::merge(Term::merge(Term::top(), Term::record(7, number(5))), number(4));
    comes_to(&sum(last.clone(), number(2)), 6, 1);
    comes_to(&choice(last, number(1), number(2)), 2, 2);
    // Both halves can be read, and are the same.
    comes_to(&sum(Term::merge(number(4), number(4)), number(2)), 6, 1);
    comes_to(&choice(with_field(0), number(1), number(2)), 1, 2);
    comes_to(&choice(with_field(3), number(1), number(2)), 2, 2);
    // So are the branches, by their annotation.
    comes_to(&choice(number(0), with_field(8), number(2)), 8, 2);
    comes_to(&choice(number(1), number(2), with_field(9)), 9, 2);
}

/// "b for zero and c for anything else."
#[test]
fn zero_alone_chooses_b() {
    let [b, c] = [10, 20].map(number);
    comes_to(&choice(number(0), b.clone(), c.clone()), 10, 2);
    for anything in [1, -1, 2, -2, 255, 256, -256, 32_767, 32_768, -32_768, 65_535, MOST, MOST - 1, LEAST, LEAST + 1] {
        comes_to(&choice(number(anything), b.clone(), c.clone()), 20, 2);
    }
    // Those with a zero in one of the two fields that hold a number, b and c.
    for half in [65_536, -65_536, 131_072, -131_072, 1 << 30, 256 << 16, 0x7FFF_0000, 65_535, 1, 32_768, 256] {
        assert!(Cell::number(half, Version::One).fields[1..].contains(&0));
        comes_to(&choice(number(half), b.clone(), c.clone()), 20, 2);
    }
    comes_to(&choice(sum(number(65_536), number(-65_536)), b.clone(), c.clone()), 10, 3);
    comes_to(&choice(sum(number(MOST), number(LEAST)), b, c), 20, 3);
}

/// "Of a choice only a runs, while b and c wait"; what it becomes is annotated Int, and that is a step of its own.
#[test]
fn a_choice_step_by_step() {
    let waiting = || as_int(as_int(number(5)));
    let adding = || sum(number(3), number(4));
    goes_through(&[
        choice(sum(number(1), as_int(number(-1))), waiting(), adding()),
        choice(sum(number(1), number(-1)), waiting(), adding()),
        choice(number(0), waiting(), adding()),
        as_int(waiting()),
        as_int(as_int(number(5))),
        as_int(number(5)),
        number(5),
    ]);
    goes_through(&[choice(number(-1), waiting(), adding()), as_int(adding()), as_int(number(7)), number(7)]);
}

/// What is not chosen is never run: it has no end.
#[test]
fn the_other_branch_is_not_run() {
    let endless = || Term::fixpoint(variable(0), int());
    comes_to(&choice(number(0), number(1), endless()), 1, 2);
    comes_to(&choice(number(7), endless(), number(2)), 2, 2);
    let book = encode_term(&choice(endless(), number(1), number(2)));
    // The size is 2 steps + 3, and 2 numbers and the choice besides.
    assert_eq!(run(&book, &mut vec![0; WORK], u32::MAX), Answer::Room { steps: 2_044, mark: 4_094 });
}

/// A branch counts until it goes: the fixpoint that is tested has less room beside it.
#[test]
fn branches_that_wait_count() {
    on_large_stack(|| {
        let test = Term::fixpoint(variable(0), int());
        let large = (0..500).fold(number(1), |e, _| as_int(e));
        let book = encode_term(&choice(test, large.clone(), large));
        let steps = (4_095 - 1 - 2 * 1_001 - 3) / 2;
        assert_eq!(
            run(&book, &mut vec![0; WORK], u32::MAX),
            Answer::Room { steps, mark: 1 + 2 * 1_001 + 3 + 2 * u64::from(steps) }
        );
    });
}

#[test]
fn choices_in_choices() {
    let zero = || choice(number(0), number(0), number(1));
    let one = || choice(number(3), number(0), number(1));
    comes_to(&choice(zero(), number(5), number(6)), 5, 4);
    comes_to(&choice(one(), number(5), number(6)), 6, 4);
    comes_to(&choice(number(0), one(), zero()), 1, 4);
    comes_to(&choice(number(4), one(), zero()), 0, 4);
    comes_to(&sum(one(), one()), 2, 5);
}

/// 15 names the part that is not below Int.
#[test]
fn each_part_is_checked_against_int() {
    refused(&sum(Term::top(), number(1)), 15, 0);
    refused(&sum(number(1), Term::top()), 15, 1);
    refused(&sum(number(1), Term::record(1, number(2))), 15, 2);
    refused(&sum(function(variable(0)), number(1)), 15, 3);
    refused(&choice(Term::top(), number(1), number(2)), 15, 0);
    refused(&choice(number(0), Term::top(), number(2)), 15, 1);
    refused(&choice(number(0), number(1), Term::top()), 15, 2);
    refused(&choice(number(0), number(1), Term::record(1, number(2))), 15, 3);
    refused(&choice(number(0), Term::annotation(number(1), top()), number(2)), 15, 3);
    // Also in the branch that is not chosen, and in a body.
    refused(&choice(number(1), Term::top(), number(2)), 15, 1);
    refused(&Term::annotation(choice(number(1), number(1), Term::top()), top()), 15, 2);
    refused(&Term::function(sum(variable(0), number(1)), top(), int()), 15, 0);
}

/// The result is Int and nothing more, whatever the parts are.
#[test]
fn the_result_is_int() {
    refused(&Term::projection(7, sum(with_field(1), with_field(2))), 13, 9);
    refused(&Term::projection(7, choice(number(0), with_field(1), with_field(2))), 13, 10);
    refused(&Term::application(choice(number(0), number(1), number(2)), number(3)), 12, 5);
    refused(&Term::merge(sum(number(1), number(2)), number(3)), 14, 4);
    // A sum is no value: equal ones are not disjoint either.
    refused(&Term::merge(sum(number(1), number(2)), sum(number(1), number(2))), 14, 6);
    refused(&Term::merge(choice(number(0), number(1), number(1)), number(1)), 14, 5);
    let beside = Term::merge(sum(number(1), number(2)), Term::record(7, number(5)));
    comes_to(&as_int(beside), 3, 2);
}

/// "Typing checks each part before it walks the next."
#[test]
fn the_first_part_that_fails_decides() {
    let [ill_typed, unbound] = [Term::application(number(4), number(5)), variable(0)];
    refused(&sum(Term::top(), unbound.clone()), 15, 0);
    refused(&sum(unbound.clone(), Term::top()), 11, 0);
    refused(&sum(ill_typed.clone(), unbound.clone()), 12, 2);
    refused(&sum(number(1), unbound.clone()), 11, 1);
    refused(&choice(Term::top(), unbound.clone(), ill_typed.clone()), 15, 0);
    refused(&choice(unbound.clone(), Term::top(), ill_typed.clone()), 11, 0);
    refused(&choice(number(0), Term::top(), unbound.clone()), 15, 1);
    refused(&choice(number(0), unbound.clone(), Term::top()), 11, 1);
    refused(&choice(number(0), number(1), unbound.clone()), 11, 2);
    refused(&choice(number(0), number(1), ill_typed.clone()), 12, 4);
    refused(&choice(number(0), ill_typed, unbound), 12, 3);
    // All three are not below Int.
    refused(&choice(Term::top(), Term::top(), Term::top()), 15, 0);
    refused(&choice(number(1), Term::top(), Term::top()), 15, 1);
    // Parts within parts, in order.
    refused(&sum(sum(number(1), Term::top()), Term::top()), 15, 1);
    refused(&choice(number(0), sum(number(1), Term::top()), Term::top()), 15, 2);
    refused(&choice(number(0), number(1), choice(number(2), number(3), Term::top())), 15, 4);
}

/// A refusal of each number in each part of a choice names the cell within it.
#[test]
fn refusals_within_each_part() {
    let findings = [
        (variable(3), 11, 0),
        (Term::application(number(1), number(2)), 12, 2),
        (Term::projection(1, number(1)), 13, 1),
        (Term::merge(number(1), number(2)), 14, 2),
        (as_int(Term::top()), 15, 0),
        (Term::record(1, number(2)), 15, 1),
    ];
    for (part, found, cell) in findings {
        let [before, between] = [with_field(0), with_field(1)];
        refused(&choice(part.clone(), number(1), Term::top()), found, cell);
        refused(&choice(before.clone(), part.clone(), Term::top()), found, 4 + cell);
        refused(&choice(before.clone(), between, part.clone()), found, 8 + cell);
        refused(&sum(part.clone(), Term::top()), found, cell);
        refused(&sum(before, part), found, 4 + cell);
    }
}

#[test]
fn cells_of_both_kinds() {
    let checked = |cell: [u16; 5]| {
        let cells = [
            Cell::new(1, 0, [0; 3]),
            Cell::number(1, Version::One),
            Cell::new(cell[0] as u8, cell[1] as u8, [cell[2], cell[3], cell[4]]),
        ];
        let book: Vec<u8> = cells.into_iter().chain([Cell::trailer(3, 2, Version::One)]).flat_map(Cell::bytes).collect();
        check(&book, &mut vec![0; WORK])
    };
    let refused = |number| Answer::Refused { number, cell: 2 };
    for good in [[26, 0, 1, 1, 0], [27, 0, 1, 1, 1]] {
        assert_eq!(checked(good), Answer::Accepted { size: 1 });
    }
    for unnamed in
        [[26, 1, 1, 1, 0], [26, 0, 1, 1, 1], [26, 0, 1, 1, 0x8000], [27, 1, 1, 1, 1], [27, 255, 1, 1, 2], [26, 0, 2, 0, 1]]
    {
        assert_eq!(checked(unnamed), refused(6), "{unnamed:?}");
    }
    for not_lower in [[26, 0, 2, 1, 0], [26, 0, 1, 2, 0], [27, 0, 2, 1, 1], [27, 0, 1, 3, 1], [27, 0, 1, 1, 2], [27, 0, 0, 1, 2]] {
        assert_eq!(checked(not_lower), refused(7), "{not_lower:?}");
    }
    for a_type in [[26, 0, 0, 1, 0], [26, 0, 1, 0, 0], [27, 0, 0, 1, 1], [27, 0, 1, 0, 1], [27, 0, 1, 1, 0]] {
        assert_eq!(checked(a_type), refused(8), "{a_type:?}");
    }
    assert_eq!(checked([28, 0, 1, 1, 1]), refused(5));
}

/// Equal bodies are consistent, compared in every part; functions with outputs Int are not disjoint.
#[test]
fn bodies_are_compared_in_every_part() {
    let of = |a: i32, b: i32, c: i32| function(choice(sum(variable(0), number(a)), number(b), number(c)));
    let accepted = |other: Term| check(&encode_term(&Term::merge(of(1, 2, 3), other)), &mut vec![0; WORK]);
    assert_eq!(accepted(of(1, 2, 3)), Answer::Accepted { size: 7 });
    let refused = |other: &Term| Answer::Refused { number: 14, cell: 2 * other.size() as usize };
    for other in [of(9, 2, 3), of(1, 9, 3), of(1, 2, 9)] {
        assert_eq!(accepted(other.clone()), refused(&other), "{other}");
    }
    let swapped = function(choice(sum(number(1), variable(0)), number(2), number(3)));
    assert_eq!(accepted(swapped.clone()), refused(&swapped));
    // A function of the same input with another body.
    let both = Term::merge(function(sum(variable(0), number(1))), function(sum(variable(0), number(1))));
    comes_to(&Term::application(Term::annotation(both, Type::function(int(), int())), number(4)), 5, 4);
}

/// Closed when all parts are, the third of a choice too.
#[test]
fn closed_in_every_part() {
    let twice = |body: Term| function(as_int(Term::projection(1, Term::merge(Term::record(1, number(1)), merged(function(body))))));
    fn merged(function: Term) -> Term {
        Term::merge(function.clone(), function)
    }
    let parts: [fn(Term) -> Term; 5] = [
        |e| sum(e, number(1)),
        |e| sum(number(1), e),
        |e| choice(e, number(1), number(2)),
        |e| choice(number(1), e, number(2)),
        |e| choice(number(1), number(2), e),
    ];
    for part in parts {
        let [own, outer] = [0, 1].map(|skipped| twice(part(variable(skipped))));
        assert!(matches!(check(&encode_term(&own), &mut vec![0; WORK]), Answer::Accepted { .. }), "{own}");
        assert!(matches!(check(&encode_term(&outer), &mut vec![0; WORK]), Answer::Refused { number: 14, .. }), "{outer}");
    }
}

/// An argument goes into every part, under a binder too.
#[test]
fn arguments_go_into_every_part() {
    let applied = |body: Term, n: i32| Term::application(function(body), number(n));
    comes_to(&applied(sum(variable(0), variable(0)), 4), 8, 3);
    goes_through(&[
        applied(choice(variable(0), sum(variable(0), number(1)), sum(variable(0), number(2))), 5),
        as_int(choice(number(5), sum(number(5), number(1)), sum(number(5), number(2)))),
        as_int(as_int(sum(number(5), number(2)))),
        as_int(as_int(number(7))),
        as_int(number(7)),
        number(7),
    ]);
    let inner = |part: Term| Term::application(function(choice(variable(0), part, variable(1))), number(0));
    comes_to(&applied(inner(sum(variable(1), variable(0))), 6), 6, 7);
}

/// The triangular number: n + (n - 1) + ... + 1, by fixpoint, sum and choice.
fn triangular(n: i32) -> Term {
    let less = sum(variable(0), number(-1));
    let body = choice(variable(0), number(0), sum(variable(0), Term::application(variable(1), less)));
    Term::application(Term::fixpoint(function(body), Type::function(int(), int())), number(n))
}

/// A turn unfolds, reads the function, subtracts, applies and chooses; on the way back it adds and reads twice.
#[test]
fn a_fixpoint_that_counts() {
    comes_to(&triangular(0), 0, 6);
    for (n, value) in [(1, 1), (2, 3), (3, 6), (4, 10), (10, 55), (100, 5_050)] {
        comes_to(&triangular(n), value, 6 + 8 * n as u32);
    }
}

/// A loop that counts down grows by two annotations each turn, and reads them when it ends.
#[test]
fn loops_of_thousands_of_steps() {
    on_large_stack(|| {
        let call = Term::application(variable(1), sum(variable(0), number(-1)));
        let counting = |n: i32| {
            let body = choice(variable(0), number(7), call.clone());
            Term::application(Term::fixpoint(function(body), Type::function(int(), int())), number(n))
        };
        comes_to(&counting(1_000), 7, 6 + 7 * 1_000);
        let book = encode_term(&counting(-1));
        assert!(matches!(run(&book, &mut vec![0; WORK], u32::MAX), Answer::Room { steps: 5_000..6_000, mark: 4_000..=4_095 }));
    });
}

/// With both halves of a merge open: an untyped one may be read as several numbers.
#[test]
fn untyped_parts_have_a_successor_for_each_number() {
    let both = || Term::merge(number(1), number(2));
    assert!(infer(&mut Vec::new(), &sum(both(), both())).is_err());
    assert_eq!(successors(&sum(both(), both())), [2, 3, 4].map(number));
    let either = Term::merge(number(0), number(2));
    assert_eq!(successors(&choice(either.clone(), number(8), number(9))), [8, 9].map(|n| as_int(number(n))));
    assert_eq!(successors(&choice(either, number(8), number(8))), vec![as_int(number(8))]);
    assert!(successors(&sum(Term::top(), number(1))).is_empty());
    assert!(successors(&choice(Term::top(), number(1), number(2))).is_empty());
}

/// As deep as a book can be: to the left, to the right, and in each part of a choice.
#[test]
fn the_deepest_sums_and_choices() {
    on_large_stack(|| {
        let deep = |n: usize, wrap: fn(Term) -> Term| (0..n).fold(number(0), |e, _| wrap(e));
        for sums in [deep(2_047, |e| sum(e, number(1))), deep(2_047, |e| sum(number(1), e))] {
            assert_eq!(sums.size(), 4_095);
            comes_to(&sums, 2_047, 2_047);
        }
        for (choices, steps) in [
            (deep(1_364, |e| choice(e, number(0), number(1))), 2 * 1_364),
            (deep(1_364, |e| choice(number(0), e, number(1))), 2 * 1_364),
            (deep(1_364, |e| choice(number(1), number(1), e)), 2 * 1_364),
        ] {
            assert_eq!(choices.size(), 4_093);
            comes_to(&choices, 0, steps);
        }
        let over = encode_term(&deep(2_048, |e| sum(e, number(1))));
        assert!(decode(&over).is_err());
    });
}

/// A sum of a cell with itself, again and again, is held at the end.
#[test]
fn sums_doubled_by_sharing() {
    let doubled = |first: Cell, times: u16| -> Vec<u8> {
        let sums = (0..times).map(|n| Cell::new(26, 0, [n, n, 0]));
        [first].into_iter().chain(sums).chain([Cell::trailer(times + 1, times, Version::One)]).flat_map(Cell::bytes).collect()
    };
    for (first, value) in [(1, 2_048), (1 << 20, MOST), ((1 << 20) - 1, MOST - 2_047), (-(1 << 20), LEAST), (-(1 << 21), LEAST)] {
        let book = doubled(Cell::number(first, Version::One), 11);
        assert_eq!(
            leaves(|work| run(&book, work, u32::MAX), &encode_term(&number(value))),
            Answer::Value { steps: 2_047, mark: 4_095 }
        );
    }
    assert_eq!(check(&doubled(Cell::number(1, Version::One), 12), &mut vec![0; WORK]), Answer::Refused { number: 10, cell: 12 });
}
