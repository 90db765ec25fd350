//! Loops that count, by fixpoint, sum and choice, as document 02 (ii) has them: "Offices count revisions."

use crate::contexts::within_many;
use crate::families::one_book_in;
use crate::numbers::function;
use crate::random::Random;
use evaluator::{Term, Type, Version};

fn int() -> Type {
    Type::int()
}

fn number(n: i64) -> Term {
    Term::number(n)
}

fn variable(skipped: u16) -> Term {
    Term::variable(skipped)
}

fn to_int(input: Type) -> Type {
    Type::function(input, int())
}

/// The number less so many.
fn less(term: Term, by: i64) -> Term {
    Term::sum(term, number(-by))
}

/// The fixpoint of a function from Int to Int with this body, in which variable 0 is the argument and variable 1 the function, applied.
fn looped(body: Term, first: Term) -> Term {
    Term::application(Term::fixpoint(function(body), to_int(int())), first)
}

fn call(argument: Term) -> Term {
    Term::application(variable(1), argument)
}

/// Counts down to zero, and then gives this number: seven steps a turn, four cells more. After n turns the fixpoint has become a function
/// while its argument is still a sum: 4n + 33 cells.
pub fn countdown(from: i64, by: i64, at_zero: i64) -> Term {
    looped(Term::choice(variable(0), number(at_zero), call(less(variable(0), by))), number(from))
}

/// Adds up all numbers from this one down to zero.
pub fn triangular(of: i64) -> Term {
    let rest = call(less(variable(0), 1));
    looped(Term::choice(variable(0), number(0), Term::sum(variable(0), rest)), number(of))
}

/// What is left to this number. That which takes the least away is past the other end, and is taken in two parts.
fn to_last(last: i64, version: Version) -> Term {
    match last == version.least() {
        true => Term::sum(Term::sum(variable(0), number(version.most())), number(1)),
        false => less(variable(0), last),
    }
}

/// Counts up or down until this number is reached: it is tested as a difference.
fn until(first: i64, last: i64, by: i64, version: Version) -> Term {
    looped(Term::choice(to_last(last, version), variable(0), call(Term::sum(variable(0), number(by)))), number(first))
}

/// Doubles a number until it is held at an end of the range.
fn doubling(first: i64, last: i64, version: Version) -> Term {
    looped(Term::choice(to_last(last, version), variable(0), call(Term::sum(variable(0), variable(0)))), number(first))
}

/// The same total as `triangular`, carried along as a second argument.
pub fn accumulated(of: i64) -> Term {
    let of_total = to_int(int());
    let again = Term::application(Term::application(variable(2), less(variable(1), 1)), Term::sum(variable(0), variable(1)));
    let body = function(Term::choice(variable(1), variable(0), again));
    let both = Type::function(int(), of_total.clone());
    let fixed = Term::fixpoint(Term::function(body, int(), of_total), both);
    Term::application(Term::application(fixed, number(of)), number(0))
}

/// The same, both numbers in one argument: a merge of two fields.
fn in_fields(of: i64) -> Term {
    let [turns, total] = [1, 2].map(|label| Type::record(label, int()));
    let input = Type::intersection(turns, total);
    let field = |label| Term::projection(label, variable(0));
    let next = Term::merge(Term::record(1, less(field(1), 1)), Term::record(2, Term::sum(field(2), field(1))));
    let body = Term::choice(field(1), field(2), call(next));
    let fixed = Term::fixpoint(Term::function(body, input.clone(), int()), to_int(input));
    Term::application(fixed, Term::merge(Term::record(1, number(of)), Term::record(2, number(0))))
}

/// Two functions in the fields of a fixpoint that call each other: whether a number is even.
fn even(of: i64) -> Term {
    let other = |label| Term::application(Term::projection(label, variable(1)), less(variable(0), 1));
    let one = |at_zero, label| function(Term::choice(variable(0), number(at_zero), other(label)));
    let at = |label| Type::record(label, to_int(int()));
    let both = Term::merge(Term::record(1, one(1, 2)), Term::record(2, one(0, 1)));
    Term::application(Term::projection(1, Term::fixpoint(both, Type::intersection(at(1), at(2)))), number(of))
}

/// Calls itself twice a turn: many steps, and small terms.
pub fn fibonacci(of: i64) -> Term {
    let rest = Term::sum(call(less(variable(0), 1)), call(less(variable(0), 2)));
    looped(Term::choice(variable(0), number(0), Term::choice(less(variable(0), 1), number(1), rest)), number(of))
}

/// The argument has a field beside it that its type hides.
fn with_hidden_field(of: i64) -> Term {
    let next = Term::merge(less(variable(0), 1), Term::record(7, variable(0)));
    let first = Term::merge(Term::record(7, number(3)), number(of));
    looped(Term::choice(variable(0), number(7), call(next)), first)
}

/// By how much a loop counts.
fn paces(version: Version) -> [i64; 7] {
    match version {
        Version::One => [1, 1, 2, 3, 65_536, -1, -65_536],
        Version::Two => [1, 65_536, 1 << 32, -(1 << 32), (1 << 32) + 1, -65_537, 1 << 40],
    }
}

/// A loop that ends after a few turns; at times after hundreds, and at times not before there is no room.
fn a_loop(version: Version, random: &mut Random) -> Term {
    let longest = if random.once_in(25) { 1_000 } else { 12 };
    let turns = random.lower(longest + 1) as i64;
    let by = *random.pick(&paces(version));
    let [least, most] = [version.least(), version.most()];
    match random.lower(12) {
        0 if random.once_in(8) => countdown(-1 - turns, 1, 7),
        0 | 1 => countdown(turns * by, by, turns),
        2 | 3 => triangular(turns),
        4 => accumulated(turns),
        5 => in_fields(turns),
        6 => even(turns),
        7 => fibonacci(random.lower(8) as i64),
        8 => with_hidden_field(turns),
        9 => {
            let last = *random.pick(&[most, least + 1, least, 0, 65_536]);
            let past = random.once_in(3) && last == most;
            // At times past an end, and so at the other.
            let first = version.number(version.fields(last - turns * by));
            until(first, last, if past { by * 3 } else { by }, version)
        }
        10 => doubling(random.between(1, 9) as i64, most, version),
        _ => doubling(-(random.between(1, 9) as i64), least, version),
    }
}

/// Loops that count, at times within others or as a part of a sum.
pub fn counting_loops(version: Version, random: &mut Random) -> Vec<Vec<u8>> {
    let mut term = a_loop(version, random);
    if random.once_in(4) {
        let count = random.between(1, 3);
        term = within_many((term, int()), count, random).0;
    }
    one_book_in(version, &term, random)
}
