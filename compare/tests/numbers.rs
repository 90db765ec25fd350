//! The families of sums and choices have enough of each, and their refused parts get the refusals that are stated of them.

use compare::contexts::redex;
use compare::families::families;
use compare::numbers::{arithmetic_term, refused, Refused};
use compare::random::Random;
use evaluator::{check, decode, encode_term, on_large_stack, run, successors, Answer, Term, TermShape, Type, Version, WORK};
use std::collections::BTreeSet;
use std::iter;

const SEED: u64 = 1;
/// As many as a self-test asks about, nearly.
const BOOKS: usize = 300;
/// A run is followed for so many steps.
const STEPS: usize = 60;

#[test]
fn the_refused_parts_are_refused_as_stated() {
    on_large_stack(|| {
        let mut numbers = BTreeSet::new();
        for Refused { book, answer } in refused() {
            assert_eq!(check(&book, &mut vec![0; WORK]), answer, "{:?}", decode(&book));
            let Answer::Refused { number, .. } = answer else { panic!("{answer:?}") };
            numbers.insert(number);
        }
        assert_eq!(numbers, (11..=15).collect());
    });
}

/// The number that a term stands for in this version, with these arguments of the functions around it, outermost first; none for a field.
fn number(term: &Term, version: Version, arguments: &mut Vec<i64>) -> Option<i64> {
    let mut part = |part: &Term| number(part, version, arguments);
    match term.shape() {
        TermShape::Number(n) => Some(*n),
        TermShape::Variable(skipped) => arguments.iter().rev().nth(usize::from(*skipped)).copied(),
        TermShape::Annotation(e, _) => part(e),
        TermShape::Merge(a, b) => part(a).or_else(|| part(b)),
        TermShape::Sum(a, b) => {
            let sum = part(a)? + part(b)?;
            Some(match version {
                Version::One => sum.clamp(-2_147_483_648, 2_147_483_647),
                Version::Two => sum.clamp(-140_737_488_355_328, 140_737_488_355_327),
            })
        }
        TermShape::Choice(a, b, c) => match part(a)? {
            0 => part(b),
            _ => part(c),
        },
        TermShape::Application(function, argument) => {
            let TermShape::Function(body, ..) = function.shape() else { return None };
            let argument = part(argument)?;
            arguments.push(argument);
            let result = number(body, version, arguments);
            arguments.pop();
            result
        }
        _ => None,
    }
}

/// Adding up without steps gives the same, in each version.
#[test]
fn arithmetic_comes_to_its_number() {
    on_large_stack(|| {
        let mut work = vec![0; WORK];
        for (place, version) in (0..5_000).flat_map(|place| Version::ALL.map(|version| (place, version))) {
            let term = Term::annotation(arithmetic_term(version, &mut Random::of(SEED, "numbers", place)), Type::int());
            let answer = run(&encode_term(&term, version), &mut work, u32::MAX);
            let value = number(&term, version, &mut Vec::new()).expect("a number");
            let left = encode_term(&Term::number(value), version);
            assert!(matches!(answer, Answer::Value { .. }) && work[..left.len()] == left, "{term}: {answer:?}, not {value}");
        }
    });
}

/// What the runs of a family's books do.
#[derive(Default, Debug)]
struct Shares {
    accepted: usize,
    refused: usize,
    /// Sums taken, those with a merge in them, and those that come to each end of the range.
    sums: usize,
    merges: usize,
    least: usize,
    most: usize,
    /// Choices that become b, and c; those of the others whose number has zero in a field that holds it, or is negative.
    zeros: usize,
    others: usize,
    halves: usize,
    negative: usize,
    /// Runs of more than a hundred steps, and of more than a thousand.
    long: usize,
    thousands: usize,
}

impl Shares {
    fn of(name: &str) -> Shares {
        on_large_stack(|| {
            let family = families().into_iter().find(|family| family.name == name).expect("the family");
            let mut shares = Shares::default();
            family.books(SEED, BOOKS).take(BOOKS).for_each(|book| shares.enter(&book));
            println!("of {BOOKS} books, {name}: {shares:?}");
            shares
        })
    }

    fn enter(&mut self, book: &[u8]) {
        let mut work = vec![0; WORK];
        match run(book, &mut work, 10_000) {
            Answer::Refused { .. } => return self.refused += 1,
            answer => {
                let (steps, _) = answer.ran().expect("a run");
                self.long += usize::from(steps > 100);
                self.thousands += usize::from(steps > 1_000);
            }
        }
        self.accepted += 1;
        let (root, version) = decode(book).expect("a term");
        for term in iter::successors(Some(root), |term| successors(term, version).pop()).take(STEPS) {
            self.enter_step(redex(&term), version);
        }
    }

    fn enter_step(&mut self, step: &Term, version: Version) {
        let is_merge = |part: &Term| matches!(part.shape(), TermShape::Merge(..));
        match step.shape() {
            TermShape::Sum(a, b) => {
                self.sums += 1;
                self.merges += usize::from(is_merge(a) || is_merge(b));
                let TermShape::Number(sum) = *successors(step, version)[0].shape() else { panic!("{step}") };
                self.least += usize::from(sum == version.least());
                self.most += usize::from(sum == version.most());
            }
            TermShape::Choice(test, ..) => {
                self.merges += usize::from(is_merge(test));
                match *test.shape() {
                    TermShape::Number(0) => self.zeros += 1,
                    TermShape::Number(n) => {
                        self.others += 1;
                        self.negative += usize::from(n < 0);
                        let fields = version.fields(n);
                        self.halves += usize::from(fields[usize::from(version == Version::One)..].contains(&0));
                    }
                    _ => {}
                }
            }
            _ => {}
        }
    }
}

fn percent(count: usize) -> usize {
    count * 100 / BOOKS
}

#[test]
fn arithmetic_has_enough_of_each() {
    let Shares { accepted, refused, sums, merges, least, most, zeros, others, halves, negative, .. } = Shares::of("arithmetic");
    assert!(percent(accepted) >= 85 && refused > 0 && percent(sums) >= 100 && percent(merges) >= 20);
    assert!(percent(least) >= 5 && percent(most) >= 5);
    assert!(percent(zeros) >= 30 && percent(others) >= 50 && percent(halves) >= 15 && percent(negative) >= 15);
}

#[test]
fn the_ends_of_the_range_are_met() {
    let Shares { accepted, least, most, halves, negative, .. } = Shares::of("ends of the range");
    assert!(accepted == BOOKS && percent(least) >= 3 && percent(most) >= 3 && percent(halves) >= 10 && percent(negative) >= 10);
}

#[test]
fn bodies_are_accepted_and_refused() {
    let Shares { accepted, refused, sums, zeros, others, .. } = Shares::of("counting bodies");
    assert!(percent(accepted) >= 40 && percent(refused) >= 25);
    assert!(percent(sums) >= 30 && percent(zeros) >= 5 && percent(others) >= 15);
}

#[test]
fn loops_count_for_long() {
    let Shares { accepted, sums, zeros, others, least, most, long, thousands, .. } = Shares::of("counting loops");
    assert!(percent(accepted) >= 90 && percent(sums) >= 200 && percent(others) >= 200 && percent(zeros) >= 20);
    assert!(least > 0 && most > 0 && percent(long) >= 15 && percent(thousands) >= 2);
}

/// The same at the range of version 2.
#[test]
fn wide_arithmetic_has_enough_of_each() {
    let Shares { accepted, refused, sums, merges, least, most, zeros, others, halves, negative, .. } =
        Shares::of("wide arithmetic");
    assert!(percent(accepted) >= 85 && refused > 0 && percent(sums) >= 100 && percent(merges) >= 20);
    assert!(percent(least) >= 5 && percent(most) >= 5);
    assert!(percent(zeros) >= 30 && percent(others) >= 50 && percent(halves) >= 15 && percent(negative) >= 15);
}

#[test]
fn the_ends_of_both_ranges_are_met() {
    let Shares { accepted, refused, least, most, halves, negative, .. } = Shares::of("ends of both ranges");
    assert!(percent(accepted) >= 60 && percent(refused) >= 10 && percent(least) >= 3 && percent(most) >= 3);
    assert!(percent(halves) >= 5 && percent(negative) >= 5);
}

/// The makers of the other families make sums and choices too.
#[test]
fn the_makers_make_sums_and_choices() {
    for name in ["merges", "duplicates", "fixpoints", "large", "contexts", "near misses", "wide terms", "widened"] {
        let Shares { sums, zeros, others, .. } = Shares::of(name);
        assert!(percent(sums) >= 5 && zeros > 0 && others > 0, "{name}");
    }
}
