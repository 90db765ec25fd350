//! How sums and choices step. Document 02 adds them, (ii): "Kind 26 adds a and b", "Kind 27 chooses"; its (iv) gives each version its range.

use crate::faults::{current, planted, Fault};
use crate::running::casts;
use crate::terms::{Term, TermShape, Type};
use crate::versions::{parted, Version};

/// The numbers that a value can be read as under Int. One at most if it is typed; an untyped merge may have several.
fn numbers(v: &Term) -> Vec<i64> {
    let number = |read: &Term| match read.shape() {
        TermShape::Number(n) => Some(*n),
        _ => None,
    };
    casts(v, &Type::int()).iter().filter_map(number).collect()
}

/// The lowest bits of a number, read as one of this version.
fn wrapped(n: i64, version: Version) -> i64 {
    version.number(version.fields(n))
}

/// "The sum is held to the ends": to those of its book's version.
fn added(m: i64, n: i64, version: Version) -> i64 {
    let sum = m.saturating_add(n);
    match (current(), version) {
        (Some(Fault::SumWraps), Version::One) | (Some(Fault::WideSumWraps), Version::Two) => wrapped(sum, version),
        (Some(Fault::SumShortAbove), Version::One) | (Some(Fault::WideSumShortAbove), Version::Two) => {
            version.held(sum).min(version.most() - 1)
        }
        (Some(Fault::SumShortBelow), Version::One) | (Some(Fault::WideSumShortBelow), Version::Two) => {
            version.held(sum).max(version.least() + 1)
        }
        (Some(Fault::SumOf48Bits), Version::One) => Version::Two.held(sum),
        (Some(Fault::WideSumOf32Bits), Version::Two) => Version::One.held(sum),
        (Some(Fault::WideSumOfLowBits), Version::Two) => wrapped(m, Version::One) + wrapped(n, Version::One),
        _ => version.held(sum),
    }
}

/// All that a sum of values can become: "both are read under Int".
pub fn sums(left: &Term, right: &Term, version: Version) -> Vec<Term> {
    let operand = |v: &Term| match v.shape() {
        TermShape::Merge(_, half) if planted(Fault::SumReadsRightHalf) => numbers(half),
        _ => numbers(v),
    };
    let rights = operand(right);
    operand(left).into_iter().flat_map(|m| rights.iter().map(move |&n| Term::number(added(m, n, version)))).collect()
}

fn is_zero(n: i64, version: Version) -> bool {
    let [a, b, c] = parted(n);
    match (current(), version) {
        (Some(Fault::BranchesExchanged), _) => n != 0,
        (Some(Fault::ZeroByLowHalf), _) => a == 0,
        (Some(Fault::ZeroByHighHalf), _) => b == 0,
        (Some(Fault::NegativeAsZero), _) => n <= 0,
        (Some(Fault::ZeroWithoutA), Version::Two) => [b, c] == [0; 2],
        (Some(Fault::ZeroWithoutB), Version::Two) => [a, c] == [0; 2],
        (Some(Fault::ZeroWithoutC), Version::Two) => [a, b] == [0; 2],
        _ => n == 0,
    }
}

/// All that a choice can become: "When a is a value, it is read under Int; the choice becomes b for zero and c for anything else,
/// either one annotated Int."
pub fn choices(test: &Term, for_zero: &Term, otherwise: &Term, version: Version) -> Vec<Term> {
    let tested = match test.shape() {
        TermShape::Merge(half, _) if planted(Fault::ChoiceReadsLeftHalf) => numbers(half),
        _ => numbers(test),
    };
    let chosen = |n: i64| {
        let branch = if is_zero(n, version) { for_zero } else { otherwise }.clone();
        if planted(Fault::BranchBare) {
            return branch;
        }
        Term::annotation(branch, Type::int())
    };
    tested.into_iter().map(chosen).collect()
}

/// A sum or choice with a merge that runs read under Int, where a fault has that for a step of its own.
pub fn read_apart(e: &Term) -> Option<Term> {
    if !planted(Fault::ReadingCounted) || !matches!(e.shape(), TermShape::Sum(..) | TermShape::Choice(..)) {
        return None;
    }
    let node = e.node();
    let mut merges =
        node.terms().filter(|(field, _, part)| *field < node.row.running && matches!(part.shape(), TermShape::Merge(..)));
    let (field, _, merge) = merges.next()?;
    Some(e.with_part(field, &casts(merge, &Type::int()).pop()?))
}
