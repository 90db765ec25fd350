//! The relations on types, and finding a term's type.

use crate::book::Refusal;
use crate::faults::{current, planted, Fault};
use crate::fields::{parts_within, read_type, LEVELS};
use crate::sameness::{same_function, same_number};
use crate::terms::{Term, TermShape, Type, TypeShape};
use std::ops::Range;

/// "Top-like: Top; a function type with a top-like output; an intersection of two such; a record type over one."
pub fn top_like(t: &Type) -> bool {
    match t.shape() {
        TypeShape::Int => false,
        TypeShape::Top => true,
        TypeShape::Function(_, output) => top_like(output),
        TypeShape::Intersection(a, b) => top_like(a) && top_like(b),
        TypeShape::Record(_, content) => top_like(content),
    }
}

/// "Below: Int is below Int. Every type is below a top-like one. An intersection is below what either half is below. A type is
/// below an intersection if below both halves. A function type is below another if its input is above and its output below. A
/// record type is below one of the same label if its content is."
///
/// An intersection on the right is taken apart first. Nothing is lost: a half that is below both halves of the right is below
/// each of them.
pub fn subtype(a: &Type, b: &Type) -> bool {
    if top_like(b) {
        return true;
    }
    match (a.shape(), b.shape()) {
        (_, TypeShape::Intersection(l, r)) => subtype(a, l) && subtype(a, r),
        (TypeShape::Intersection(l, r), _) => match current() {
            Some(Fault::BelowByLeftHalf) => subtype(l, b),
            Some(Fault::BelowByRightHalf) => subtype(r, b),
            _ => subtype(l, b) || subtype(r, b),
        },
        (TypeShape::Int, TypeShape::Int) => true,
        (TypeShape::Function(i, o), TypeShape::Function(wanted_i, wanted_o)) => {
            let inputs = if planted(Fault::CovariantInputs) { subtype(i, wanted_i) } else { subtype(wanted_i, i) };
            inputs && subtype(o, wanted_o)
        }
        (TypeShape::Record(l, c), TypeShape::Record(wanted_l, wanted_c)) => l == wanted_l && subtype(c, wanted_c),
        _ => false,
    }
}

/// "Disjoint: Top with anything. An intersection when both halves are, on either side. Int, function and record types with one
/// another. Two functions if their outputs are. Two records if labels differ or contents are disjoint."
pub fn disjoint(a: &Type, b: &Type) -> bool {
    match (a.shape(), b.shape()) {
        (TypeShape::Top, _) => true,
        (_, TypeShape::Top) => !planted(Fault::TopKnownOnLeft),
        (TypeShape::Intersection(l, r), _) => match current() {
            Some(Fault::DisjointByLeftHalf) => disjoint(l, b),
            Some(Fault::DisjointOnRight) => matches!(b.shape(), TypeShape::Intersection(l, r) if disjoint(a, l) && disjoint(a, r)),
            _ => disjoint(l, b) && disjoint(r, b),
        },
        (_, TypeShape::Intersection(l, r)) => match current() {
            Some(Fault::DisjointByLeftHalf) => disjoint(a, l),
            Some(Fault::DisjointOnLeft) => false,
            _ => disjoint(a, l) && disjoint(a, r),
        },
        (TypeShape::Int, TypeShape::Int) => false,
        (TypeShape::Function(i, o), TypeShape::Function(j, p)) => {
            disjoint(o, p) || planted(Fault::DisjointByInputs) && disjoint(i, j)
        }
        (TypeShape::Record(l, c), TypeShape::Record(m, d)) => l != m || disjoint(c, d),
        // Two different ones of Int, function and record types.
        _ => true,
    }
}

/// The type that `infer` gives a typed value, seen from its form: its parts need not be walked again.
pub fn type_of_value(v: &Term) -> Type {
    match v.shape() {
        TermShape::Number(_) => Type::int(),
        TermShape::Top => Type::top(),
        TermShape::Function(_, i, o) => Type::function(i.clone(), o.clone()),
        TermShape::Merge(a, b) => Type::intersection(type_of_value(a), type_of_value(b)),
        TermShape::Record(l, c) => Type::record(*l, type_of_value(c)),
        _ => unreachable!("only asked of values"),
    }
}

/// "Consistent closed values: equal numbers; functions with the same body and input type, as trees; records of one label with
/// consistent contents; a merge and a value, either way about, if both halves are consistent with the value; any two of disjoint
/// types." Only asked of typed values.
///
/// A merge is taken apart wherever it stands and nothing else is tried: its type is disjoint from another exactly when both
/// halves' are.
pub fn consistent(v: &Term, w: &Term) -> bool {
    match (v.shape(), w.shape()) {
        (TermShape::Merge(..), _) | (_, TermShape::Merge(..)) if current().is_some() => consistent_merge(current(), v, w),
        (TermShape::Merge(a, b), _) => consistent(a, w) && consistent(b, w),
        (_, TermShape::Merge(a, b)) => consistent(v, a) && consistent(v, b),
        (TermShape::Number(m), TermShape::Number(n)) if same_number(*m, *n) => true,
        (TermShape::Function(e, i, o), TermShape::Function(f, j, p)) if same_function((e, i, o), (f, j, p)) => true,
        (TermShape::Record(l, c), TermShape::Record(m, d)) if l == m && consistent_contents(c, d) => true,
        _ if planted(Fault::OneTypeEnough) && type_of_value(v) == type_of_value(w) => true,
        _ => disjoint(&type_of_value(v), &type_of_value(w)),
    }
}

/// Whether a merge and a value are consistent, where a fault is planted.
fn consistent_merge(fault: Option<Fault>, v: &Term, w: &Term) -> bool {
    match (fault, v.shape(), w.shape()) {
        (Some(Fault::OneTypeEnough), ..) if type_of_value(v) == type_of_value(w) => true,
        (Some(Fault::ConsistentToEightLevels), ..) => {
            let others = parts_within(w, LEVELS);
            parts_within(v, LEVELS).iter().all(|part| others.iter().all(|other| consistent(part, other)))
        }
        (_, TermShape::Merge(a, b), _) if fault != Some(Fault::MergeKnownOnRight) => {
            compared(fault, &[a, b], Side::Left).iter().all(|half| consistent(half, w))
        }
        (_, _, TermShape::Merge(a, b)) if fault != Some(Fault::MergeKnownOnLeft) => {
            compared(fault, &[a, b], Side::Right).iter().all(|half| consistent(v, half))
        }
        _ => disjoint(&type_of_value(v), &type_of_value(w)),
    }
}

/// Where a merge stands that is compared with a value.
enum Side {
    Left,
    Right,
}

/// The halves of a merge that are compared with a value: both, unless a fault is planted.
fn compared<'a, 'b>(fault: Option<Fault>, halves: &'a [&'b Term; 2], stands: Side) -> &'a [&'b Term] {
    match (fault, stands) {
        (Some(Fault::AdjacentParts), Side::Left) => &halves[1..],
        (Some(Fault::AdjacentParts), Side::Right) | (Some(Fault::MergeByLeftHalf), _) => &halves[..1],
        (Some(Fault::OverlapByLeftHalf), _) if overlap(halves) => &halves[..1],
        _ => halves,
    }
}

/// The types are not disjoint.
fn overlap(values: &[&Term; 2]) -> bool {
    let [one, other] = values.map(type_of_value);
    !disjoint(&one, &other)
}

fn consistent_contents(c: &Term, d: &Term) -> bool {
    if planted(Fault::ContentsAsTrees) {
        return c == d;
    }
    consistent(c, d)
}

/// "Finding a type". The binders' types are listed outermost first. "Typing walks left before right and parts before wholes";
/// "11 to 14 name the variable, application, field read or merge itself".
pub fn infer(binders: &mut Vec<Type>, e: &Term) -> Result<Type, Refusal> {
    match e.shape() {
        // "top value Top; number Int; variable its binder's type"
        TermShape::Top => Ok(Type::top()),
        TermShape::Number(_) => Ok(Type::int()),
        TermShape::Variable(skipped) => match binders.iter().rev().nth(usize::from(*skipped)) {
            Some(t) => Ok(t.clone()),
            None => refuse(11, e),
        },
        // "annotation its type, after checking"
        TermShape::Annotation(inside, by) => {
            check(binders, e, inside, by)?;
            Ok(by.clone())
        }
        // "function its annotated type, the body checked against the output"
        TermShape::Function(body, input, output) => {
            with_binder(binders, input, |binders| check(binders, e, body, output))?;
            Ok(Type::function(input.clone(), output.clone()))
        }
        // "fixpoint its type, the body checked against it"
        TermShape::Fixpoint(body, at) => {
            with_binder(binders, at, |binders| check(binders, e, body, at))?;
            Ok(at.clone())
        }
        // "record a record type"
        TermShape::Record(label, content) => Ok(Type::record(*label, infer(binders, content)?)),
        TermShape::Application(left, right) => infer_application(binders, e, left, right),
        TermShape::Projection(label, of) => infer_projection(binders, e, *label, of),
        TermShape::Merge(left, right) => infer_merge(binders, e, left, right),
        TermShape::Sum(a, b) => infer_numbers(binders, e, &[a, b]),
        TermShape::Choice(a, b, c) => infer_numbers(binders, e, &[a, b, c]),
    }
}

fn refuse(number: u8, e: &Term) -> Result<Type, Refusal> {
    Err(Refusal { number, cell: e.cell() })
}

/// "Application: the left's type must be a function type, or Top, read as Top to Top; the right is checked against the input." "12 is
/// tested before the right side is walked."
fn infer_application(binders: &mut Vec<Type>, e: &Term, left: &Term, right: &Term) -> Result<Type, Refusal> {
    let inferred = infer(binders, left)?;
    let (input, output) = match inferred.shape() {
        TypeShape::Function(i, o) => (i.clone(), o.clone()),
        TypeShape::Top => (Type::top(), Type::top()),
        _ if planted(Fault::ArgumentFirst) => return infer(binders, right).and_then(|_| refuse(12, e)),
        _ => return refuse(12, e),
    };
    check(binders, e, right, &input)?;
    Ok(output)
}

/// "Field read: the term's type must be a record type of exactly that label, or Top, which gives Top", or an intersection as document 02
/// widens it.
fn infer_projection(binders: &mut Vec<Type>, e: &Term, label: u8, of: &Term) -> Result<Type, Refusal> {
    let inferred = infer(binders, of)?;
    read_type(&inferred, label).map_or_else(|| refuse(13, e), Ok)
}

/// "Merge: the intersection, if the two types are disjoint, or both halves are closed values and consistent."
fn infer_merge(binders: &mut Vec<Type>, e: &Term, left: &Term, right: &Term) -> Result<Type, Refusal> {
    let (a, b) = if planted(Fault::RightHalfFirst) {
        let b = infer(binders, right)?;
        (infer(binders, left)?, b)
    } else {
        (infer(binders, left)?, infer(binders, right)?)
    };
    let closed_value = |half: &Term| half.is_value() && half.is_closed();
    let in_order = || !planted(Fault::LargerFirstRefused) || left.size() <= right.size();
    if disjoint(&a, &b) || closed_value(left) && closed_value(right) && consistent(left, right) && in_order() {
        let once = planted(Fault::EqualHalvesOnce) && a == b;
        Ok(if once { a } else { Type::intersection(a, b) })
    } else {
        refuse(14, if planted(Fault::HalfNamed) { left } else { e })
    }
}

/// A sum: "both are checked against Int". A choice: "a, b, c are checked against Int and the result is Int." "Typing checks each part
/// before it walks the next."
fn infer_numbers(binders: &mut Vec<Type>, e: &Term, parts: &[&Term]) -> Result<Type, Refusal> {
    let int = Type::int();
    let mut found = Vec::with_capacity(parts.len());
    for (place, part) in parts.iter().enumerate() {
        found.push(infer(binders, part)?);
        for checked in due(parts.len(), place) {
            let below = if planted(Fault::ExactlyInt) { found[checked] == int } else { subtype(&found[checked], &int) };
            if !below {
                return refuse(15, named(e, parts, checked));
            }
        }
    }
    match (current(), &found[..]) {
        (Some(Fault::SumTypeOfLeft), [left, _]) => Ok(left.clone()),
        (Some(Fault::ChoiceTypeOfBranch), [_, branch, _]) => Ok(branch.clone()),
        _ => Ok(int),
    }
}

/// Which of so many parts are checked once the one at this place is walked: that one, unless a fault is planted.
fn due(parts: usize, place: usize) -> Range<usize> {
    match (current(), parts, place) {
        (Some(Fault::SumCheckedLate), 2, 0) | (Some(Fault::TestCheckedLate), 3, 0) => 0..0,
        (Some(Fault::SumCheckedLate), 2, 1) | (Some(Fault::TestCheckedLate), 3, 1) => 0..2,
        (Some(Fault::BranchCheckedLate), 3, 1) => 1..1,
        (Some(Fault::BranchCheckedLate), 3, 2) => 1..3,
        (Some(Fault::LastUnchecked), 3, 2) => 2..2,
        _ => place..place + 1,
    }
}

/// The term that 15 names when this part of a sum or choice is not below Int: the part, unless a fault is planted.
fn named<'a>(e: &'a Term, parts: &[&'a Term], place: usize) -> &'a Term {
    match (current(), place) {
        (Some(Fault::WholeNamed), _) | (Some(Fault::LastByWhole), 2) => e,
        (Some(Fault::LastBySecond), 2) => parts[1],
        _ => parts[place],
    }
}

/// "Checking: find a type; it must be below the wanted one." 15 names "the checked term", which is a part of the whole.
fn check(binders: &mut Vec<Type>, whole: &Term, e: &Term, wanted: &Type) -> Result<(), Refusal> {
    if subtype(&infer(binders, e)?, wanted) {
        Ok(())
    } else {
        let named = if planted(Fault::WholeNamed) { whole } else { e };
        Err(Refusal { number: 15, cell: named.cell() })
    }
}

/// Does `work` under one more binder.
fn with_binder<R>(binders: &mut Vec<Type>, of: &Type, work: impl FnOnce(&mut Vec<Type>) -> R) -> R {
    binders.push(of.clone());
    let result = work(binders);
    binders.pop();
    result
}
