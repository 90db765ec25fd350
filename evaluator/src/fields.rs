//! Field reads. For merges document 02 decides, (i): "For an intersection, look at its parts that aren't themselves intersections. If
//! precisely one part is a record of that label and not top-like, its content is the type. If there is no such part but some part is
//! top-like, the type is Top. Otherwise 13. A run takes that part's content, or the top value."

use crate::faults::{planted, Fault};
use crate::terms::{Term, TermShape, Type, TypeShape};
use crate::typing::{top_like, type_of_value};

/// What is left, left to right, when everything is taken apart that has halves. Equal parts are parts each.
fn parts<'a, T>(whole: &'a T, halves: impl Fn(&'a T) -> Option<[&'a T; 2]>) -> Vec<&'a T> {
    let (mut found, mut waiting) = (Vec::new(), vec![whole]);
    while let Some(part) = waiting.pop() {
        match halves(part) {
            Some([left, right]) => waiting.extend([right, left]),
            None => found.push(part),
        }
    }
    found
}

/// The parts of a type "that aren't themselves intersections".
pub fn type_parts(t: &Type) -> Vec<&Type> {
    let whole = |part: &Type| std::ptr::eq(part, t);
    parts(t, |part| match part.shape() {
        TypeShape::Intersection(..) if planted(Fault::TypePartsOneLevel) && !whole(part) => None,
        TypeShape::Intersection(a, b) => Some([a, b]),
        _ => None,
    })
}

/// The parts of a value that are no merges themselves.
pub fn value_parts(v: &Term) -> Vec<&Term> {
    let whole = |part: &Term| std::ptr::eq(part, v);
    parts(v, |part| match part.shape() {
        TermShape::Merge(..) if planted(Fault::ValuePartsOneLevel) && !whole(part) => None,
        TermShape::Merge(a, b) => Some([a, b]),
        _ => None,
    })
}

/// The parts of merges are known to this level, where a fault has that.
pub const LEVELS: usize = 8;

/// The parts of a value that stand within no more merges than this.
pub fn parts_within(v: &Term, merges: usize) -> Vec<&Term> {
    match v.shape() {
        TermShape::Merge(..) if merges == 0 => vec![],
        TermShape::Merge(a, b) => [a, b].into_iter().flat_map(|half| parts_within(half, merges - 1)).collect(),
        _ => vec![v],
    }
}

/// The type of a field read of a term of this type; None where it is refused.
pub fn read_type(t: &Type, label: u8) -> Option<Type> {
    match t.shape() {
        // "A record type or Top keeps its rule": "a record type of exactly that label, or Top, which gives Top."
        TypeShape::Record(l, content) => (*l == label).then(|| content.clone()),
        TypeShape::Top => Some(t.clone()),
        TypeShape::Intersection(..) => read_type_of_parts(&type_parts(t), label),
        TypeShape::Int | TypeShape::Function(..) => None,
    }
}

/// "If precisely one part is a record of that label and not top-like, its content is the type. If there is no such part but some part
/// is top-like, the type is Top." A record type is top-like exactly when its content is.
fn read_type_of_parts(parts: &[&Type], label: u8) -> Option<Type> {
    let content = |part: &&Type| match part.shape() {
        TypeShape::Record(l, content) if *l == label => Some(content.clone()),
        _ => None,
    };
    let some_top_like = || match () {
        () if planted(Fault::TopByTopAlone) => parts.iter().any(|part| matches!(part.shape(), TypeShape::Top)),
        () => parts.iter().any(|part| top_like(part)),
    };
    let mut proper = parts.iter().filter_map(content).filter(|content| !top_like(content));
    match (proper.next(), proper.next()) {
        (Some(content), None) => Some(content),
        (Some(content), Some(_)) => planted(Fault::FirstOfTwoFields).then_some(content),
        (None, _) if planted(Fault::TopLikeContentShown) => {
            parts.iter().find_map(content).or_else(|| some_top_like().then(Type::top))
        }
        (None, _) => some_top_like().then(Type::top),
    }
}

/// All that a field read of a value can become. One term at most if it is typed; an untyped merge may have several such parts.
pub fn read_value(v: &Term, label: u8) -> Vec<Term> {
    match v.shape() {
        // "A field read of a record value becomes the content": of the label that is read, as in the source's rule.
        TermShape::Record(l, content) if *l == label => vec![content.clone()],
        // "The top value applied to a value, or with a field read, becomes the top value."
        TermShape::Top => vec![Term::top()],
        TermShape::Merge(..) => read_value_parts(&value_parts(v), label),
        _ => vec![],
    }
}

/// "A run takes that part's content, or the top value." That a part is not top-like is said of the type that it shows. A merge that has neither
/// such a part nor a top-like one is not typed, and nothing is said of it; here it becomes the top value too.
fn read_value_parts(parts: &[&Term], label: u8) -> Vec<Term> {
    let content = |part: &&Term| match part.shape() {
        TermShape::Record(l, content) if *l == label => Some(content.clone()),
        _ => None,
    };
    let all: Vec<Term> = parts.iter().filter_map(content).collect();
    let proper: Vec<Term> = all.iter().filter(|content| !top_like(&type_of_value(content))).cloned().collect();
    match (proper.is_empty(), all.first()) {
        (true, Some(first)) if planted(Fault::TopLikeContentTaken) => vec![first.clone()],
        (true, _) => vec![Term::top()],
        (false, Some(first)) if planted(Fault::FirstFieldTaken) => vec![first.clone()],
        (false, _) => proper,
    }
}
