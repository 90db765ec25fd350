//! The orders and groupings of a value's parts. Document 02, (v): "For a closed value that is a merge: with its halves swapped, or three merged
//! values regrouped, it is accepted exactly when the original is. Once accepted, under every type both readings are possible together and
//! equal."

use crate::terms::{Term, TermShape};

/// The halves of a merge of values.
fn halves(v: &Term) -> Option<[&Term; 2]> {
    match v.shape() {
        TermShape::Merge(a, b) if v.is_value() => Some([a, b]),
        _ => None,
    }
}

/// "With its halves swapped": none of what is no merge of values.
pub fn swapped(v: &Term) -> Option<Term> {
    halves(v).map(|[a, b]| Term::merge(b.clone(), a.clone()))
}

/// "Three merged values regrouped": `(a ,, b) ,, c` to `a ,, (b ,, c)`, then the other way.
pub fn regrouped(v: &Term) -> [Option<Term>; 2] {
    let merge = |a: &Term, b: &Term| Term::merge(a.clone(), b.clone());
    let Some([left, right]) = halves(v) else { return [None, None] };
    let to_the_right = halves(left).map(|[a, b]| merge(a, &merge(b, right)));
    let to_the_left = halves(right).map(|[b, c]| merge(&merge(left, b), c));
    [to_the_right, to_the_left]
}

/// All that is one move away from a value: a swap or regrouping of itself, or within a half or a record's content. A function's body stays as
/// it is. Nothing of what is no value.
pub fn reorderings(v: &Term) -> Vec<Term> {
    let mut all: Vec<Term> = swapped(v).into_iter().chain(regrouped(v).into_iter().flatten()).collect();
    let node = v.node();
    for (field, _, part) in node.terms().filter(|(_, binders, _)| v.is_value() && *binders == 0) {
        all.extend(reorderings(part).iter().map(|part| v.with_part(field, part)));
    }
    all
}
