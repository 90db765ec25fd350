//! The sizes of the terms that a run reaches, by successors from the root.

use evaluator::{successors, Term, Version};
use std::iter;

/// The greatest size of any term after at most so many steps.
pub fn greatest(term: &Term, version: Version, steps: u32) -> u64 {
    let next = |term: &Term| successors(term, version).pop();
    let terms = iter::successors(Some(term.clone()), next).take(steps as usize + 1);
    terms.map(|term| term.size()).fold(0, u64::max)
}
