//! Document 02, (v): "For a closed value that is a merge: with its halves swapped, or three merged values regrouped, it is accepted exactly when
//! the original is. Once accepted, under every type both readings are possible together and equal." A book's value and reorderings of it are
//! asked of the side that is compared, plain and annotated with one type, and its answers compared with each other.

use crate::cells::{encode_in, Sharing};
use crate::deepest::merges;
use crate::engines::{Call, Engine};
use crate::families::merged;
use crate::maker::{Maker, EVEN};
use crate::random::Random;
use crate::reads::shuffled;
use crate::theory::{call, encoded};
use evaluator::{
    decode, encode_term, regrouped, reorderings, swapped, type_of_value, value_parts, Answer, Term, TermShape, Type, Version,
};

/// Larger roots are not asked about.
const LARGE: u64 = 300;
/// Of larger values not every move is listed, and one type is asked about.
const MANY: u64 = 60;
/// So many reorderings of a value are asked about, and at most so many types with each.
const ORDERS: usize = 1;
const TYPES: usize = 2;

/// The value is a merge, or a record with one in it.
fn has_order(v: &Term) -> bool {
    match v.shape() {
        TermShape::Merge(..) => true,
        TermShape::Record(_, content) => has_order(content),
        _ => false,
    }
}

/// The value whose parts can be reordered, and the type that it is annotated with, if it is.
pub fn ordered(root: &Term) -> Option<(&Term, Option<&Type>)> {
    let (value, by) = match root.shape() {
        TermShape::Annotation(inside, by) => (inside, Some(by)),
        _ => (root, None),
    };
    (value.is_value() && value.is_closed() && has_order(value)).then_some((value, by))
}

/// All parts of a value in any order and grouping, and so within its records.
pub fn any_order(v: &Term, random: &mut Random) -> Term {
    let mut within = |part: &Term| match part.shape() {
        TermShape::Record(label, content) => Term::record(*label, any_order(content, random)),
        _ => part.clone(),
    };
    let parts = value_parts(v).into_iter().map(&mut within).collect();
    grouped(shuffled(parts, random), random)
}

/// The parts merged: to the left, to the right, balanced, or anyhow.
pub fn grouped(parts: Vec<Term>, random: &mut Random) -> Term {
    if random.once_in(2) {
        return merged(parts, random);
    }
    let [(_, left), (_, right), (_, balanced)] = merges(&parts);
    random.pick(&[left, right, balanced]).clone()
}

/// Some reorderings: of the halves swapped, three values regrouped, one move anywhere, and any order of all.
fn some_orders(v: &Term, random: &mut Random) -> Vec<Term> {
    let mut all: Vec<Term> = swapped(v).into_iter().chain(regrouped(v).into_iter().flatten()).collect();
    let moves = if v.size() <= MANY { reorderings(v) } else { Vec::new() };
    all.extend((!moves.is_empty()).then(|| random.pick(&moves).clone()));
    all.extend([(); 2].map(|()| any_order(v, random)));
    some_of(ORDERS, all, random)
}

/// So many of them, in their order.
fn some_of<T>(count: usize, mut all: Vec<T>, random: &mut Random) -> Vec<T> {
    while all.len() > count {
        all.remove(random.lower(all.len()));
    }
    all
}

/// Types to read two values under that are one but for the order: that of either, of a part, of two parts in both orders, one above, and one that
/// mostly is not.
pub fn types([one, other]: [&Term; 2], random: &mut Random) -> Vec<Type> {
    let [of, reordered] = [one, other].map(type_of_value);
    let parts: Vec<Type> = value_parts(one).into_iter().map(type_of_value).collect();
    let mut maker = Maker::new(random, EVEN, 0);
    let (above, label) = (maker.supertype(&of), maker.label());
    let [a, b] = [(); 2].map(|()| random.pick(&parts).clone());
    let not_above = Type::intersection(a.clone(), Type::record(label, Type::record(label, Type::int())));
    let both = [Type::intersection(a.clone(), b.clone()), Type::intersection(b, a.clone())];
    [of, reordered, above, not_above, a].into_iter().chain(both).collect()
}

/// The side that is asked, and the version of the books.
struct Asked<'a> {
    side: &'a dyn Engine,
    version: Version,
}

impl Asked<'_> {
    /// The call on the book of a term, laid down somehow.
    fn call(&self, asked: Call, term: &Term, random: &mut Random) -> Result<(Answer, Vec<u8>), String> {
        let book = encode_in(self.version, term, Sharing::any(random), random).bytes();
        call(self.side, asked, &book).map_err(|words| format!("{words}, {asked:?} of {term}"))
    }

    /// "It is accepted exactly when the original is", and the types have the same size. The books may be of different versions.
    fn accepted(&self, original: Answer, value: &Term, random: &mut Random) -> Result<(), String> {
        let version = if random.once_in(2) { Version::Two } else { self.version };
        let (answer, _) = Asked { version, ..*self }.call(Call::Check, value, random)?;
        match (original, answer) {
            (Answer::Accepted { size }, Answer::Accepted { size: other }) if size == other => Ok(()),
            (Answer::Refused { .. }, Answer::Refused { .. }) => Ok(()),
            _ => Err(format!("{original:?}, but {answer:?} of {value}")),
        }
    }

    /// "Under every type both readings are possible together and equal."
    fn read(&self, values: [&Term; 2], by: &Type, random: &mut Random) -> Result<(), String> {
        let terms = values.map(|value| Term::annotation(value.clone(), by.clone()));
        let later = *random.pick(&[Call::Check, Call::Run { limit: 0 }, Call::Run { limit: u32::MAX }]);
        match self.same(Call::Run { limit: 1 }, &terms, random)? {
            Answer::Refused { .. } => Ok(()),
            _ => self.same(later, &terms, random).map(drop),
        }
    }

    /// The call refuses both, or says of both the same, the mark included. It then leaves the same of both, but each its own root where no step was taken.
    fn same(&self, asked: Call, terms: &[Term; 2], random: &mut Random) -> Result<Answer, String> {
        let (one, left) = self.call(asked, &terms[0], random)?;
        let (other, right) = self.call(asked, &terms[1], random)?;
        let own = |term: &Term, work: &[u8]| encoded(work) == encode_term(term, self.version);
        let same = match (one, other) {
            (Answer::Refused { .. }, Answer::Refused { .. }) => true,
            (Answer::Accepted { .. } | Answer::Value { steps: 1, .. }, _) => one == other && left == right,
            (Answer::Spent { steps: 0, .. } | Answer::Room { steps: 0, .. }, _) => {
                one == other && own(&terms[0], &left) && own(&terms[1], &right)
            }
            _ => false,
        };
        if same {
            return Ok(one);
        }
        Err(format!("{asked:?} says {one:?} of {}, {other:?} of {}, or leaves something else", terms[0], terms[1]))
    }
}

/// How many reorderings were asked about, and that it holds of them: none if the root is neither a closed value with something to reorder nor
/// such a value annotated, or is large.
pub fn holds(side: &dyn Engine, book: &[u8]) -> Result<usize, String> {
    let Ok((root, version)) = decode(book) else { return Ok(0) };
    let Some((value, by)) = ordered(&root).filter(|_| root.size() <= LARGE) else { return Ok(0) };
    let mut random = Random::of(book.iter().map(|&byte| u64::from(byte)).sum(), "orders", book.len() as u64);
    let orders = some_orders(value, &mut random);
    let asked = Asked { side, version };
    if let Some(by) = by {
        return orders.iter().try_for_each(|order| asked.read([value, order], by, &mut random)).map(|()| orders.len());
    }
    let (original, _) = call(side, Call::Check, book)?;
    let count = match original {
        Answer::Refused { .. } => random.lower(2),
        _ if value.size() > MANY => 1,
        _ => random.between(1, TYPES),
    };
    for order in &orders {
        asked.accepted(original, order, &mut random)?;
        let types = some_of(count, types([value, order], &mut random), &mut random);
        types.iter().try_for_each(|by| asked.read([value, order], by, &mut random))?;
    }
    Ok(orders.len())
}
