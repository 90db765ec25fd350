//! Field reads of merges, which document 02 (i) widens: of every form of merge, and of all that comes near to having the field.

use crate::cells::{encode, Cells, Sharing};
use crate::contexts::{within_many, Typed};
use crate::deepest::merges;
use crate::families::{changed, hidden_fields_term, merged, one_book};
use crate::maker::{Maker, EVEN, LABELS};
use crate::random::Random;
use evaluator::{infer, top_like, Term, Type, SIZE_LIMIT};

fn int() -> Type {
    Type::int()
}

fn top() -> Type {
    Type::top()
}

/// The term with its type; Top stands in where it has none.
fn typed(term: Term) -> Typed {
    let of = infer(&mut Vec::new(), &term).unwrap_or_else(|_| top());
    (term, of)
}

/// The type of a read of something of this type; Top stands in where it is refused.
fn read_type(label: u8, of: &Type) -> Type {
    typed(Term::projection(label, Term::fixpoint(Term::variable(0), of.clone()))).1
}

/// A closed value that is not top-like.
fn proper_value(random: &mut Random) -> Term {
    let mut maker = Maker::new(random, EVEN, 4);
    let of = maker.a_type(2);
    let value = maker.closed_value(&of);
    match maker.inferred(&value) {
        Some(of) if value.is_value() && !top_like(&of) => value,
        _ => maker.number(),
    }
}

/// A closed value that is top-like.
pub fn top_like_value(random: &mut Random) -> Term {
    match random.lower(6) {
        0 => Term::function(Term::variable(0), int(), top()),
        1 => Term::function(Term::variable(0), top(), top()),
        2 => Term::record(*random.pick(&LABELS), Term::top()),
        3 => Term::merge(Term::top(), Term::function(Term::number(1), int(), top())),
        _ => Term::top(),
    }
}

/// A part that is top-like: of any head, at times a record of the label that is read.
fn top_like_part(label: u8, random: &mut Random) -> Term {
    let value = top_like_value(random);
    match random.lower(4) {
        0 => Term::record(*random.pick(&LABELS), value),
        1 => Term::record(label, value),
        _ => value,
    }
}

/// Parts without that label that are not top-like, each of another head or label.
fn others(label: u8, random: &mut Random) -> Vec<Term> {
    let mut parts = Vec::new();
    for other in LABELS {
        if other != label && random.once_in(3) {
            parts.push(Term::record(other, proper_value(random)));
        }
    }
    if random.once_in(3) {
        parts.push(Term::number(random.lower(9) as i32));
    }
    if random.once_in(4) {
        parts.push(Term::function(Term::variable(0), int(), int()));
    }
    parts
}

/// Parts with exactly one record of that label that is not top-like; with top-like ones at most; with neither; with two.
fn parts(label: u8, random: &mut Random) -> Vec<Term> {
    let mut parts = others(label, random);
    let field = |value: Term| Term::record(label, value);
    match random.lower(8) {
        0 | 1 => parts.push(top_like_part(label, random)),
        2 => return parts,
        3 => {
            let one = proper_value(random);
            let both = if random.once_in(2) { [one.clone(), one] } else { [Term::number(4), Term::record(8, one)] };
            parts.extend(both.map(field));
        }
        _ => parts.push(field(proper_value(random))),
    }
    for _ in 0..random.lower(3) {
        parts.push(top_like_part(label, random));
    }
    parts
}

/// The parts in any order.
pub fn shuffled(mut parts: Vec<Term>, random: &mut Random) -> Vec<Term> {
    for place in 1..parts.len() {
        parts.swap(place, random.lower(place + 1));
    }
    parts
}

/// Some parts with a step to take.
fn stepping(parts: Vec<Term>, random: &mut Random) -> Vec<Term> {
    let annotated = |part: Term| {
        let (term, of) = typed(part);
        Term::annotation(term, of)
    };
    parts.into_iter().map(|part| if random.once_in(3) { annotated(part) } else { part }).collect()
}

/// A merge of values to read that label from, or one whose parts step first.
fn a_merge(label: u8, random: &mut Random) -> Typed {
    let mut parts = shuffled(parts(label, random), random);
    while parts.len() < 2 {
        parts.push(Term::record(9, Term::number(1)));
    }
    if random.once_in(4) {
        parts = stepping(parts, random);
    }
    typed(merged(parts, random))
}

/// Something that comes to this merge, or to a part of it, by steps.
fn brought((merge, of): Typed, random: &mut Random) -> Term {
    let above = match random.lower(3) {
        0 => Maker::new(random, EVEN, 4).supertype(&of),
        _ => of.clone(),
    };
    match random.lower(7) {
        0 => Term::annotation(merge, above),
        1 => Term::application(Term::function(Term::variable(0), of, above), merge),
        2 => Term::application(Term::function(merge, int(), above), Term::number(3)),
        3 => Term::fixpoint(merge, above),
        4 => {
            let as_function = Type::function(int(), above.clone());
            Term::application(Term::fixpoint(Term::function(merge, int(), above), as_function), Term::number(3))
        }
        5 => Term::projection(6, Term::merge(Term::record(6, merge), Term::number(2))),
        _ => Term::merge(Term::annotation(merge, of), Term::top()),
    }
}

/// A function that reads the field of its argument, or of something that has its argument in it; or a fixpoint of one.
fn reader(label: u8, of: &Type, random: &mut Random) -> Term {
    let variable = || Term::variable(0);
    let (merge, body) = match random.lower(6) {
        0 => (Type::intersection(of.clone(), top()), Term::merge(variable(), Term::top())),
        1 => {
            let own = Term::record(9, Term::number(8));
            (Type::intersection(Type::record(9, int()), of.clone()), Term::merge(own, variable()))
        }
        2 => (of.clone(), Term::annotation(variable(), of.clone())),
        _ => (of.clone(), variable()),
    };
    let output = read_type(label, &merge);
    let function = Term::function(Term::projection(label, body), of.clone(), output.clone());
    if random.once_in(3) {
        // The variable that the fixpoint binds is not used, for it would not come to an end.
        return Term::fixpoint(function, Type::function(of.clone(), output));
    }
    function
}

/// A read of a merge as it stands, of one that comes about by steps, or in a body.
fn one_read(random: &mut Random) -> Term {
    let label = *random.pick(&LABELS);
    let (merge, of) = a_merge(label, random);
    match random.lower(3) {
        0 => Term::projection(label, merge),
        1 => Term::projection(label, brought((merge, of), random)),
        _ => Term::application(reader(label, &of, random), merge),
    }
}

/// Reads inside reads: a merge in a field of a merge, and so on.
fn nested_reads(random: &mut Random) -> Term {
    let mut term = proper_value(random);
    let mut labels = Vec::new();
    for _ in 0..random.between(2, 5) {
        let label = *random.pick(&LABELS);
        let mut parts = others(label, random);
        if random.once_in(2) {
            parts.push(top_like_part(label, random));
        }
        parts.push(Term::record(label, term));
        term = merged(shuffled(parts, random), random);
        labels.push(label);
    }
    labels.into_iter().rev().fold(term, |term, label| {
        let term = if random.once_in(5) { brought(typed(term), random) } else { term };
        let label = if random.once_in(15) { *random.pick(&LABELS) } else { label };
        Term::projection(label, term)
    })
}

/// A fixpoint that reads a field of itself, which grows until there is no room.
fn own_read(random: &mut Random) -> Term {
    let [one, other] = [1, 2].map(|label| Type::record(label, int()));
    let own = Term::record(2, Term::projection(1, Term::variable(0)));
    let body = merged(shuffled(vec![Term::record(1, Term::number(5)), own], random), random);
    Term::projection(random.between(1, 3) as u8, Term::fixpoint(body, Type::intersection(one, other)))
}

/// A fixpoint of fields with functions in them that read one another from it; one of them read and applied.
fn fields_that_call(random: &mut Random) -> Term {
    let call = |label| {
        let read = Term::projection(label, Term::variable(1));
        Term::function(Term::application(read, Term::variable(0)), int(), int())
    };
    let first = if random.once_in(10) { call(2) } else { Term::function(Term::variable(0), int(), int()) };
    let fields = vec![Term::record(1, first), Term::record(2, call(1)), Term::record(3, call(2))];
    let as_field = |label| Type::record(label, Type::function(int(), int()));
    let at = Type::intersection(as_field(1), Type::intersection(as_field(2), as_field(3)));
    let fixed = Term::fixpoint(merged(shuffled(fields, random), random), at);
    Term::application(Term::projection(*random.pick(&[1, 2, 2, 3, 3, 4]), fixed), Term::number(3))
}

/// A merge applied: it is no function, whatever its parts.
fn merge_applied(random: &mut Random) -> Term {
    let (merge, of) = a_merge(1, random);
    let with_function = Term::merge(Term::function(Term::variable(0), int(), int()), Term::annotation(merge, of));
    Term::application(with_function, Term::number(3))
}

/// Many parts nested to the left, to the right or balanced, equal ones among them; the field at either end, anywhere, twice or nowhere.
fn deep_merge(random: &mut Random) -> Term {
    let most = if random.once_in(4) { 1_365 } else { 250 };
    let count = random.between(20, most);
    let fillers = [
        Term::top(),
        Term::number(1),
        Term::record(2, Term::number(1)),
        Term::record(1, Term::top()),
        Term::function(Term::variable(0), int(), top()),
    ];
    let kinds = random.between(1, fillers.len());
    let first = random.lower(fillers.len());
    let mut parts: Vec<Term> = (0..count).map(|place| fillers[(first + place % kinds) % fillers.len()].clone()).collect();
    for _ in 0..*random.pick(&[0, 1, 1, 1, 1, 2]) {
        let anywhere = random.lower(count);
        let place = *random.pick(&[0, count - 1, anywhere]);
        parts[place] = Term::record(1, Term::number(5));
    }
    let [left, right, balanced] = merges(&parts).map(|(_, merge)| merge);
    let merge = random.pick(&[left, right, balanced]).clone();
    let (merge, of) = typed(merge);
    let brings = random.once_in(3) && merge.size() + 2 * of.size() < SIZE_LIMIT;
    Term::projection(1, if brings { brought((merge, of), random) } else { merge })
}

/// Many labels, and one of them read, or one that is not there.
fn wide_merge(random: &mut Random) -> Term {
    let (count, first) = (random.between(10, 255), random.lower(256));
    let label = |place: usize| (first + place) as u8;
    let mut parts: Vec<Term> = (0..count).map(|place| Term::record(label(place), Term::number(place as i32))).collect();
    if random.once_in(3) {
        parts.insert(random.between(0, count), Term::top());
    }
    Term::projection(label(random.between(0, count)), merged(parts, random))
}

/// Any of these.
fn any_read(random: &mut Random) -> Term {
    match random.lower(200) {
        0..=1 => deep_merge(random),
        2..=4 => wide_merge(random),
        5 => own_read(random),
        6..=13 => merge_applied(random),
        14..=39 => {
            let annotated = random.once_in(3);
            hidden_fields_term(random, annotated)
        }
        40..=73 => nested_reads(random),
        74..=79 => fields_that_call(random),
        _ => one_read(random),
    }
}

/// A read of a merge, at times within others.
fn read_within(random: &mut Random) -> Term {
    let read = any_read(random);
    if read.size() > 200 || random.once_in(2) {
        return read;
    }
    let count = random.between(1, 4);
    within_many(typed(read), count, random).0
}

/// Field reads of merges, and books one change away from them.
pub fn reads_of_merges(random: &mut Random) -> Vec<Vec<u8>> {
    let read = read_within(random);
    if !random.once_in(8) || read.size() > SIZE_LIMIT {
        return one_book(&read, random);
    }
    let sharing = Sharing::any(random);
    let mut miss: Cells = encode(&read, sharing, random);
    changed(&mut miss, random);
    vec![miss.bytes()]
}
