//! Terms that step within others, in every place where a step can be taken, and room decided there.

use crate::cells::{encode, Sharing};
use crate::deepest::merges;
use crate::extremes::{left, times};
use crate::maker::{Maker, Weights, EVEN, LABELS};
use crate::random::Random;
use evaluator::{kind, subtype, successors, Term, Type, TypeShape, Version, SIZE_LIMIT};

/// A term and its type.
pub type Typed = (Term, Type);

fn int() -> Type {
    Type::int()
}

fn top() -> Type {
    Type::top()
}

/// Labels that the maker does not use: each different, so that what has them is disjoint from all else.
fn own_label(place: usize) -> u8 {
    100 + (place % 100) as u8
}

/// Something of type Top, or a record with a label of its own; at times it still steps.
fn beside(place: usize, random: &mut Random) -> Typed {
    let number = Term::number(random.lower(9) as i32);
    let stepping = if random.once_in(2) { Term::annotation(number.clone(), int()) } else { number };
    match random.lower(4) {
        0 => (Term::top(), top()),
        1 => (Term::annotation(stepping, top()), top()),
        2 => (Term::application(Term::top(), stepping), top()),
        _ => (Term::record(own_label(place), stepping), Type::record(own_label(place), int())),
    }
}

/// The term in a sum or choice: a part that runs, or the branch that is taken. What is not below Int stands in a field beside a number.
fn in_numbers((term, of): Typed, place: usize, random: &mut Random) -> Typed {
    let part = match subtype(&of, &int()) {
        true => term,
        false => Term::merge(Term::number(random.lower(3) as i32), Term::record(own_label(place), term)),
    };
    let number = Term::number(random.lower(5) as i32 - 2);
    let other = if random.once_in(2) { Term::annotation(number, int()) } else { number };
    let whole = match random.lower(5) {
        0 => Term::sum(part, other),
        1 => Term::sum(other, part),
        2 => Term::choice(part, other, Term::number(4)),
        3 => Term::choice(Term::number(0), part, other),
        _ => Term::choice(Term::number(-1), other, part),
    };
    (whole, int())
}

/// The term within one thing more, in which it steps first, once what is left of it is a value, or once it is chosen.
fn within((term, of): Typed, place: usize, random: &mut Random) -> Typed {
    let label = *random.pick(&LABELS);
    match random.lower(10) {
        0 => (Term::record(label, term), Type::record(label, of)),
        1 => (Term::projection(label, Term::record(label, term)), of),
        2 => {
            let above = Maker::new(random, EVEN, 4).supertype(&of);
            (Term::annotation(term, above.clone()), above)
        }
        3 => {
            let (other, at) = beside(place, random);
            (Term::merge(term, other), Type::intersection(of, at))
        }
        4 => {
            let (other, at) = beside(place, random);
            (Term::merge(other, term), Type::intersection(at, of))
        }
        5 => {
            let (body, output) = match random.lower(3) {
                0 => (Term::variable(0), of.clone()),
                1 => (Term::record(label, Term::variable(0)), Type::record(label, of.clone())),
                _ => (Term::number(3), int()),
            };
            (Term::application(Term::function(body, of, output.clone()), term), output)
        }
        6 => (Term::application(Term::top(), term), top()),
        7 => applied((term, of), random),
        8 => in_numbers((term, of), place, random),
        _ => {
            let (other, _) = beside(place, random);
            let record = Term::merge(Term::record(label, term), other);
            (Term::projection(label, Term::annotation(record, Type::record(label, of.clone()))), of)
        }
    }
}

/// The term applied: to what its type asks for, or as something of type Top.
fn applied((term, of): Typed, random: &mut Random) -> Typed {
    if let TypeShape::Function(input, output) = of.shape() {
        let argument = Maker::new(random, EVEN, 3).term(input);
        return (Term::application(term, argument), output.clone());
    }
    let any = if matches!(of.shape(), TypeShape::Top) { term } else { Term::annotation(term, top()) };
    let (argument, _) = beside(0, random);
    (if random.once_in(2) { Term::application(any, argument) } else { Term::projection(5, any) }, top())
}

/// The term within so many.
pub fn within_many(typed: Typed, count: usize, random: &mut Random) -> Typed {
    (0..count).fold(typed, |typed, place| within(typed, place, random))
}

/// The part that steps next: the leftmost of those that run that is no value.
pub fn redex(term: &Term) -> &Term {
    let node = term.node();
    let steps = |(field, _, part): (usize, u32, _)| (field < node.row.running && !Term::is_value(part)).then_some(part);
    node.terms().find_map(steps).map_or(term, redex)
}

fn one_book(term: &Term, random: &mut Random) -> Vec<Vec<u8>> {
    let sharing = Sharing::any(random);
    let term = if term.size() > 2 * SIZE_LIMIT { Term::top() } else { term.clone() };
    vec![encode(&term, sharing, random).bytes()]
}

/// Something that takes a few steps: of any form, or a fixpoint.
fn stepping(random: &mut Random) -> Typed {
    if random.once_in(4) {
        return unfolded(random);
    }
    let fuel = random.between(1, 12);
    let mut maker = Maker::new(random, Weights { annotation: 4, application: 4, projection: 4, ..EVEN }, fuel);
    let of = maker.a_type(2);
    let term = maker.term(&of);
    (Term::annotation(term, of.clone()), of)
}

/// A step within others, in any place.
pub fn contexts(random: &mut Random) -> Vec<Vec<u8>> {
    let count = if random.once_in(30) { random.between(20, 150) } else { random.between(1, 12) };
    let inside = stepping(random);
    let (term, _) = within_many(inside, count, random);
    one_book(&term, random)
}

/// A function under function types, each above the one before, under intersections of them, in a record, applied at last.
pub fn retyped_functions(random: &mut Random) -> Vec<Vec<u8>> {
    let mut maker = Maker::new(random, EVEN.of_type(kind::INTERSECTION, 5).of_type(kind::RECORD_TYPE, 5), 6);
    let (input, output) = (maker.a_type(2), maker.a_type(2));
    let mut of = Type::function(input, output);
    let mut term = maker.closed_value(&of);
    for _ in 0..maker.random.between(1, 8) {
        let mut above = Vec::new();
        for _ in 0..maker.random.between(1, 3) {
            let TypeShape::Function(i, o) = of.shape() else { break };
            above.push(Type::function(maker.subtype(i), maker.supertype(o)));
        }
        let [first, ..] = &above[..] else { break };
        let both = above.iter().cloned().reduce(Type::intersection).expect("a type");
        term = match maker.random.lower(4) {
            0 => Term::projection(4, Term::annotation(Term::record(4, term), Type::record(4, first.clone()))),
            1 => Term::annotation(Term::merge(term, Term::record(4, Term::number(1))), first.clone()),
            2 => Term::annotation(Term::annotation(term, both), first.clone()),
            _ => Term::annotation(term, first.clone()),
        };
        of = first.clone();
    }
    let mut typed = (term, of);
    if random.once_in(2) {
        typed = applied(typed, random);
    }
    let count = random.lower(4);
    let (term, _) = within_many(typed, count, random);
    one_book(&term, random)
}

/// Many parts, each with a step or two to take, merged to the left, to the right, balanced; read under some of their types.
pub fn many_parts(random: &mut Random) -> Vec<Vec<u8>> {
    let count = if random.once_in(10) { random.between(50, 100) } else { random.between(2, 30) };
    let mut parts: Vec<Typed> = Vec::new();
    for place in 0..count {
        let number = Term::number(random.lower(9) as i32);
        let label = own_label(place);
        let record = Type::record(label, int());
        parts.push(match random.lower(4) {
            0 => (Term::record(label, Term::annotation(number, int())), record),
            1 => (Term::annotation(Term::record(label, number), record.clone()), record),
            2 => (Term::annotation(number, top()), top()),
            _ => (Term::record(label, number), record),
        });
    }
    let mut types: Vec<Type> = parts.iter().map(|(_, of)| of.clone()).collect();
    let terms: Vec<Term> = parts.into_iter().map(|(term, _)| term).collect();
    types.rotate_left(random.lower(count));
    types.truncate(random.between(1, count));
    let under = types.into_iter().reduce(Type::intersection).expect("a type");
    let mut books = Vec::new();
    for (_, merge) in merges(&terms) {
        let term = if random.once_in(2) { Term::annotation(merge, under.clone()) } else { merge };
        books.extend(one_book(&term, random));
    }
    books
}

/// A fixpoint whose body is a number, the top value, a function that may call it, a record, a merge, a sum or a choice.
fn unfolded(random: &mut Random) -> Typed {
    let mut maker = Maker::new(random, EVEN, 5);
    let as_function = Type::function(int(), int());
    let one = |maker: &mut Maker, form: usize| match form {
        0 => (maker.number(), int()),
        1 => (Term::top(), top()),
        2 => {
            let of = maker.a_type(1);
            let of = Type::function(of, maker.a_type(1));
            (maker.closed_value(&of), of)
        }
        3 => (Term::function(Term::application(Term::variable(1), Term::variable(0)), int(), int()), as_function.clone()),
        _ => (Term::record(6, maker.number()), Type::record(6, int())),
    };
    let form = maker.random.lower(10);
    let (body, of) = match form {
        0..=4 => one(&mut maker, form),
        8 => (Term::sum(maker.number(), maker.number()), int()),
        9 => (Term::choice(maker.number(), maker.number(), maker.number()), int()),
        5 => {
            let (inside, of) = one(&mut maker, 2);
            (Term::record(7, inside), Type::record(7, of))
        }
        _ => {
            let ((a, s), (b, t)) = (one(&mut maker, 0), one(&mut maker, 4));
            (Term::merge(a, b), Type::intersection(s, t))
        }
    };
    let (body, of) = if maker.random.once_in(4) { (Term::annotation(body, of.clone()), of) } else { (body, of) };
    (Term::fixpoint(body, of.clone()), of)
}

/// Fixpoints that come to each kind of value, within others.
pub fn unfoldings(random: &mut Random) -> Vec<Vec<u8>> {
    let mut typed = unfolded(random);
    if random.once_in(3) {
        typed = applied(typed, random);
    }
    let count = random.lower(8);
    let (term, _) = within_many(typed, count, random);
    one_book(&term, random)
}

/// Something that grows by a step or more: a fixpoint, a value substituted several times or cast to several types; or that asks for no
/// room although its cast is huge.
fn growing(random: &mut Random) -> Typed {
    let as_function = Type::function(int(), int());
    let large = random.between(1, 60);
    let long = times(large, Term::top(), |e| Term::projection(3, e));
    let value = Term::function(Term::merge(Term::number(6), long), int(), int());
    let (copies, parts) = (random.between(2, 20), random.between(2, 30));
    match random.lower(7) {
        0 => {
            let at = left(&int(), copies);
            (Term::fixpoint(Term::variable(0), at.clone()), at)
        }
        1 => {
            let fields = (0..copies).map(|place| Term::record(own_label(place), Term::variable(0)));
            let body = fields.reduce(Term::merge).expect("a field");
            let output = Type::record(own_label(0), as_function.clone());
            (Term::application(Term::function(body, as_function, output.clone()), value), output)
        }
        2 => {
            let at = left(&as_function, parts);
            (Term::annotation(value, at.clone()), at)
        }
        3 => {
            let input = left(&as_function, parts);
            (Term::application(Term::function(Term::number(1), input, int()), value), int())
        }
        4 => (Term::fixpoint(Term::sum(Term::variable(0), Term::number(1)), int()), int()),
        5 => {
            let own = [Term::choice(Term::variable(0), Term::number(1), Term::number(2))];
            let [own] = if random.once_in(2) { own } else { own.map(|e| Term::choice(Term::number(1), Term::number(3), e)) };
            (Term::fixpoint(own, int()), int())
        }
        _ => unfolded(random),
    }
}

/// So many cells, at least one: a record, or records in one another, round a number.
fn field_of(cells: usize) -> Term {
    times(cells - 1, Term::number(1), |e| Term::record(own_label(60), e))
}

/// The term with so many cells more around it, all of them in one place: around it, before it or after it; if it is below Int, also in a sum
/// or choice. Whether it is still below Int.
fn padded((term, below_int): (Term, bool), cells: usize, random: &mut Random) -> (Term, bool) {
    if below_int && cells >= 5 && random.once_in(2) {
        return (in_large_number(term, cells, random), true);
    }
    match random.lower(if cells < 2 { 1 } else { 5 }) {
        0 => (times(cells, term, |e| Term::record(own_label(50), e)), false),
        1 => (Term::merge(field_of(cells - 1), term), below_int),
        2 => (Term::merge(term, field_of(cells - 1)), below_int),
        3 if cells.is_multiple_of(2) => (times(cells / 2, term, |e| Term::merge(Term::top(), e)), below_int),
        _ if cells.is_multiple_of(2) => (times(cells / 2, term, |e| Term::merge(e, Term::top())), below_int),
        _ => padded(padded((term, below_int), cells / 2, random), cells.div_ceil(2), random),
    }
}

/// The term in a sum or choice that has so many cells more, at least 5, nearly all of them in one other part.
fn in_large_number(term: Term, cells: usize, random: &mut Random) -> Term {
    let (large, small) = (|cells: usize| Term::merge(Term::number(2), field_of(cells - 2)), Term::number(3));
    match random.lower(5) {
        0 => Term::sum(term, large(cells - 1)),
        1 => Term::sum(large(cells - 1), term),
        2 => Term::choice(term, large(cells - 2), small),
        3 => Term::choice(term, small, large(cells - 2)),
        _ => Term::choice(large(cells - 2), small, term),
    }
}

/// The sizes of the terms that it reaches in a few steps.
fn sizes(term: &Term) -> Vec<u64> {
    let next = |term: &Term| successors(term, Version::One).pop();
    std::iter::successors(Some(term.clone()), next)
        .take(12)
        .map(|term| term.size())
        .take_while(|&size| size <= SIZE_LIMIT)
        .collect()
}

/// A step whose term has 4,094 to 4,097 cells, in any place: what is around it makes up the rest.
pub fn room_within(random: &mut Random) -> Vec<Vec<u8>> {
    let count = random.lower(6);
    let inside = growing(random);
    let (term, of) = within_many(inside, count, random);
    let most = sizes(&term).into_iter().max().unwrap_or(SIZE_LIMIT);
    let wanted = SIZE_LIMIT + random.lower(4) as u64 - 1;
    let mut term = (term, subtype(&of, &int()));
    let mut cells = (wanted - most) as usize;
    while cells > 0 {
        let part = if random.once_in(2) { cells } else { random.between(1, cells) };
        term = padded(term, part, random);
        cells -= part;
    }
    one_book(&term.0, random)
}
