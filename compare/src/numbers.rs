//! Sums and choices, which document 02 (ii) adds: at the ends of the range, within one another, in bodies, and with parts that are refused.

use crate::cells::{encode, encode_in, Cells, Sharing};
use crate::contexts::within_many;
use crate::families::{changed, one_book_in};
use crate::random::Random;
use crate::refusals::{by_turns, reversed};
use crate::samples::identity;
use crate::versions::wide_number;
use evaluator::{Answer, Term, TermShape, Type, Version, SIZE_LIMIT};
use std::cell::Cell;

fn int() -> Type {
    Type::int()
}

fn number(n: i32) -> Term {
    Term::number(n)
}

/// The term annotated Int.
fn as_int(term: Term) -> Term {
    Term::annotation(term, int())
}

/// A function from Int to Int.
pub fn function(body: Term) -> Term {
    Term::function(body, int(), int())
}

/// About both ends, about zero, about the ends of a field of 16 bits, and with a field that is zero.
const NUMBERS: [i32; 33] = [
    i32::MAX,
    0,
    i32::MIN,
    65_536,
    -1,
    1,
    i32::MAX - 1,
    i32::MIN + 1,
    -65_536,
    32_768,
    -32_768,
    2,
    -2,
    1 << 30,
    -(1 << 30),
    65_535,
    -65_535,
    (1 << 30) - 1,
    -(1 << 30) - 1,
    i32::MAX - 2,
    i32::MIN + 2,
    255,
    256,
    -256,
    32_767,
    -32_769,
    65_537,
    -65_537,
    131_072,
    -131_072,
    1 << 24,
    0x7FFF_0000,
    0x7FFF_8000,
];

/// A number with a field beside it, on either side.
fn with_field(n: i32, left: bool) -> Term {
    let field = Term::record(7, number(n.wrapping_add(1)));
    if left {
        Term::merge(number(n), field)
    } else {
        Term::merge(field, number(n))
    }
}

/// Every number tested, also as a merge; every number one past itself and back; every two summed, and their sum tested.
pub fn ends() -> Vec<Vec<u8>> {
    let (mut alone, mut pairs) = (Vec::new(), Vec::new());
    for n in NUMBERS {
        for test in [number(n), with_field(n, true), with_field(n, false), as_int(number(n))] {
            alone.push(Term::choice(test, number(5), number(6)));
        }
        for one in [1, -1] {
            alone.push(Term::sum(Term::sum(number(n), number(one)), number(-one)));
            alone.push(Term::sum(with_field(n, one > 0), with_field(one, one < 0)));
        }
    }
    for apart in 0..NUMBERS.len() {
        for (place, &m) in NUMBERS.iter().enumerate() {
            let sum = Term::sum(number(m), number(NUMBERS[(place + apart) % NUMBERS.len()]));
            pairs.push(Term::choice(sum.clone(), number(5), sum.clone()));
            pairs.push(sum);
        }
    }
    let mut random = Random::of(0, "", 0);
    by_turns(&[alone, pairs]).iter().map(|term| encode(term, Sharing::Sometimes, &mut random).bytes()).collect()
}

/// Terms of type Int, or below it, with as many sums and choices as there are of all else.
pub struct Arithmetic<'a> {
    random: &'a mut Random,
    /// Of the book that its numbers are for.
    version: Version,
    /// How many more choices may be taken; then a number or a variable ends the term.
    fuel: usize,
    /// How many variables there are, each of type Int.
    variables: u16,
    /// The label of the next field, each different.
    label: u8,
}

impl<'a> Arithmetic<'a> {
    pub fn new(random: &'a mut Random, fuel: usize, variables: u16) -> Arithmetic<'a> {
        Arithmetic { random, version: Version::One, fuel, variables, label: 100 }
    }

    /// For a book of this version.
    pub fn in_version(self, version: Version) -> Arithmetic<'a> {
        Arithmetic { version, ..self }
    }

    fn number(&mut self) -> i64 {
        match self.random.once_in(2) {
            true if self.version == Version::Two => wide_number(self.random),
            true => i64::from(*self.random.pick(&NUMBERS)),
            false => self.random.lower(7) as i64 - 3,
        }
    }

    fn leaf(&mut self) -> Term {
        if self.variables > 0 && self.random.once_in(2) {
            return Term::variable(self.random.lower(usize::from(self.variables)) as u16);
        }
        let number = Term::number(self.number());
        match self.random.lower(10) {
            0 => Term::merge(number.clone(), number),
            1 => self.beside(number),
            _ => number,
        }
    }

    /// A field beside the term, on either side.
    fn beside(&mut self, term: Term) -> Term {
        self.label = self.label.wrapping_add(1);
        let content = if self.random.once_in(2) { Term::number(self.number()) } else { self.term() };
        let field = Term::record(self.label, content);
        if self.random.once_in(2) {
            Term::merge(term, field)
        } else {
            Term::merge(field, term)
        }
    }

    /// What a choice tests: often zero, at once or as a sum.
    fn test(&mut self) -> Term {
        let n = self.number();
        // That of the least number is itself.
        let negative = self.version.number(self.version.fields(-n));
        match self.random.lower(6) {
            0 => number(0),
            1 => Term::sum(Term::number(n), Term::number(negative)),
            _ => self.term(),
        }
    }

    pub fn term(&mut self) -> Term {
        if self.fuel == 0 {
            return self.leaf();
        }
        self.fuel -= 1;
        match self.random.lower(12) {
            0 => self.leaf(),
            1..=4 => Term::sum(self.term(), self.term()),
            5..=8 => Term::choice(self.test(), self.term(), self.term()),
            9 => as_int(self.term()),
            10 => {
                let term = self.term();
                self.beside(term)
            }
            _ => {
                self.variables += 1;
                let body = self.term();
                self.variables -= 1;
                Term::application(function(body), self.term())
            }
        }
    }
}

pub fn arithmetic_term(version: Version, random: &mut Random) -> Term {
    let most = if random.once_in(20) { 200 } else { 25 };
    let fuel = random.between(1, most);
    Arithmetic::new(random, fuel, 0).in_version(version).term()
}

/// Sums and choices in one another, at times within others, and books one change away from them.
pub fn arithmetic(version: Version, random: &mut Random) -> Vec<Vec<u8>> {
    let mut term = arithmetic_term(version, random);
    if random.once_in(3) && term.size() < 200 {
        let count = random.between(1, 4);
        term = within_many((as_int(term), int()), count, random).0;
    }
    or_changed(version, &term, random)
}

/// The book of the term, or one change away from it.
fn or_changed(version: Version, term: &Term, random: &mut Random) -> Vec<Vec<u8>> {
    if !random.once_in(8) || term.size() > SIZE_LIMIT {
        return one_book_in(version, term, random);
    }
    let sharing = Sharing::any(random);
    let mut miss: Cells = encode_in(version, term, sharing, random);
    changed(&mut miss, random);
    vec![miss.bytes()]
}

/// How many terms there are in it, itself included.
fn count(term: &Term) -> usize {
    term.node().terms().map(|(.., part)| count(part)).sum::<usize>() + 1
}

/// The term with what stands at this place, parts before wholes, put through `to`, which is given the binders over it.
fn replaced(term: &Term, binders: u32, place: &Cell<usize>, to: &dyn Fn(&Term, u32) -> Term) -> Term {
    let whole = term.map(|part, more| replaced(part, binders + more, place, to));
    let at = place.get();
    place.set(at.wrapping_sub(1));
    if at == 0 {
        to(term, binders)
    } else {
        whole
    }
}

fn replaced_at_random(term: &Term, random: &mut Random, to: &dyn Fn(&Term, u32) -> Term) -> Term {
    replaced(term, 0, &Cell::new(random.lower(count(term))), to)
}

/// One thing different: a number, the order of a sum, a choice or a merge, an annotation more.
fn different(term: &Term) -> Term {
    match term.shape() {
        TermShape::Number(n) => number((*n as i32).wrapping_add(1)),
        TermShape::Variable(_) => number(0),
        TermShape::Sum(a, b) => Term::sum(b.clone(), a.clone()),
        TermShape::Choice(a, b, c) => Term::choice(a.clone(), c.clone(), b.clone()),
        TermShape::Merge(a, b) => Term::merge(b.clone(), a.clone()),
        TermShape::Annotation(e, _) => e.clone(),
        _ => as_int(term.clone()),
    }
}

/// The body of a function of one argument.
fn body(random: &mut Random) -> Term {
    let fuel = random.between(1, 10);
    Arithmetic::new(random, fuel, 1).term()
}

/// Two functions or more merged, their bodies equal or with one thing different; by themselves, as one function, or applied.
fn merged_functions(random: &mut Random) -> Term {
    let first = body(random);
    let mut merge = function(first.clone());
    for _ in 0..random.between(1, 2) {
        let same = random.once_in(2);
        let body = if same { first.clone() } else { replaced_at_random(&first, random, &|e, _| different(e)) };
        let output = if random.once_in(5) { Type::top() } else { int() };
        merge = Term::merge(merge, Term::function(body, int(), output));
    }
    let as_one = Term::annotation(merge.clone(), Type::function(int(), int()));
    match random.lower(3) {
        0 => merge,
        1 => as_one,
        _ => Term::application(as_one, arithmetic_argument(random)),
    }
}

fn arithmetic_argument(random: &mut Random) -> Term {
    let fuel = random.lower(4);
    Arithmetic::new(random, fuel, 0).term()
}

/// In a function, another merged with itself: closed, or with a variable of the outer one in one place. Applied at times.
fn function_in_function(random: &mut Random) -> Term {
    let own = body(random);
    let outer = |_: &Term, binders: u32| Term::variable(binders as u16 + 1);
    let body = if random.once_in(2) { replaced_at_random(&own, random, &outer) } else { own };
    let twice = Term::merge(function(body.clone()), function(body));
    let whole = Term::function(Term::annotation(twice, Type::function(int(), int())), int(), Type::function(int(), int()));
    match random.lower(3) {
        0 => whole,
        _ => Term::application(Term::application(whole, arithmetic_argument(random)), arithmetic_argument(random)),
    }
}

/// A function whose body has sums and choices of its variables, applied: of one argument, or of two.
fn applied(random: &mut Random) -> Term {
    if random.once_in(2) {
        return Term::application(function(body(random)), arithmetic_argument(random));
    }
    let fuel = random.between(2, 14);
    let inner = function(Arithmetic::new(random, fuel, 2).term());
    let outer = Term::function(inner, int(), Type::function(int(), int()));
    Term::application(Term::application(outer, arithmetic_argument(random)), arithmetic_argument(random))
}

pub fn bodies_term(random: &mut Random) -> Term {
    match random.lower(6) {
        0..=2 => merged_functions(random),
        3 | 4 => function_in_function(random),
        _ => applied(random),
    }
}

/// Sums and choices in bodies of functions that are applied and compared, and books one change away from them.
pub fn bodies(random: &mut Random) -> Vec<Vec<u8>> {
    let term = bodies_term(random);
    or_changed(Version::One, &term, random)
}

/// A book with the refusal that it gets.
pub struct Refused {
    pub book: Vec<u8>,
    pub answer: Answer,
}

/// A term that is refused as a part of a sum or choice: its number, and the way to the cell named, from field to field.
type Part = (Term, u8, Vec<usize>);

fn refused_parts() -> Vec<Part> {
    let [unbound, top] = [Term::variable(9), Term::top()];
    vec![
        (unbound.clone(), 11, vec![]),
        (top.clone(), 15, vec![]),
        (Term::application(number(4), number(5)), 12, vec![]),
        (Term::record(1, number(2)), 15, vec![]),
        (Term::projection(1, number(3)), 13, vec![]),
        (identity(), 15, vec![]),
        (Term::merge(number(7), number(8)), 14, vec![]),
        (Term::annotation(number(1), Type::top()), 15, vec![]),
        (as_int(top.clone()), 15, vec![0]),
        (Term::merge(top.clone(), Term::record(3, number(4))), 15, vec![]),
        (Term::application(identity(), top.clone()), 15, vec![1]),
        (Term::sum(number(1), top.clone()), 15, vec![1]),
        (Term::sum(top.clone(), unbound.clone()), 15, vec![0]),
        (Term::choice(number(0), number(1), top.clone()), 15, vec![2]),
        (Term::choice(number(0), top, unbound), 15, vec![1]),
    ]
}

/// The sum or choice with these parts, good ones where there is none, and what is found first.
fn with_parts(parts: &[Option<&Part>]) -> Part {
    let good = [number(0), with_field(1, true), as_int(number(2))];
    let terms: Vec<Term> = parts.iter().zip(&good).map(|(part, good)| part.map_or(good, |(term, ..)| term).clone()).collect();
    let term = match &terms[..] {
        [a, b] => Term::sum(a.clone(), b.clone()),
        [a, b, c] => Term::choice(a.clone(), b.clone(), c.clone()),
        _ => unreachable!("two parts or three"),
    };
    let first = parts.iter().enumerate().find_map(|(field, part)| part.map(|(_, number, way)| (field, *number, way)));
    let (field, number, way) = first.expect("a part that is refused");
    (term, number, [&[field][..], way].concat())
}

/// Every place with every refused part; every two places with every two, so that the first are of all kinds; and three at once.
fn with_refused_parts() -> [Vec<Part>; 3] {
    let parts = refused_parts();
    let (mut one, mut two, mut three) = (Vec::new(), Vec::new(), Vec::new());
    for part in &parts {
        let part = Some(part);
        one.extend([[part, None], [None, part]].map(|parts| with_parts(&parts)));
        one.extend([[part, None, None], [None, part, None], [None, None, part]].map(|parts| with_parts(&parts)));
    }
    for apart in 1..=parts.len() {
        for (place, first) in parts.iter().enumerate() {
            let [first, second] = [first, &parts[(place + apart) % parts.len()]].map(Some);
            two.push(with_parts(&[first, second]));
            two.extend([[first, second, None], [first, None, second], [None, first, second]].map(|parts| with_parts(&parts)));
            if apart <= 4 {
                three.push(with_parts(&[first, second, first]));
            }
        }
    }
    [one, two, three]
}

/// The part within something more, by turns; at last behind what is refused before it.
fn around((term, number, way): Part, turn: usize) -> Part {
    let within = |whole: Term, field: usize| (whole, number, [&[field][..], &way].concat());
    match turn % 5 {
        0 => within(function(term), 0),
        1 => within(Term::choice(Term::number(0), Term::number(1), term), 2),
        2 => within(Term::record(1, term), 0),
        3 => within(Term::sum(as_int(Term::number(1)), term), 1),
        _ => (Term::choice(Term::variable(9), Term::top(), term), 11, vec![0]),
    }
}

/// Sums and choices with one part that is refused, or several, in order, reversed, or shared, with what the documents say is found first.
pub fn refused() -> Vec<Refused> {
    let mut random = Random::of(0, "", 0);
    let mut all = Vec::new();
    for (turn, part) in by_turns(&with_refused_parts()).into_iter().enumerate() {
        for (term, number, way) in [part.clone(), around(part, turn)] {
            let unshared = encode(&term, Sharing::Never, &mut random);
            let book = match turn % 3 {
                0 => unshared,
                1 => reversed(&unshared),
                _ => encode(&term, Sharing::Always, &mut random),
            };
            let named = way.iter().fold(book.root, |cell, &field| book.cells[usize::from(cell)].fields[field]);
            all.push(Refused { book: book.bytes(), answer: Answer::Refused { number, cell: usize::from(named) } });
        }
    }
    all
}
