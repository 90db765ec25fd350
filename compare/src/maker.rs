//! Types and typed terms made at random.

use crate::random::Random;
use crate::versions::wide_number;
use evaluator::{casts, disjoint, infer, kind, subtype, top_like, Field, Node, Part, Sort, Term, Type, TypeShape, Version, TABLE};

/// How often each choice is taken.
#[derive(Clone, Copy)]
pub struct Weights {
    /// Types: a weight for each row of the table, 0 for those of terms.
    pub types: [u32; TABLE.len()],
    // Terms: the form that the type itself suggests, then the ways round it.
    pub plain: u32,
    pub variable: u32,
    pub annotation: u32,
    pub application: u32,
    pub projection: u32,
    pub merge: u32,
    pub fixpoint: u32,
    pub duplicate: u32,
    // Where Int is below the type.
    pub sum: u32,
    pub choice: u32,
}

impl Weights {
    /// With this weight for a kind of types.
    pub const fn of_type(mut self, kind: u8, weight: u32) -> Weights {
        let mut place = 0;
        while TABLE[place].kind != kind {
            place += 1;
        }
        self.types[place] = weight;
        self
    }
}

/// A bit of everything.
pub const EVEN: Weights = Weights {
    types: each_type(),
    plain: 4,
    variable: 4,
    annotation: 2,
    application: 3,
    projection: 2,
    merge: 2,
    fixpoint: 1,
    duplicate: 1,
    sum: 2,
    choice: 1,
}
.of_type(kind::INT, 6)
.of_type(kind::FUNCTION_TYPE, 2)
.of_type(kind::INTERSECTION, 3)
.of_type(kind::RECORD_TYPE, 3);

/// Every kind of types alike.
const fn each_type() -> [u32; TABLE.len()] {
    let mut types = [0; TABLE.len()];
    let mut place = 0;
    while place < TABLE.len() {
        types[place] = matches!(TABLE[place].sort, Sort::Type) as u32;
        place += 1;
    }
    types
}

/// Few labels, so that they meet.
pub const LABELS: [u8; 5] = [1, 2, 3, 7, 255];

pub struct Maker<'a> {
    pub random: &'a mut Random,
    pub weights: Weights,
    /// The types of the binders around the term being made, outermost first.
    binders: Vec<Type>,
    /// How many more choices may be taken; then the shortest form is.
    pub fuel: usize,
    /// Of the book that its numbers are for.
    version: Version,
}

impl<'a> Maker<'a> {
    pub fn new(random: &'a mut Random, weights: Weights, fuel: usize) -> Maker<'a> {
        Maker { random, weights, binders: Vec::new(), fuel, version: Version::One }
    }

    /// For a book of this version.
    pub fn in_version(self, version: Version) -> Maker<'a> {
        Maker { version, ..self }
    }

    pub fn label(&mut self) -> u8 {
        *self.random.pick(&LABELS)
    }

    pub fn number(&mut self) -> Term {
        if self.version == Version::Two && self.random.once_in(3) {
            return Term::number(wide_number(self.random));
        }
        let far = [i32::MIN, i32::MAX, 65_535, 65_536, -65_536];
        Term::number(if self.random.once_in(20) { *self.random.pick(&far) } else { self.random.lower(6) as i32 - 1 })
    }

    /// A type nested at most so deep.
    pub fn a_type(&mut self, depth: usize) -> Type {
        let weighed = TABLE.iter().zip(self.weights.types);
        let weights: Vec<u32> = weighed.map(|(row, weight)| if depth > 0 || row.is_leaf() { weight } else { 0 }).collect();
        let row = &TABLE[self.random.weighed(&weights)];
        let label = if row.labelled { self.label() } else { 0 };
        let parts = row.fields.map(|field| matches!(field, Field::Reference(_)).then(|| self.a_type(depth - 1)));
        let fields = parts.each_ref().map(|part| part.as_ref().map_or(Part::None, Part::Type));
        Type::of(Node { row, label, fields })
    }

    /// A type above this one.
    pub fn supertype(&mut self, t: &Type) -> Type {
        match (self.random.lower(8), t.shape()) {
            (0, _) => Type::top(),
            (1, _) => {
                let (input, label) = (self.a_type(1), self.label());
                if self.random.once_in(2) {
                    Type::function(input, Type::top())
                } else {
                    Type::record(label, Type::top())
                }
            }
            (2, _) => Type::intersection(self.supertype(t), self.supertype(t)),
            (3..=6, TypeShape::Intersection(a, b)) => match self.random.lower(3) {
                0 => self.supertype(a),
                1 => self.supertype(b),
                _ => Type::intersection(self.supertype(a), self.supertype(b)),
            },
            (3..=6, TypeShape::Function(i, o)) => Type::function(self.subtype(i), self.supertype(o)),
            (3..=6, TypeShape::Record(l, c)) => Type::record(*l, self.supertype(c)),
            _ => t.clone(),
        }
    }

    /// A type below this one.
    pub fn subtype(&mut self, t: &Type) -> Type {
        match (self.random.lower(8), t.shape()) {
            (0, _) => Type::intersection(t.clone(), self.a_type(1)),
            (1, _) => Type::intersection(self.a_type(1), t.clone()),
            (2..=5, TypeShape::Intersection(a, b)) => Type::intersection(self.subtype(a), self.subtype(b)),
            (2..=5, TypeShape::Function(i, o)) => Type::function(self.supertype(i), self.subtype(o)),
            (2..=5, TypeShape::Record(l, c)) => Type::record(*l, self.subtype(c)),
            (2..=4, TypeShape::Top) => self.a_type(2),
            _ => t.clone(),
        }
    }

    /// The type that the term has here, if it is typed.
    pub fn inferred(&mut self, e: &Term) -> Option<Type> {
        infer(&mut self.binders, e).ok()
    }

    fn fits(&mut self, e: &Term, wanted: &Type) -> bool {
        self.inferred(e).is_some_and(|inferred| subtype(&inferred, wanted))
    }

    fn within<R>(&mut self, binder: &Type, make: impl FnOnce(&mut Self) -> R) -> R {
        self.binders.push(binder.clone());
        let made = make(self);
        self.binders.pop();
        made
    }

    /// A term that checks against this type: nearly always, and if not, that is a book too.
    pub fn term(&mut self, wanted: &Type) -> Term {
        if self.fuel == 0 {
            return self.variable(wanted).unwrap_or_else(|| self.plain(wanted));
        }
        self.fuel -= 1;
        let Weights { plain, variable, annotation, application, projection, merge, fixpoint, duplicate, .. } = self.weights;
        let [sum, choice] = if subtype(&Type::int(), wanted) { [self.weights.sum, self.weights.choice] } else { [0, 0] };
        match self.random.weighed(&[plain, variable, annotation, application, projection, merge, fixpoint, duplicate, sum, choice])
        {
            0 => self.plain(wanted),
            1 => self.variable(wanted).unwrap_or_else(|| self.plain(wanted)),
            2 => {
                let by = if self.random.once_in(2) { self.subtype(wanted) } else { wanted.clone() };
                Term::annotation(self.term(&by), by)
            }
            3 => self.application(wanted),
            4 => self.projection(wanted),
            5 => self.merge(wanted),
            6 => Term::fixpoint(self.within(wanted, |maker| maker.term(wanted)), wanted.clone()),
            7 => self.duplicate(wanted),
            8 => Term::sum(self.operand(), self.operand()),
            _ => Term::choice(self.operand(), self.operand(), self.operand()),
        }
    }

    /// A part of a sum or choice: of type Int, or below it.
    fn operand(&mut self) -> Term {
        let int = Type::int();
        let of = if self.random.once_in(4) { self.subtype(&int) } else { int };
        self.term(&of)
    }

    /// A binder's variable, if one fits.
    fn variable(&mut self, wanted: &Type) -> Option<Term> {
        let skipped = |(skipped, binder): (usize, &Type)| subtype(binder, wanted).then_some(skipped as u16);
        let fitting: Vec<u16> = self.binders.iter().rev().enumerate().filter_map(skipped).collect();
        (!fitting.is_empty()).then(|| Term::variable(*self.random.pick(&fitting)))
    }

    /// The form that the type suggests.
    fn plain(&mut self, wanted: &Type) -> Term {
        let short = self.fuel == 0;
        match wanted.shape() {
            TypeShape::Int => self.number(),
            TypeShape::Top if short || self.random.once_in(3) => Term::top(),
            TypeShape::Top => {
                let any = self.a_type(2);
                self.term(&any)
            }
            _ if top_like(wanted) && self.random.once_in(3) => Term::top(),
            TypeShape::Function(i, o) => {
                let input = if short || self.random.once_in(2) { i.clone() } else { self.supertype(i) };
                let output = if short || self.random.once_in(2) { o.clone() } else { self.subtype(o) };
                Term::function(self.within(&input, |maker| maker.term(&output)), input, output)
            }
            TypeShape::Record(l, c) => Term::record(*l, self.term(c)),
            TypeShape::Intersection(a, b) => {
                let (left, right) = (self.term(a), self.term(b));
                let both = Term::merge(left.clone(), right.clone());
                if self.inferred(&both).is_some() {
                    both
                } else if self.fits(&left, wanted) {
                    left
                } else if self.fits(&right, wanted) {
                    right
                } else {
                    // The one form that every type has.
                    self.variable(wanted).unwrap_or_else(|| Term::fixpoint(Term::variable(0), wanted.clone()))
                }
            }
        }
    }

    /// Something applied.
    fn application(&mut self, wanted: &Type) -> Term {
        let depth = self.random.between(0, 2);
        let (input, output) = (self.a_type(depth), if self.random.once_in(3) { self.subtype(wanted) } else { wanted.clone() });
        let as_function = Type::function(input, output);
        let left = self.term(&as_function);
        let inferred = self.inferred(&left);
        let (left, input) = match inferred.as_ref().map(|inferred| inferred.shape()) {
            Some(TypeShape::Function(i, o)) if subtype(o, wanted) => (left, i.clone()),
            Some(TypeShape::Top) if top_like(wanted) => (left, Type::top()),
            _ => {
                let TypeShape::Function(input, _) = as_function.shape() else { unreachable!() };
                let input = input.clone();
                (Term::annotation(left, as_function), input)
            }
        };
        let argument = if self.random.once_in(2) { self.subtype(&input) } else { input };
        Term::application(left, self.term(&argument))
    }

    /// A field read.
    fn projection(&mut self, wanted: &Type) -> Term {
        let label = self.label();
        let as_record = Type::record(label, if self.random.once_in(3) { self.subtype(wanted) } else { wanted.clone() });
        let of = self.term(&as_record);
        match self.inferred(&of).as_ref().map(|inferred| inferred.shape()) {
            Some(TypeShape::Record(l, c)) if *l == label && subtype(c, wanted) => Term::projection(label, of),
            Some(TypeShape::Top) if top_like(wanted) => Term::projection(label, of),
            _ => Term::projection(label, Term::annotation(of, as_record)),
        }
    }

    /// Merged with something that the wanted type does not ask for.
    fn merge(&mut self, wanted: &Type) -> Term {
        let one = self.term(wanted);
        let Some(inferred) = self.inferred(&one) else { return one };
        for _ in 0..3 {
            let beside = self.a_type(2);
            if !disjoint(&inferred, &beside) {
                continue;
            }
            let other = self.term(&beside);
            let both = self.either_way(one.clone(), other);
            if self.inferred(&both).is_some() {
                return both;
            }
        }
        let hidden = self.a_type(1);
        let hidden = Term::annotation(self.term(&hidden), Type::top());
        self.either_way(one, hidden)
    }

    pub fn either_way(&mut self, one: Term, other: Term) -> Term {
        if self.random.once_in(2) {
            Term::merge(one, other)
        } else {
            Term::merge(other, one)
        }
    }

    /// A closed value merged with a cast of itself: consistent, and seldom disjoint.
    pub fn duplicate(&mut self, wanted: &Type) -> Term {
        let value = self.closed_value(wanted);
        let Some(inferred) = self.inferred(&value) else { return value };
        let other = if self.random.once_in(3) {
            value.clone()
        } else {
            let above = self.supertype(&inferred);
            casts(&value, &above).pop().unwrap_or_else(|| value.clone())
        };
        self.either_way(value, other)
    }

    /// A value without free variables, if the type has one that is easily made.
    pub fn closed_value(&mut self, wanted: &Type) -> Term {
        let binders = std::mem::take(&mut self.binders);
        let value = self.value(wanted);
        self.binders = binders;
        value
    }

    /// A value of this type; function bodies are any terms.
    fn value(&mut self, wanted: &Type) -> Term {
        match wanted.shape() {
            TypeShape::Int => self.number(),
            TypeShape::Top if self.random.once_in(2) => Term::top(),
            TypeShape::Top => {
                let any = self.a_type(1);
                self.value(&any)
            }
            TypeShape::Function(i, o) => {
                let (input, output) = (self.supertype(i), self.subtype(o));
                Term::function(self.within(&input, |maker| maker.term(&output)), input, output)
            }
            TypeShape::Record(l, c) => Term::record(*l, self.value(c)),
            TypeShape::Intersection(a, b) => {
                let left = self.value(a);
                if self.fits(&left, wanted) {
                    return left;
                }
                let right = self.value(b);
                Term::merge(left, right)
            }
        }
    }
}
