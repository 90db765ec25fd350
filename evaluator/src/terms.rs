//! Types and terms as trees. A part may be shared between several owners, but nothing can tell a shared part from a copied one:
//! sizes and equality are those of the tree.

use crate::faults::{planted, Fault};
use crate::kinds::{kind, rows, Row};
use std::fmt::{self, Write};
use std::rc::Rc;

/// What a field of a node holds: nothing, a plain field, a number, which stands in the first, or a part.
#[derive(Clone, Copy)]
pub enum Part<'a> {
    None,
    Plain(u16),
    Number(i64),
    Type(&'a Type),
    Term(&'a Term),
}

impl Part<'_> {
    fn size(&self) -> u64 {
        match self {
            Part::None | Part::Plain(_) | Part::Number(_) => 0,
            Part::Type(t) => t.size(),
            Part::Term(e) => e.size(),
        }
    }

    fn plain(self) -> u16 {
        match self {
            Part::Plain(value) => value,
            _ => unreachable!("its row names a plain field"),
        }
    }

    fn number(self) -> i64 {
        match self {
            Part::Number(n) => n,
            _ => unreachable!("its row is that of a number"),
        }
    }

    fn to_type(self) -> Type {
        match self {
            Part::Type(t) => t.clone(),
            _ => unreachable!("its row names a type"),
        }
    }

    fn to_term(self) -> Term {
        match self {
            Part::Term(e) => e.clone(),
            _ => unreachable!("its row names a term"),
        }
    }
}

/// A type or term as the table of kinds sees it: its row, its label (0 where none is named), and its parts in place of references.
#[derive(Clone, Copy)]
pub struct Node<'a> {
    pub row: &'static Row,
    pub label: u8,
    pub fields: [Part<'a>; 3],
}

impl<'a> Node<'a> {
    fn leaf(row: &'static Row) -> Node<'a> {
        Node { row, label: 0, fields: [Part::None; 3] }
    }

    fn new(row: &'static Row, fields: [Part<'a>; 3]) -> Node<'a> {
        Node { row, label: 0, fields }
    }

    fn labelled(row: &'static Row, label: u8, content: Part<'a>) -> Node<'a> {
        Node { row, label, fields: [content, Part::None, Part::None] }
    }

    /// "The size of a term or type is its count of cells with sharing opened, types included." Held at the end of 64 bits.
    fn size(&self) -> u64 {
        self.fields.iter().fold(1, |size: u64, part| size.saturating_add(part.size()))
    }

    /// How many binders the variables of its parts need around it: "Kinds 21 and 23 bind one variable in a."
    fn open(&self) -> u32 {
        self.terms().map(|(_, binders, part)| part.open().saturating_sub(binders)).max().unwrap_or(0)
    }

    /// The parts that are terms, each with its field and the binders over it.
    pub fn terms(&self) -> impl DoubleEndedIterator<Item = (usize, u32, &'a Term)> {
        let Node { row, fields, .. } = *self;
        let term = move |(field, part)| match part {
            Part::Term(e) => Some((field, row.binders_over(field), e)),
            _ => None,
        };
        fields.into_iter().enumerate().filter_map(term)
    }
}

/// A type of the calculus.
#[derive(Clone, PartialEq, Eq)]
pub struct Type(Rc<TypeNode>);

#[derive(PartialEq, Eq)]
struct TypeNode {
    size: u64,
    shape: TypeShape,
}

/// The types of document 01's table.
#[derive(PartialEq, Eq)]
pub enum TypeShape {
    Int,
    Top,
    /// Input, output.
    Function(Type, Type),
    Intersection(Type, Type),
    Record(u8, Type),
}

impl TypeShape {
    fn node(&self) -> Node<'_> {
        match self {
            TypeShape::Int => Node::leaf(rows::INT),
            TypeShape::Top => Node::leaf(rows::TOP),
            TypeShape::Function(a, b) => Node::new(rows::FUNCTION_TYPE, [Part::Type(a), Part::Type(b), Part::None]),
            TypeShape::Intersection(a, b) => Node::new(rows::INTERSECTION, [Part::Type(a), Part::Type(b), Part::None]),
            TypeShape::Record(label, a) => Node::labelled(rows::RECORD_TYPE, *label, Part::Type(a)),
        }
    }

    fn of(Node { row, label, fields: [a, b, _] }: Node) -> TypeShape {
        match row.kind {
            kind::INT => TypeShape::Int,
            kind::TOP => TypeShape::Top,
            kind::FUNCTION_TYPE => TypeShape::Function(a.to_type(), b.to_type()),
            kind::INTERSECTION => TypeShape::Intersection(a.to_type(), b.to_type()),
            kind::RECORD_TYPE => TypeShape::Record(label, a.to_type()),
            _ => unreachable!("its row is that of a type"),
        }
    }
}

impl Type {
    fn new(shape: TypeShape) -> Type {
        Type(Rc::new(TypeNode { size: shape.node().size(), shape }))
    }

    /// The type that a node is.
    pub fn of(node: Node) -> Type {
        Type::new(TypeShape::of(node))
    }

    pub fn int() -> Type {
        Type::new(TypeShape::Int)
    }

    pub fn top() -> Type {
        Type::new(TypeShape::Top)
    }

    pub fn function(input: Type, output: Type) -> Type {
        Type::new(TypeShape::Function(input, output))
    }

    pub fn intersection(left: Type, right: Type) -> Type {
        Type::new(TypeShape::Intersection(left, right))
    }

    pub fn record(label: u8, content: Type) -> Type {
        Type::new(TypeShape::Record(label, content))
    }

    pub fn shape(&self) -> &TypeShape {
        &self.0.shape
    }

    /// The same only of what was decoded from one cell, and of clones.
    pub(crate) fn address(&self) -> *const () {
        Rc::as_ptr(&self.0).cast()
    }

    pub fn node(&self) -> Node<'_> {
        self.0.shape.node()
    }

    pub fn size(&self) -> u64 {
        self.0.size
    }
}

/// A term of the calculus. Variables count binders, 0 the innermost.
#[derive(Clone, PartialEq, Eq)]
pub struct Term(Rc<TermNode>);

struct TermNode {
    /// The cell it was decoded from; 0 for a term that a step made.
    cell: usize,
    size: u64,
    /// How many binders its variables need around it.
    open: u32,
    value: bool,
    shape: TermShape,
}

/// "As trees": the cell that a term was decoded from is no part of it.
impl PartialEq for TermNode {
    fn eq(&self, other: &TermNode) -> bool {
        self.size == other.size && self.shape == other.shape
    }
}

impl Eq for TermNode {}

/// The terms of document 01's table, and the two that document 02 adds.
#[derive(PartialEq, Eq)]
pub enum TermShape {
    Variable(u16),
    /// Of the range of its book's version.
    Number(i64),
    Top,
    Annotation(Term, Type),
    Application(Term, Term),
    /// Body, input type, output type.
    Function(Term, Type, Type),
    Merge(Term, Term),
    Fixpoint(Term, Type),
    Record(u8, Term),
    Projection(u8, Term),
    Sum(Term, Term),
    /// The part that is tested, then what it becomes for zero and for anything else.
    Choice(Term, Term, Term),
}

impl TermShape {
    fn node(&self) -> Node<'_> {
        match self {
            TermShape::Variable(skipped) => Node::new(rows::VARIABLE, [Part::Plain(*skipped), Part::None, Part::None]),
            TermShape::Number(n) => Node::new(rows::NUMBER, [Part::Number(*n), Part::None, Part::None]),
            TermShape::Top => Node::leaf(rows::TOP_VALUE),
            TermShape::Annotation(e, t) => Node::new(rows::ANNOTATION, [Part::Term(e), Part::Type(t), Part::None]),
            TermShape::Application(l, r) => Node::new(rows::APPLICATION, [Part::Term(l), Part::Term(r), Part::None]),
            TermShape::Function(e, i, o) => Node::new(rows::FUNCTION, [Part::Term(e), Part::Type(i), Part::Type(o)]),
            TermShape::Merge(l, r) => Node::new(rows::MERGE, [Part::Term(l), Part::Term(r), Part::None]),
            TermShape::Fixpoint(e, t) => Node::new(rows::FIXPOINT, [Part::Term(e), Part::Type(t), Part::None]),
            TermShape::Record(label, e) => Node::labelled(rows::RECORD, *label, Part::Term(e)),
            TermShape::Projection(label, e) => Node::labelled(rows::PROJECTION, *label, Part::Term(e)),
            TermShape::Sum(l, r) => Node::new(rows::SUM, [Part::Term(l), Part::Term(r), Part::None]),
            TermShape::Choice(a, b, c) => Node::new(rows::CHOICE, [Part::Term(a), Part::Term(b), Part::Term(c)]),
        }
    }

    fn of(Node { row, label, fields: [a, b, c] }: Node) -> TermShape {
        match row.kind {
            kind::VARIABLE => TermShape::Variable(a.plain()),
            kind::NUMBER => TermShape::Number(a.number()),
            kind::TOP_VALUE => TermShape::Top,
            kind::ANNOTATION => TermShape::Annotation(a.to_term(), b.to_type()),
            kind::APPLICATION => TermShape::Application(a.to_term(), b.to_term()),
            kind::FUNCTION => TermShape::Function(a.to_term(), b.to_type(), c.to_type()),
            kind::MERGE => TermShape::Merge(a.to_term(), b.to_term()),
            kind::FIXPOINT => TermShape::Fixpoint(a.to_term(), b.to_type()),
            kind::RECORD => TermShape::Record(label, a.to_term()),
            kind::PROJECTION => TermShape::Projection(label, a.to_term()),
            kind::SUM => TermShape::Sum(a.to_term(), b.to_term()),
            kind::CHOICE => TermShape::Choice(a.to_term(), b.to_term(), c.to_term()),
            _ => unreachable!("its row is that of a term"),
        }
    }
}

impl Term {
    /// The term that a node is, in this cell.
    pub fn at(cell: usize, node: Node) -> Term {
        Term::in_cell(cell, TermShape::of(node))
    }

    /// The term that a node is.
    pub fn of(node: Node) -> Term {
        Term::at(0, node)
    }

    fn in_cell(cell: usize, shape: TermShape) -> Term {
        let node = shape.node();
        let open = if let TermShape::Variable(skipped) = shape { u32::from(skipped) + 1 } else { node.open() };
        // "Values: numbers, the top value, functions, merges of values, records of values."
        let value = match &shape {
            TermShape::Number(_) | TermShape::Top | TermShape::Function(..) => true,
            TermShape::Merge(a, b) => a.is_value() && b.is_value(),
            TermShape::Record(_, e) => e.is_value(),
            _ => false,
        };
        Term(Rc::new(TermNode { cell, size: node.size(), open, value, shape }))
    }

    fn new(shape: TermShape) -> Term {
        Term::in_cell(0, shape)
    }

    pub fn variable(skipped: u16) -> Term {
        Term::new(TermShape::Variable(skipped))
    }

    pub fn number(n: impl Into<i64>) -> Term {
        Term::new(TermShape::Number(n.into()))
    }

    pub fn top() -> Term {
        Term::new(TermShape::Top)
    }

    pub fn annotation(term: Term, by: Type) -> Term {
        Term::new(TermShape::Annotation(term, by))
    }

    pub fn application(left: Term, right: Term) -> Term {
        Term::new(TermShape::Application(left, right))
    }

    pub fn function(body: Term, input: Type, output: Type) -> Term {
        Term::new(TermShape::Function(body, input, output))
    }

    pub fn merge(left: Term, right: Term) -> Term {
        Term::new(TermShape::Merge(left, right))
    }

    pub fn fixpoint(body: Term, at: Type) -> Term {
        Term::new(TermShape::Fixpoint(body, at))
    }

    pub fn record(label: u8, content: Term) -> Term {
        Term::new(TermShape::Record(label, content))
    }

    pub fn projection(label: u8, of: Term) -> Term {
        Term::new(TermShape::Projection(label, of))
    }

    pub fn sum(left: Term, right: Term) -> Term {
        Term::new(TermShape::Sum(left, right))
    }

    pub fn choice(test: Term, for_zero: Term, otherwise: Term) -> Term {
        Term::new(TermShape::Choice(test, for_zero, otherwise))
    }

    pub fn shape(&self) -> &TermShape {
        &self.0.shape
    }

    pub fn node(&self) -> Node<'_> {
        self.0.shape.node()
    }

    /// The same term with another part in this field.
    pub fn with_part(&self, field: usize, part: &Term) -> Term {
        let mut node = self.node();
        node.fields[field] = Part::Term(part);
        Term::of(node)
    }

    /// The same term with each part that is a term put through `to`, which is given the binders over the part.
    pub fn map(&self, to: impl Fn(&Term, u32) -> Term) -> Term {
        let mut node = self.node();
        let mut parts = [None, None, None];
        node.terms().for_each(|(field, binders, part)| parts[field] = Some(to(part, binders)));
        for (field, part) in node.fields.iter_mut().zip(&parts) {
            *field = part.as_ref().map_or(*field, Part::Term);
        }
        Term::of(node)
    }

    pub fn cell(&self) -> usize {
        self.0.cell
    }

    /// The same only of what was decoded from one cell, and of clones.
    pub(crate) fn address(&self) -> *const () {
        Rc::as_ptr(&self.0).cast()
    }

    pub fn size(&self) -> u64 {
        self.0.size
    }

    pub fn is_value(&self) -> bool {
        self.0.value
    }

    pub fn open(&self) -> u32 {
        self.0.open
    }

    /// No variable in it, function bodies included, reaches beyond it.
    pub fn is_closed(&self) -> bool {
        if planted(Fault::ClosedByTwoParts) {
            return self.open_by_two_parts() == 0;
        }
        self.0.open == 0
    }

    /// The binders that its variables need, those in the third part of a choice left out.
    fn open_by_two_parts(&self) -> u32 {
        let parts = self.node().terms().filter(|(field, ..)| *field < 2);
        let open = |(_, binders, part): (usize, u32, &Term)| part.open_by_two_parts().saturating_sub(binders);
        match self.shape() {
            TermShape::Variable(_) => self.0.open,
            _ => parts.map(open).max().unwrap_or(0),
        }
    }
}

impl fmt::Display for Part<'_> {
    fn fmt(&self, f: &mut fmt::Formatter<'_>) -> fmt::Result {
        match self {
            Part::None => Ok(()),
            Part::Plain(value) => write!(f, "{value}"),
            Part::Number(n) => write!(f, "{n}"),
            Part::Type(t) => write!(f, "{t}"),
            Part::Term(e) => write!(f, "{e}"),
        }
    }
}

/// By the notation of its row.
impl fmt::Display for Node<'_> {
    fn fmt(&self, f: &mut fmt::Formatter<'_>) -> fmt::Result {
        let [a, b, c] = self.fields;
        let mut notation = self.row.notation.chars();
        while let Some(letter) = notation.next() {
            match if letter == '$' { notation.next() } else { None } {
                None => f.write_char(letter)?,
                Some('l') => write!(f, "{}", self.label)?,
                Some('a' | 'n') => write!(f, "{a}")?,
                Some('b') => write!(f, "{b}")?,
                Some(_) => write!(f, "{c}")?,
            }
        }
        Ok(())
    }
}

/// Trees above this size are shown by their size alone.
const SHOWN: u64 = 400;

impl fmt::Display for Type {
    fn fmt(&self, f: &mut fmt::Formatter<'_>) -> fmt::Result {
        match self.size() {
            ..=SHOWN => write!(f, "{}", self.node()),
            size => write!(f, "<type of size {size}>"),
        }
    }
}

impl fmt::Debug for Type {
    fn fmt(&self, f: &mut fmt::Formatter<'_>) -> fmt::Result {
        fmt::Display::fmt(self, f)
    }
}

impl fmt::Display for Term {
    fn fmt(&self, f: &mut fmt::Formatter<'_>) -> fmt::Result {
        match self.size() {
            ..=SHOWN => write!(f, "{}", self.node()),
            size => write!(f, "<term of size {size}>"),
        }
    }
}

impl fmt::Debug for Term {
    fn fmt(&self, f: &mut fmt::Formatter<'_>) -> fmt::Result {
        fmt::Display::fmt(self, f)
    }
}
