//! The table of kinds of docs/FORMAT.md: what a cell's fields are. It says how a book is written down; what a book means, and whether it is
//! accepted, only the library says.

/// What a cell is: a type or a term.
#[derive(Clone, Copy, PartialEq, Eq, Debug)]
pub enum Sort {
    Type,
    Term,
}

/// What a kind has beside its references.
#[derive(Clone, Copy, PartialEq, Eq, Debug)]
pub enum Datum {
    None,
    /// In byte 1.
    Label,
    /// The binders that a variable skips, in field a.
    Skipped,
    /// A number: its place is the version's.
    Number,
}

#[derive(Clone, Copy, PartialEq, Eq, Hash, Debug)]
#[repr(u8)]
pub enum Kind {
    Int = 1,
    Top = 2,
    Arrow = 3,
    And = 4,
    RecordType = 5,
    Variable = 16,
    Number = 17,
    TopValue = 18,
    Annotation = 19,
    Application = 20,
    Function = 21,
    Merge = 22,
    Fixpoint = 23,
    Record = 24,
    Read = 25,
    Sum = 26,
    Choice = 27,
}

/// A row of the table. The references stand in the fields a, b, c, in that order.
pub struct Row {
    pub kind: Kind,
    pub sort: Sort,
    pub name: &'static str,
    pub datum: Datum,
    pub references: &'static [(Sort, &'static str)],
}

use Sort::{Term, Type};

const fn row(kind: Kind, sort: Sort, name: &'static str, datum: Datum, references: &'static [(Sort, &'static str)]) -> Row {
    Row { kind, sort, name, datum, references }
}

/// The kinds of types, and then those of terms, have numbers without gaps.
const FIRST_TYPE: usize = Kind::Int as usize;
const FIRST_TERM: usize = Kind::Variable as usize;
const TYPES: usize = 5;

pub const KINDS: [Row; 17] = [
    row(Kind::Int, Type, "Int", Datum::None, &[]),
    row(Kind::Top, Type, "Top", Datum::None, &[]),
    row(Kind::Arrow, Type, "function type", Datum::None, &[(Type, "input"), (Type, "output")]),
    row(Kind::And, Type, "intersection", Datum::None, &[(Type, "left half"), (Type, "right half")]),
    row(Kind::RecordType, Type, "record type", Datum::Label, &[(Type, "content")]),
    row(Kind::Variable, Term, "variable", Datum::Skipped, &[]),
    row(Kind::Number, Term, "number", Datum::Number, &[]),
    row(Kind::TopValue, Term, "top value", Datum::None, &[]),
    row(Kind::Annotation, Term, "annotation", Datum::None, &[(Term, "term"), (Type, "type")]),
    row(Kind::Application, Term, "application", Datum::None, &[(Term, "function"), (Term, "argument")]),
    row(Kind::Function, Term, "function", Datum::None, &[(Term, "body"), (Type, "input"), (Type, "output")]),
    row(Kind::Merge, Term, "merge", Datum::None, &[(Term, "left half"), (Term, "right half")]),
    row(Kind::Fixpoint, Term, "fixpoint", Datum::None, &[(Term, "body"), (Type, "type")]),
    row(Kind::Record, Term, "record", Datum::Label, &[(Term, "content")]),
    row(Kind::Read, Term, "field read", Datum::Label, &[(Term, "read from")]),
    row(Kind::Sum, Term, "sum", Datum::None, &[(Term, "left side"), (Term, "right side")]),
    row(Kind::Choice, Term, "choice", Datum::None, &[(Term, "tested"), (Term, "for zero"), (Term, "for anything else")]),
];

impl Kind {
    /// The row of a kind.
    pub fn row(self) -> &'static Row {
        let code = self as usize;
        &KINDS[if code < FIRST_TERM { code - FIRST_TYPE } else { code - FIRST_TERM + TYPES }]
    }

    /// Whether a function or a fixpoint, which binds a variable.
    pub fn binds(self) -> bool {
        matches!(self, Kind::Function | Kind::Fixpoint)
    }

    /// How many binders more are around a reference: one around a body, the first.
    pub fn binders_over(self, place: usize) -> usize {
        usize::from(self.binds() && place == 0)
    }
}

/// The row with this number, if there is one.
pub fn known(code: u8) -> Option<&'static Row> {
    KINDS.iter().find(|row| row.kind as u8 == code)
}
