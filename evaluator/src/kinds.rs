//! Document 01's table of kinds, with the two kinds that document 02 (ii) adds: what is known of a kind of cell stands in its row. Decoding,
//! sizes, binders, the parts that run, encoding and printing go by the rows, and so does the comparison, which has no list of kinds of its own.

use crate::versions::Version;

/// What a cell is, and what a reference asks for.
#[derive(Clone, Copy, PartialEq, Eq, Debug)]
pub enum Sort {
    Type,
    Term,
}

/// What a field of a cell holds.
#[derive(Clone, Copy, PartialEq, Eq, Debug)]
pub enum Field {
    /// "Fields not named are zero."
    Unnamed,
    /// Any value: a count of binders, 16 bits of a number.
    Plain,
    /// The number of a lower cell of this sort.
    Reference(Sort),
}

impl Field {
    /// The sort that it refers to, if it is a reference.
    pub fn sort(self) -> Option<Sort> {
        match self {
            Field::Reference(sort) => Some(sort),
            Field::Unnamed | Field::Plain => None,
        }
    }
}

/// A row of the table.
#[derive(Clone, Copy, PartialEq, Eq, Debug)]
pub struct Row {
    /// Byte 0 of a cell.
    pub kind: u8,
    /// Document 01's word for it.
    pub meaning: &'static str,
    pub sort: Sort,
    /// Byte 1 of a cell is named.
    pub labelled: bool,
    /// What a, b and c hold in version 1.
    pub fields: [Field; 3],
    /// How many variables it binds in a.
    pub binders: u32,
    /// How many of its parts run, from a on, left first; the others wait.
    pub running: usize,
    /// How it is printed: `$l` is the label, `$a`, `$b` and `$c` are the fields, `$n` is the number that they hold.
    pub notation: &'static str,
}

impl Row {
    /// What a, b and c hold: in version 2 all of them hold a number's bits.
    pub fn fields_in(&self, version: Version) -> [Field; 3] {
        match (version, self.kind) {
            (Version::Two, kind::NUMBER) => [PLAIN; 3],
            _ => self.fields,
        }
    }

    /// The binders between the cell and what this field refers to.
    pub fn binders_over(&self, field: usize) -> u32 {
        if field == 0 {
            self.binders
        } else {
            0
        }
    }

    /// No field refers to another cell.
    pub fn is_leaf(&self) -> bool {
        self.fields.iter().all(|field| field.sort().is_none())
    }

    /// A cell of either kind is as well-formed with the other.
    pub fn same_fields(&self, other: &Row) -> bool {
        (self.sort, self.labelled, self.fields) == (other.sort, other.labelled, other.fields)
    }
}

const NONE: Field = Field::Unnamed;
const PLAIN: Field = Field::Plain;
const TYPE: Field = Field::Reference(Sort::Type);
const TERM: Field = Field::Reference(Sort::Term);

macro_rules! table {
    ($($kind:literal $name:ident $meaning:literal $sort:ident $labelled:literal $a:ident $b:ident $c:ident $binders:literal
       $running:literal $notation:literal)*) => {
        /// The kinds by name.
        pub mod kind {
            $(#[doc = $meaning] pub const $name: u8 = $kind;)*
        }

        /// The rows by name.
        pub(crate) mod rows {
            use super::*;
            $(pub const $name: &Row = &Row {
                kind: $kind,
                meaning: $meaning,
                sort: Sort::$sort,
                labelled: $labelled,
                fields: [$a, $b, $c],
                binders: $binders,
                running: $running,
                notation: $notation,
            };)*
        }

        /// The rows, kinds ascending.
        pub const TABLE: &[Row] = &[$(*rows::$name),*];

        /// The row of a kind; none if the kind is unknown.
        pub const fn row(kind: u8) -> Option<&'static Row> {
            match kind {
                $($kind => Some(rows::$name),)*
                _ => None,
            }
        }
    };
}

table! {
    // kind  name           meaning          sort  label  a      b      c      binders in a   run   notation
       1     INT            "Int"            Type  false  NONE   NONE   NONE   0              0     "Int"
       2     TOP            "Top"            Type  false  NONE   NONE   NONE   0              0     "Top"
       3     FUNCTION_TYPE  "function type"  Type  false  TYPE   TYPE   NONE   0              0     "($a -> $b)"
       4     INTERSECTION   "intersection"   Type  false  TYPE   TYPE   NONE   0              0     "($a & $b)"
       5     RECORD_TYPE    "record type"    Type  true   TYPE   NONE   NONE   0              0     "{$l: $a}"
       16    VARIABLE       "variable"       Term  false  PLAIN  NONE   NONE   0              0     "#$a"
       17    NUMBER         "number"         Term  false  NONE   PLAIN  PLAIN  0              0     "$n"
       18    TOP_VALUE      "top value"      Term  false  NONE   NONE   NONE   0              0     "top"
       19    ANNOTATION     "annotation"     Term  false  TERM   TYPE   NONE   0              1     "($a : $b)"
       20    APPLICATION    "application"    Term  false  TERM   TERM   NONE   0              2     "($a $b)"
       21    FUNCTION       "function"       Term  false  TERM   TYPE   TYPE   1              0     "(fun $a : $b -> $c)"
       22    MERGE          "merge"          Term  false  TERM   TERM   NONE   0              2     "($a ,, $b)"
       23    FIXPOINT       "fixpoint"       Term  false  TERM   TYPE   NONE   1              0     "(fix $a : $b)"
       24    RECORD         "record"         Term  true   TERM   NONE   NONE   0              1     "{$l = $a}"
       25    PROJECTION     "field read"     Term  true   TERM   NONE   NONE   0              1     "$a.$l"
       26    SUM            "sum"            Term  false  TERM   TERM   NONE   0              2     "($a + $b)"
       27    CHOICE         "choice"         Term  false  TERM   TERM   TERM   0              1     "(if $a = 0 then $b else $c)"
}
