//! Books to terms and back.

use crate::faults::{current, planted, Fault};
use crate::kinds::{kind, row, Field, Row, Sort};
use crate::terms::{Node, Part, Term, Type};
use crate::versions::Version;

/// "A cell: byte 0 kind, byte 1 label, bytes 2-3, 4-5, 6-7 the fields a, b, c."
pub const CELL: usize = 8;
/// "The limit is 4,095."
pub const SIZE_LIMIT: u64 = 4_095;
/// "Trailer: byte 0 is F0 (hex); byte 1 the version": no kind of a cell.
pub const TRAILER: u8 = 0xF0;

/// "Answer: number and cell (0 for 1 to 4)."
#[derive(Clone, Copy, PartialEq, Eq, Debug)]
pub struct Refusal {
    pub number: u8,
    pub cell: usize,
}

fn refuse<T>(number: u8, cell: usize) -> Result<T, Refusal> {
    Err(Refusal { number, cell })
}

/// Eight bytes of a book: a cell, or the trailer.
#[derive(Clone, Copy, PartialEq, Eq, Hash, Debug)]
pub struct Cell {
    pub kind: u8,
    pub label: u8,
    pub fields: [u16; 3],
}

impl Cell {
    pub const fn new(kind: u8, label: u8, fields: [u16; 3]) -> Cell {
        Cell { kind, label, fields }
    }

    /// The cell of a number in this version.
    pub fn number(n: impl Into<i64>, version: Version) -> Cell {
        Cell::new(kind::NUMBER, 0, version.fields(n.into()))
    }

    /// "Bytes 2–3 the cell count; bytes 4–5 the root cell; bytes 6–7 zero."
    pub fn trailer(count: u16, root: u16, version: Version) -> Cell {
        Cell::new(TRAILER, version.byte(), [count, root, 0])
    }

    /// "Fields of two bytes and stored numbers are little-endian."
    pub fn of(bytes: &[u8]) -> Cell {
        Cell::new(bytes[0], bytes[1], [2, 4, 6].map(|at| u16::from_le_bytes([bytes[at], bytes[at + 1]])))
    }

    pub fn bytes(self) -> [u8; CELL] {
        let [a, b, c] = self.fields.map(u16::to_le_bytes);
        [self.kind, self.label, a[0], a[1], b[0], b[1], c[0], c[1]]
    }

    /// What a, b and c refer to; of an unknown kind, nothing.
    pub fn references(self) -> [Option<Sort>; 3] {
        row(self.kind).map_or([None; 3], |row| row.fields.map(Field::sort))
    }

    /// The same cell with each reference put through `to`.
    pub fn redirected(mut self, to: impl Fn(u16) -> u16) -> Cell {
        let references = self.references();
        for (field, sort) in self.fields.iter_mut().zip(references) {
            if sort.is_some() {
                *field = to(*field);
            }
        }
        self
    }
}

/// A cell as a tree, its references followed.
enum Tree {
    Type(Type),
    Term(Term),
}

impl Tree {
    fn sort(&self) -> Sort {
        match self {
            Tree::Type(_) => Sort::Type,
            Tree::Term(_) => Sort::Term,
        }
    }

    fn part(&self) -> Part<'_> {
        match self {
            Tree::Type(t) => Part::Type(t),
            Tree::Term(e) => Part::Term(e),
        }
    }
}

/// What the fields of a cell are tested for: what they hold in this version, unless a fault is planted.
fn tested_fields(row: &Row, version: Version) -> [Field; 3] {
    let fields @ [_, b, c] = row.fields_in(version);
    match (current(), version, row.kind) {
        (Some(Fault::NarrowFieldUntested), Version::One, kind::NUMBER) => row.fields_in(Version::Two),
        (Some(Fault::WideFieldRefused), Version::Two, kind::NUMBER) => row.fields_in(Version::One),
        (Some(Fault::FirstFieldUntested), Version::Two, _) if row.is_leaf() => [Field::Plain, b, c],
        _ => fields,
    }
}

/// "An unnamed field is not zero": the label, or one of the three.
fn filled(cell: Cell, row: &Row, version: Version) -> bool {
    let mut fields = tested_fields(row, version).into_iter().zip(cell.fields);
    let label = cell.label != 0 && !(planted(Fault::WideLabelUntested) && (version, row.kind) == (Version::Two, kind::NUMBER));
    !row.labelled && label || fields.any(|(field, value)| field == Field::Unnamed && value != 0)
}

/// One cell's rows: "unknown kind", "an unnamed field is not zero", "a reference not lower than its cell", "a type where a term
/// belongs, or the reverse". The trees are those of the cells below. The cell's row of the table, if it passes.
fn test_cell(cell: Cell, n: usize, version: Version, trees: &[Tree]) -> Result<&'static Row, Refusal> {
    let Some(row) = row(cell.kind).filter(|row| row.kind < kind::SUM || !planted(Fault::OlderKinds)) else {
        return refuse(5, n);
    };
    let fields = row.fields.into_iter().zip(cell.fields);
    let references = fields.filter_map(|(field, to)| Some((field.sort()?, usize::from(to))));
    let not_lower = references.clone().any(|(_, to)| to >= n);
    if filled(cell, row, version) && !(not_lower && planted(Fault::ReferencesFirst)) {
        return refuse(6, n);
    }
    if not_lower {
        return refuse(7, n);
    }
    if references.into_iter().any(|(sort, to)| trees[to].sort() != sort) {
        return refuse(8, n);
    }
    Ok(row)
}

/// "The table of kinds gives each cell's fields, once for all readers." The cell has passed its rows.
fn tree_of(cell: Cell, n: usize, row: &'static Row, version: Version, trees: &[Tree]) -> Tree {
    let part = |field: usize| match row.fields[field] {
        Field::Unnamed => Part::None,
        Field::Plain => Part::Plain(cell.fields[field]),
        Field::Reference(_) => trees[usize::from(cell.fields[field])].part(),
    };
    let fields = match row.kind {
        kind::NUMBER => [Part::Number(version.number(cell.fields)), Part::None, Part::None],
        _ => [part(0), part(1), part(2)],
    };
    let node = Node { row, label: cell.label, fields };
    match row.sort {
        Sort::Type => Tree::Type(Type::of(node)),
        Sort::Term => Tree::Term(Term::at(n, node)),
    }
}

/// The root of a book as a tree, with the book's version, or the first of the refusals 2 to 10: "Rows are tested downward, cells
/// ascending, each cell completely."
pub fn decode(book: &[u8]) -> Result<(Term, Version), Refusal> {
    let length = book.len();
    if !(16..=32_768).contains(&length) || !length.is_multiple_of(CELL) {
        return refuse(2, 0);
    }
    let (cells, trailer) = book.split_at(length - CELL);
    let Cell { kind, label, fields: [count, root, zero] } = Cell::of(trailer);
    let Some(version) = Version::of(label).filter(|_| (kind, zero) == (TRAILER, 0)) else {
        return refuse(3, 0);
    };
    if usize::from(count) != length / CELL - 1 || root >= count {
        return refuse(4, 0);
    }
    let cells = cells.chunks(CELL).map(Cell::of);
    if planted(Fault::KindsFirst) {
        if let Some(n) = cells.clone().position(|cell| row(cell.kind).is_none()) {
            return refuse(5, n);
        }
    }
    let mut trees: Vec<Tree> = Vec::with_capacity(usize::from(count));
    for (n, cell) in cells.enumerate() {
        let row = test_cell(cell, n, version, &trees)?;
        trees.push(tree_of(cell, n, row, version, &trees));
    }
    let root = usize::from(root);
    let [a_type, too_large] = if planted(Fault::RootNumbersSwapped) { [10, 9] } else { [9, 10] };
    match &trees[root] {
        Tree::Type(t) if planted(Fault::RootSizeFirst) && t.size() > SIZE_LIMIT => refuse(too_large, root),
        Tree::Type(_) => refuse(a_type, root),
        Tree::Term(e) if e.size() > SIZE_LIMIT => refuse(too_large, root),
        Tree::Term(e) => Ok((e.clone(), version)),
    }
}

/// A book being encoded.
struct Encoder {
    version: Version,
    bytes: Vec<u8>,
}

impl Encoder {
    /// Adds a cell; its number.
    fn cell(&mut self, cell: Cell) -> u16 {
        let number = self.bytes.len() / CELL;
        self.bytes.extend(cell.bytes());
        number as u16
    }

    /// "Children first in field order, shared ones repeated, root last." The root's number.
    fn tree(&mut self, node: Node) -> u16 {
        if let [Part::Number(n), ..] = node.fields {
            return self.cell(Cell::number(n, self.version));
        }
        let [a, b, c] = node.fields;
        let fields = [self.field(a), self.field(b), self.field(c)];
        self.cell(Cell::new(node.row.kind, node.label, fields))
    }

    /// What stands in a field: of a part, its number.
    fn field(&mut self, part: Part) -> u16 {
        match part {
            Part::None | Part::Number(_) => 0,
            Part::Plain(value) => value,
            Part::Type(t) => self.tree(t.node()),
            Part::Term(e) => self.tree(e.node()),
        }
    }
}

/// Beyond it a reference does not fit its two bytes. Books between the two limits are encoded to be refused.
const NUMBERED: u64 = 1 << 16;

/// A "book of its own, trailer included"; "a laid-down book has the version it came from". Only for sizes that two bytes can number. The
/// trailer's version is another only where a fault is planted.
fn encode(node: Node, size: u64, [cells, trailer]: [Version; 2]) -> Vec<u8> {
    assert!(size < NUMBERED);
    let mut encoder = Encoder { version: cells, bytes: Vec::new() };
    let root = encoder.tree(node);
    encoder.cell(Cell::trailer(size as u16, root, trailer));
    encoder.bytes
}

/// The book of a term in this version, of which its numbers are.
pub fn encode_term(e: &Term, version: Version) -> Vec<u8> {
    let trailer = if planted(Fault::TermOfVersion1) { Version::One } else { version };
    encode(e.node(), e.size(), [version, trailer])
}

/// The book of a type in this version.
pub fn encode_type(t: &Type, version: Version) -> Vec<u8> {
    let trailer = if planted(Fault::TypeOfVersion1) { Version::One } else { version };
    encode(t.node(), t.size(), [version, trailer])
}

/// Document 02, (iv): "restamped as version 2 with each number extended by its sign", whether the root reaches it or not. Nothing else
/// changes, nor does what stands in a number's cell that version 1 refuses. None of bytes that do not end in a trailer of version 1.
pub fn restamped(book: &[u8]) -> Option<Vec<u8>> {
    let (rows, []) = book.as_chunks::<CELL>() else { return None };
    let [cells @ .., last] = rows else { return None };
    let last = Cell::of(last);
    if (last.kind, last.label) != (TRAILER, Version::One.byte()) {
        return None;
    }
    let extended = |cell: Cell| match (cell.kind, cell.fields[0]) {
        (kind::NUMBER, 0) => Cell { fields: Version::Two.fields(Version::One.number(cell.fields)), ..cell },
        _ => cell,
    };
    let cells = cells.iter().map(|row| extended(Cell::of(row)));
    let trailer = Cell { label: Version::Two.byte(), ..last };
    Some(cells.chain([trailer]).flat_map(Cell::bytes).collect())
}
