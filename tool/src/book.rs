//! A book as parts, one a cell, and its bytes.

use crate::kinds::{known, Datum, Kind, Sort};
use std::collections::HashMap;

/// The bytes of a cell, and of the trailer.
pub const CELL: usize = 8;
/// Byte 0 of the trailer.
pub const TRAILER: u8 = 0xF0;
/// The most cells that a book, and a term with nothing shared, may have.
pub const MOST_CELLS: usize = 4_095;

/// A cell: its kind, its label, count or number, and its references, as many as the kind has.
#[derive(Clone, Copy, PartialEq, Eq, Hash, Debug)]
pub struct Part {
    pub kind: Kind,
    pub datum: i64,
    pub references: [usize; 3],
}

impl Part {
    pub fn new(kind: Kind, datum: i64, references: &[usize]) -> Part {
        let mut part = Part { kind, datum, references: [0; 3] };
        for (place, &reference) in part.references.iter_mut().zip(references) {
            *place = reference;
        }
        part
    }

    pub fn sort(&self) -> Sort {
        self.kind.row().sort
    }

    /// The cells that it refers to, in the order of the fields.
    pub fn children(&self) -> &[usize] {
        &self.references[..self.kind.row().references.len()]
    }

    /// The same with its references changed.
    pub fn moved(&self, mut to: impl FnMut(usize) -> usize) -> Part {
        let mut part = *self;
        for place in part.references.iter_mut().take(self.kind.row().references.len()) {
            *place = to(*place);
        }
        part
    }

    /// The part that 8 bytes are, if their kind is known.
    pub fn read(row: &[u8], version: u8) -> Option<Part> {
        let kind = known(row[0])?;
        let datum = match (kind.datum, version) {
            (Datum::None, _) => 0,
            (Datum::Label, _) => i64::from(row[1]),
            (Datum::Skipped, _) => field(row, 0) as i64,
            (Datum::Number, 1) => i64::from(i32::from_le_bytes([row[4], row[5], row[6], row[7]])),
            (Datum::Number, _) => i64::from_le_bytes([0, 0, row[2], row[3], row[4], row[5], row[6], row[7]]) >> 16,
        };
        let fields = [0, 1, 2].map(|place| field(row, place));
        Some(Part::new(kind.kind, datum, &fields[..kind.references.len()]))
    }

    fn bytes(&self, version: u8) -> [u8; CELL] {
        let mut row = [0; CELL];
        row[0] = self.kind as u8;
        let datum = self.datum.to_le_bytes();
        match (self.kind.row().datum, version) {
            (Datum::None, _) => {}
            (Datum::Label, _) => row[1] = datum[0],
            (Datum::Skipped, _) => row[2..4].copy_from_slice(&datum[..2]),
            (Datum::Number, 1) => row[4..8].copy_from_slice(&datum[..4]),
            (Datum::Number, _) => row[2..8].copy_from_slice(&datum[..6]),
        }
        for (place, &child) in self.children().iter().enumerate() {
            row[2 + 2 * place..4 + 2 * place].copy_from_slice(&(child as u16).to_le_bytes());
        }
        row
    }
}

/// One of the fields a, b and c of a cell; of the trailer the second is the root.
pub fn field(row: &[u8], place: usize) -> usize {
    usize::from(u16::from_le_bytes([row[2 + 2 * place], row[3 + 2 * place]]))
}

/// A book. Every reference goes to a lower cell.
#[derive(Clone, Default, PartialEq, Eq, Debug)]
pub struct Book {
    pub version: u8,
    pub parts: Vec<Part>,
    pub root: usize,
}

/// A root laid down anew, in the order of the encoding, and for each cell the one that it was before.
pub struct Relaid {
    pub book: Book,
    pub of: Vec<usize>,
}

impl Book {
    pub fn new(version: u8) -> Book {
        Book { version, parts: Vec::new(), root: 0 }
    }

    /// The book that these bytes are; None if they are none. Only the library says whether they are: what it passes is always read.
    pub fn read(bytes: &[u8]) -> Option<Book> {
        let count = (bytes.len() / CELL).checked_sub(1)?;
        let (cells, trailer) = bytes.split_at(count * CELL);
        let version = trailer[1];
        let root = field(trailer, 1);
        let parts: Option<Vec<Part>> = cells.chunks_exact(CELL).map(|row| Part::read(row, version)).collect();
        let book = Book { version, parts: parts?, root };
        let lower = book.parts.iter().enumerate().all(|(at, part)| part.children().iter().all(|&child| child < at));
        (lower && root < count).then_some(book)
    }

    /// The book at the start of a work buffer: the first row that begins with F0 is its trailer.
    pub fn left_in(work: &[u8]) -> &[u8] {
        let trailer = work.chunks_exact(CELL).position(|row| row[0] == TRAILER);
        &work[..trailer.map_or(0, |at| (at + 1) * CELL)]
    }

    pub fn bytes(&self) -> Vec<u8> {
        let mut bytes: Vec<u8> = self.parts.iter().flat_map(|part| part.bytes(self.version)).collect();
        let [count, root] = [self.parts.len(), self.root].map(|n| (n as u16).to_le_bytes());
        bytes.extend([TRAILER, self.version, count[0], count[1], root[0], root[1], 0, 0]);
        bytes
    }

    /// Lays a part down; the root is the part laid down last, unless it is set.
    pub fn push(&mut self, part: Part) -> usize {
        self.parts.push(part);
        self.root = self.parts.len() - 1;
        self.root
    }

    pub fn add(&mut self, kind: Kind, references: &[usize]) -> usize {
        self.push(Part::new(kind, 0, references))
    }

    /// The size of every cell, with nothing shared. A size that does not fit stays at the largest.
    pub fn sizes(&self) -> Vec<u64> {
        let mut sizes: Vec<u64> = Vec::with_capacity(self.parts.len());
        for part in &self.parts {
            let size = part.children().iter().fold(1, |sum: u64, &child| sum.saturating_add(sizes[child]));
            sizes.push(size);
        }
        sizes
    }

    /// Which cells the root reaches.
    pub fn reached(&self) -> Vec<bool> {
        let mut reached = vec![false; self.parts.len()];
        reached[self.root] = true;
        for at in (0..self.parts.len()).rev().filter(|&at| at <= self.root) {
            if reached[at] {
                self.parts[at].children().iter().for_each(|&child| reached[child] = true);
            }
        }
        reached
    }

    /// How many binders around each cell its variables go to, at most.
    pub fn free(&self) -> Vec<usize> {
        let mut free: Vec<usize> = Vec::with_capacity(self.parts.len());
        for part in &self.parts {
            let within = part.children().iter().enumerate();
            let of_children = within.map(|(place, &child)| free[child].saturating_sub(part.kind.binders_over(place))).max();
            free.push(if part.kind == Kind::Variable { part.datum as usize + 1 } else { of_children.unwrap_or(0) });
        }
        free
    }

    /// The root with nothing shared; None if that has too many cells.
    pub fn opened(&self) -> Option<Book> {
        let fits = self.sizes()[self.root] <= MOST_CELLS as u64;
        fits.then(|| {
            let mut opened = Book::new(self.version);
            self.open(self.root, &mut opened);
            opened
        })
    }

    fn open(&self, at: usize, opened: &mut Book) -> usize {
        let part = self.parts[at].moved(|child| self.open(child, opened));
        opened.push(part)
    }

    /// A cell as the root of a book of its own.
    pub fn part(&self, at: usize) -> Book {
        Book { root: at, ..self.clone() }.shared().book
    }

    /// The root with equal parts laid once, each where it comes first in the encoding, and for each cell the one that it was before.
    pub fn shared(&self) -> Relaid {
        let mut shared = Relaid { book: Book::new(self.version), of: Vec::new() };
        let root = self.share(self.root, &mut shared, &mut vec![None; self.parts.len()], &mut HashMap::new());
        shared.book.root = root;
        shared
    }

    fn share(&self, at: usize, to: &mut Relaid, seen: &mut [Option<usize>], laid: &mut HashMap<Part, usize>) -> usize {
        if let Some(known) = seen[at] {
            return known;
        }
        let part = self.parts[at].moved(|child| self.share(child, to, seen, laid));
        let place = *laid.entry(part).or_insert_with(|| {
            to.of.push(at);
            to.book.push(part)
        });
        seen[at] = Some(place);
        place
    }
}
