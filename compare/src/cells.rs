//! Books as lists of cells, to make, change and shrink them.

use crate::random::Random;
use evaluator::{encode_term, row, Cell, Sort, Term, Version, CELL, TABLE, TRAILER};
use std::collections::HashMap;

/// A cell of this kind with zeros in it.
pub const fn zeroed(kind: u8) -> Cell {
    Cell::new(kind, 0, [0; 3])
}

/// The sort of a kind. An unknown one counts as the next kind of the table, or as the last.
pub fn sort_of(kind: u8) -> Sort {
    TABLE.iter().find(|row| row.kind >= kind).unwrap_or(&TABLE[TABLE.len() - 1]).sort
}

pub fn is_labelled(kind: u8) -> bool {
    row(kind).is_some_and(|row| row.labelled)
}

/// The next kind of the table, round and round, with the same fields: itself, if there is no other.
pub fn alike(kind: u8) -> u8 {
    let Some(of) = row(kind) else { return kind };
    let later = TABLE.iter().cycle().skip_while(|row| row.kind != kind).skip(1);
    later.take(TABLE.len()).find(|row| row.same_fields(of)).map_or(kind, |row| row.kind)
}

/// Unknown kinds: those beside a kind of the table, and the trailer's.
pub fn unknown_kinds() -> Vec<u8> {
    let beside = |kind: u8| [kind.checked_sub(1), kind.checked_add(1)].into_iter().flatten().any(|kind| row(kind).is_some());
    (0..=u8::MAX).filter(|&kind| row(kind).is_none() && (beside(kind) || kind == TRAILER)).collect()
}

/// The cell of a number of version 1.
pub fn number_cell(n: i32) -> Cell {
    Cell::number(n, Version::One)
}

#[derive(Clone, PartialEq, Eq, Debug)]
pub struct Cells {
    pub cells: Vec<Cell>,
    pub root: u16,
    pub version: Version,
}

impl Cells {
    /// Of version 1.
    pub fn new(cells: Vec<Cell>, root: u16) -> Cells {
        Cells { cells, root, version: Version::One }
    }

    /// With the last cell for a root.
    pub fn to_last(cells: Vec<Cell>) -> Cells {
        Cells { root: cells.len() as u16 - 1, cells, version: Version::One }
    }

    /// Of bytes with a fitting trailer.
    pub fn of(book: &[u8]) -> Option<Cells> {
        if book.len() < 2 * CELL || !book.len().is_multiple_of(CELL) {
            return None;
        }
        let mut cells: Vec<Cell> = book.chunks(CELL).map(Cell::of).collect();
        let trailer = cells.pop()?;
        let ([count, root, _], version) = (trailer.fields, Version::of(trailer.label)?);
        let fits = usize::from(count) == cells.len() && trailer == Cell::trailer(count, root, version);
        fits.then_some(Cells { cells, root, version })
    }

    pub fn bytes(&self) -> Vec<u8> {
        let trailer = Cell::trailer(self.cells.len() as u16, self.root, self.version);
        self.cells.iter().chain([&trailer]).flat_map(|cell| cell.bytes()).collect()
    }

    /// The cells of one sort below this one.
    pub fn of_sort(&self, sort: Sort, below: usize) -> Vec<u16> {
        (0..below as u16).filter(|&n| sort_of(self.cells[usize::from(n)].kind) == sort).collect()
    }

    /// With one more cell at this place, the references beyond it raised.
    pub fn insert(&mut self, at: usize, cell: Cell) {
        let raise = |n: u16| if usize::from(n) >= at { n + 1 } else { n };
        for later in &mut self.cells[at..] {
            *later = later.redirected(raise);
        }
        self.cells.insert(at, cell);
        self.root = raise(self.root);
    }

    /// Without this cell; what referred to it refers to `instead`, a lower cell.
    pub fn remove(&mut self, at: usize, instead: u16) {
        let to = |n: u16| match usize::from(n) {
            n if n == at => instead,
            n if n > at => n as u16 - 1,
            _ => n,
        };
        self.cells.remove(at);
        for later in &mut self.cells[at..] {
            *later = later.redirected(to);
        }
        self.root = to(self.root);
    }
}

/// How often an equal cell is used again instead of repeated.
#[derive(Clone, Copy)]
pub enum Sharing {
    Never,
    Sometimes,
    Always,
}

impl Sharing {
    pub fn any(random: &mut Random) -> Sharing {
        *random.pick(&[Sharing::Never, Sharing::Sometimes, Sharing::Always])
    }
}

/// The version 1 book of a term, equal cells shared so often.
pub fn encode(term: &Term, sharing: Sharing, random: &mut Random) -> Cells {
    encode_in(Version::One, term, sharing, random)
}

/// The book of a term in this version.
pub fn encode_in(version: Version, term: &Term, sharing: Sharing, random: &mut Random) -> Cells {
    let unshared = Cells::of(&encode_term(term, version)).expect("a book");
    let mut cells: Vec<Cell> = Vec::new();
    let mut known: HashMap<Cell, u16> = HashMap::new();
    // The new number of each cell.
    let mut numbers: Vec<u16> = Vec::with_capacity(unshared.cells.len());
    for cell in unshared.cells {
        let cell = cell.redirected(|n| numbers[usize::from(n)]);
        let again = match sharing {
            Sharing::Never => false,
            Sharing::Sometimes => random.once_in(2),
            Sharing::Always => true,
        };
        let number = known.get(&cell).copied().filter(|_| again).unwrap_or(cells.len() as u16);
        if usize::from(number) == cells.len() {
            cells.push(cell);
            known.insert(cell, number);
        }
        numbers.push(number);
    }
    Cells { cells, root: numbers[usize::from(unshared.root)], version }
}
