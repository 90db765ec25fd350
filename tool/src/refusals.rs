//! What each refusal says of a book: those of the file, of a cell's form, of the root; `typing` has those of the typing rules.

use crate::ask::Refusal;
use crate::book::{field, Book, CELL};
use crate::cells::{hexadecimal, line, trailer};
use crate::explanation::{lines_of, Explanation};
use crate::input::{Input, MOST_BYTES};
use crate::kinds::{known, Datum, Row, Sort};
use crate::sheets::no_sheet;
use crate::typing::of_term;

/// A refusal in words.
pub fn explained(input: &Input, refusal: Refusal) -> Explanation {
    match refusal.number {
        1 => Explanation::says("the work buffer that was lent to the library has not 65536 bytes"),
        2..=4 => of_file(&input.bytes, refusal.number),
        5..=8 => of_cell(&input.bytes, refusal),
        9 => of_type(input, refusal.cell),
        10 => of_size(input, refusal.cell),
        11..=15 => of_term(input, refusal),
        17 => no_sheet(input),
        _ => Explanation::says("the library gave an answer that this program does not know"),
    }
}

fn of_file(bytes: &[u8], number: u8) -> Explanation {
    let last = &bytes[bytes.len().saturating_sub(CELL)..];
    match number {
        2 => Explanation::says("the file is no whole book")
            .fact("length", length(bytes))
            .fact("a book", "a multiple of 8 bytes, from 16 to 32768")
            .helps("Compare the length with the one that was sent, and send the file again as it is. A book that is too long must be written with fewer cells."),
        3 => Explanation::says("the last 8 bytes are no trailer of version 1 or 2")
            .fact("last bytes", hexadecimal(last))
            .fact("a trailer", "F0, then 01 or 02, the count of cells in 2 bytes, the root in 2 bytes, 00 00")
            .helps("Send the whole file again: its end is missing, or something was added, or it is no book, or it is one of another version."),
        _ => Explanation::says("the trailer does not fit the cells before it")
            .fact("last bytes", format!("{}  {}", hexadecimal(last), trailer(last)))
            .fact("cells", match (bytes.len() / CELL).saturating_sub(1) {
                1 => "1, number 0".into(),
                count => format!("{count}, numbers 0 to {}", count.saturating_sub(1)),
            })
            .helps("Count the cells again, the trailer is none; the root is a cell's number, from 0 on. If the trailer is right, cells were lost or added."),
    }
}

/// How long a file is, and how far past a multiple of 8.
fn length(bytes: &[u8]) -> String {
    let count = bytes.len();
    match count % CELL {
        _ if count as u64 == MOST_BYTES => format!("{count} bytes or more"),
        0 => format!("{count} bytes"),
        past => format!("{count} bytes, which is {} and {past} more", count - past),
    }
}

fn of_cell(bytes: &[u8], Refusal { number, cell }: Refusal) -> Explanation {
    let row = bytes.get(CELL * cell..CELL * (cell + 1)).unwrap_or(&[0; CELL]);
    let explanation = match number {
        5 => Explanation::says("the kind of this cell is unknown")
            .helps("The kinds are 1 to 5 and 16 to 27. If the cell looks like none of them, bytes were lost or added before it."),
        6 => Explanation::says("this cell has something in a field that its kind does not use")
            .helps("Write zero there. Often it is a label on a kind without one, or a number where the other version has it."),
        7 => Explanation::says("this cell refers to itself, to a later cell or past the end")
            .helps("Write every part before the whole that uses it. What is to use itself needs a fixpoint and a variable."),
        _ => Explanation::says("this cell refers to a type where its kind wants a term, or to a term where it wants a type")
            .helps("Compare its fields with the table of kinds: often two are swapped, or a reference is off by one."),
    };
    let wrong = match known(row[0]) {
        Some(kind) if number == 6 => unused(kind, row, bytes),
        Some(kind) if number > 6 => references(kind, row, cell, bytes, number),
        _ => Vec::new(),
    };
    let cells = line(bytes, cell).into_iter().map(|line| line.trim_start().to_owned()).collect();
    explanation.facts("the cell", cells).facts("what is wrong", wrong)
}

/// The fields that a kind does not name and that are not zero.
fn unused(kind: &Row, row: &[u8], bytes: &[u8]) -> Vec<String> {
    let version = bytes.get(bytes.len().saturating_sub(CELL - 1)).copied().unwrap_or(1);
    let named = match (kind.datum, version) {
        (Datum::Skipped, _) => 0..1,
        (Datum::Number, 1) => 1..3,
        (Datum::Number, _) => 0..3,
        _ => 0..kind.references.len(),
    };
    let label = (kind.datum != Datum::Label && row[1] != 0).then(|| format!("the label, {}", row[1]));
    let fields = (0..3).filter(|place| !named.contains(place) && field(row, *place) != 0);
    label.into_iter().chain(fields.map(|place| format!("field {}, {}", ["a", "b", "c"][place], field(row, place)))).collect()
}

/// The references that are not lower than their cell, or lead to the other sort.
fn references(kind: &Row, row: &[u8], cell: usize, bytes: &[u8], number: u8) -> Vec<String> {
    let cells = (bytes.len() / CELL).saturating_sub(1);
    let sort_of = |other: usize| bytes.get(CELL * other).and_then(|&code| known(code)).map(|kind| kind.sort);
    let named = kind.references.iter().enumerate().map(|(place, &(sort, name))| (name, sort, field(row, place)));
    let is_wrong = |&(_, sort, other): &(&str, Sort, usize)| if number == 7 { other >= cell } else { sort_of(other) != Some(sort) };
    let said = |(name, sort, other): (&str, Sort, usize)| match (number, sort) {
        (7, _) if other == cell => format!("{name}: cell {other}, which is itself"),
        (7, _) if other < cells => format!("{name}: cell {other}, a later one"),
        (7, _) => format!("{name}: cell {other}, past the end"),
        (_, Sort::Type) => format!("{name}: cell {other}, a term where a type is wanted"),
        (_, Sort::Term) => format!("{name}: cell {other}, a type where a term is wanted"),
    };
    named.filter(is_wrong).map(said).collect()
}

/// Where the root was written, if it was.
fn root_written(input: &Input, cell: usize) -> Vec<String> {
    input.source_of(cell).map_or(vec![], |marked| marked.lines().map(str::to_owned).collect())
}

fn of_type(input: &Input, cell: usize) -> Explanation {
    let help = match input.source() {
        Some(_) => "Write a term: `type A` alone is a book's type, and no book to be sent.",
        None => "Set the trailer's root to the cell of a term. What a check leaves is a type, and no book to be sent.",
    };
    let opened = Book::read(&input.bytes).and_then(|book| book.opened());
    let lines =
        opened.map_or(vec!["of more than 4095 cells with nothing shared".into()], |opened| lines_of(&opened, &input.labels));
    let explanation =
        Explanation::says("the root is a type, and only a term can be checked and run").facts("the type", lines).helps(help);
    Explanation { place: root_written(input, cell), ..explanation }
}

fn of_size(input: &Input, cell: usize) -> Explanation {
    let size = Book::read(&input.bytes).and_then(|book| book.sizes().get(cell).copied()).unwrap_or(0);
    let size = if size == u64::MAX { "more than can be counted here".into() } else { size.to_string() };
    let explanation = Explanation::says("the book is too large: with nothing shared it has more than 4095 cells")
        .fact("size", size)
        .helps("A part that is used twice counts twice. Use large parts less often, shorten the types, or split the book.");
    Explanation { place: root_written(input, cell), ..explanation }
}
