//! What is printed: a family's figures, and a difference in full.

use crate::comparing::{Difference, Question, Seen};
use crate::engines::{Call, Engine};
use crate::joining::{self, Asked};
use crate::pairs::Pair;
use crate::restamping::is_version_2;
use evaluator::{Answer, Joined, Which, CELL, WORK};
use std::fmt::Write;

/// What a family's books came to.
#[derive(Default)]
pub struct Figures {
    pub books: usize,
    /// Of these, those of version 2.
    second: usize,
    /// Of these, those that are compared with the version 1 book that they are restamped from.
    pub pairs: usize,
    /// Reorderings that are compared with the value that they come from.
    pub orders: usize,
    pub calls: usize,
    values: usize,
    spent: usize,
    room: usize,
    /// Accepted as sheets, and refused by 17.
    pub sheets: usize,
    no_sheets: usize,
    refused: [usize; 16],
}

impl Figures {
    pub const HEAD: &'static str =
        "family                 books of version 2  pairs orders    calls   value  spent   room  sheets no sheet seconds   refused, number:books";

    pub fn enter(&mut self, seen: Seen, is_version_2: bool) {
        self.books += 1;
        self.second += usize::from(is_version_2);
        match (seen.check, seen.run) {
            (Answer::Refused { number, .. }, _) => self.refused[usize::from(number)] += 1,
            (_, Answer::Value { .. }) => self.values += 1,
            (_, Answer::Spent { .. }) => self.spent += 1,
            (_, Answer::Room { .. }) => self.room += 1,
            _ => {}
        }
        self.sheets += usize::from(matches!(seen.sheet, Answer::Sheet { .. }));
        self.no_sheets += usize::from(matches!(seen.sheet, Answer::Refused { number: 17, .. }));
    }

    pub fn line(&self, name: &str, seconds: f64) -> String {
        let Figures { books, second, pairs, orders, calls, values, spent, room, sheets, no_sheets, refused } = self;
        let mut line = format!("{name:<20}{books:>8}{second:>13}{pairs:>7}{orders:>7}{calls:>9}{values:>8}{spent:>7}{room:>7}");
        let _ = write!(line, "{sheets:>8}{no_sheets:>9}{seconds:>8.1}  ");
        for (number, count) in refused.iter().enumerate().filter(|(_, &count)| count > 0) {
            let _ = write!(line, " {number}:{count}");
        }
        line
    }
}

/// What a family's pairs came to.
#[derive(Default)]
pub struct PairFigures {
    pub pairs: usize,
    /// Of these, those that were previewed before they were joined.
    pub previews: usize,
    /// Of these, those that were joined on the preview's buffers, as it left them.
    after: usize,
    /// Of these, those with books of both versions.
    mixed: usize,
    accepted: usize,
    /// By number, of the project, the part and the joint.
    refused: [[usize; 17]; 3],
}

impl PairFigures {
    pub const HEAD: &'static str =
        "family                 pairs previewed  on its buffers  of both versions  accepted seconds   refused, number:pairs";

    pub fn enter(&mut self, pair: &Pair, joined: Joined) {
        self.pairs += 1;
        self.after += usize::from(pair.after);
        self.mixed += usize::from(is_version_2(&pair.project) != is_version_2(&pair.part));
        let book = match joined.which {
            Which::Project => 0,
            Which::Part => 1,
            Which::Joint => 2,
        };
        match joined.answer {
            Answer::Refused { number, .. } => self.refused[book][usize::from(number)] += 1,
            _ => self.accepted += 1,
        }
    }

    pub fn line(&self, name: &str, seconds: f64) -> String {
        let PairFigures { pairs, previews, after, mixed, accepted, refused } = self;
        let mut line = format!("{name:<20}{pairs:>8}{previews:>10}{after:>16}{mixed:>18}{accepted:>10}{seconds:>8.1}  ");
        for (book, counts) in ["project", "part", "joint"].into_iter().zip(refused) {
            let _ = write!(line, " {book}");
            for (number, count) in counts.iter().enumerate().filter(|(_, &count)| count > 0) {
                let _ = write!(line, " {number}:{count}");
            }
        }
        line
    }
}

fn hex(bytes: &[u8]) -> String {
    bytes.iter().map(|byte| format!("{byte:02x}")).collect()
}

/// A book in hexadecimal, equal cells that follow each other once.
fn in_cells(book: &[u8]) -> String {
    let cells: Vec<&[u8]> = book.chunks(CELL).collect();
    let equal = cells.chunk_by(|one, other| one == other);
    let shown = equal.map(|cells| match cells {
        [cell] => hex(cell),
        _ => format!("{} ({} times)", hex(cells[0]), cells.len()),
    });
    shown.collect::<Vec<_>>().join(" ")
}

/// A difference about a pair in full: both books, how they are lent, what was asked, and both outcomes.
pub fn described_pair(pair: &Pair, asked: Asked, difference: &joining::Difference, engine: &dyn Engine) -> String {
    let mut text = String::new();
    for (name, book) in [("project", &pair.project), ("part", &pair.part)] {
        let _ = writeln!(text, "  {name} ({} bytes): {}", book.len(), in_cells(book));
        if let Ok((root, version)) = evaluator::decode(book) {
            let _ = writeln!(text, "  its root, version {}: {root}", version.byte());
        }
    }
    let asked = match asked {
        Asked::Preview => "preview",
        Asked::Join if pair.after => "join, with what the preview leaves",
        Asked::Join => "join",
        Asked::Agreement => "that preview and join agree",
        Asked::Promise => "what is promised of the join",
    };
    let _ = writeln!(text, "  asked: {asked}, {} bytes lent, {} told, a work buffer of {} bytes", pair.lent, pair.told, pair.work);
    match difference {
        joining::Difference::Broken(words) => {
            let _ = writeln!(text, "  {words}");
        }
        joining::Difference::Outcomes(both) => {
            let [one, other] = &**both;
            let _ = writeln!(text, "  evaluator: {:?}", one.reply);
            let _ = writeln!(text, "  {}: {:?}", engine.name(), other.reply);
            text += &first_difference("lent", &one.buffers.lent, &other.buffers.lent);
            text += &first_difference("work", &one.buffers.work, &other.buffers.work);
        }
    }
    text
}

/// Where two buffers differ first; nothing if they do not.
fn first_difference(name: &str, one: &[u8], other: &[u8]) -> String {
    let Some(at) = (0..one.len()).find(|&at| one[at] != other[at]) else { return String::new() };
    let cell = |bytes: &[u8]| hex(bytes.chunks(CELL).nth(at / CELL).unwrap_or_default());
    format!("  first differing {name} byte {at}, cell {}: {} and {}\n", at / CELL, cell(one), cell(other))
}

/// A difference in full: the book in hexadecimal, its root, and both outcomes.
pub fn described(book: &[u8], question: Question, difference: &Difference, engine: &dyn Engine) -> String {
    let mut text = String::new();
    let cells: Vec<String> = book.chunks(CELL).map(hex).collect();
    let _ = writeln!(text, "  book ({} bytes): {}", book.len(), cells.join(" "));
    if let Ok((root, version)) = evaluator::decode(book) {
        let _ = writeln!(text, "  root, version {}: {root}", version.byte());
    }
    let asked = match question {
        Question::Call(Call::Check, WORK) => "check".to_string(),
        Question::Call(Call::Sheet, WORK) => "sheet".to_string(),
        Question::Call(Call::Run { limit }, WORK) => format!("run, limit {limit}"),
        Question::Call(call, length) => format!("{call:?} with a work buffer of {length} bytes"),
        Question::Theory => "what the calculus promises".to_string(),
        Question::Marks => "its marks under several limits".to_string(),
        Question::Sheet => "what it is as a sheet, beside its check and its runs".to_string(),
        Question::Restamping => "the same as of the version 1 book that it is restamped from".to_string(),
        Question::Order => "the same as of its parts in another order".to_string(),
    };
    let _ = writeln!(text, "  asked: {asked}");
    match difference {
        Difference::Broken(words) => {
            let _ = writeln!(text, "  {words}");
        }
        Difference::Outcomes(one, other) => {
            let _ = writeln!(text, "  evaluator: {:?}", one.reply);
            let _ = writeln!(text, "  {}: {:?}", engine.name(), other.reply);
            if let Some(at) = (0..one.work.len()).find(|&at| one.work[at] != other.work[at]) {
                let cell = |work: &[u8]| hex(work.chunks(CELL).nth(at / CELL).unwrap_or_default());
                let (one, other) = (cell(&one.work), cell(&other.work));
                let _ = writeln!(text, "  first differing byte {at}, cell {}: {one} and {other}", at / CELL);
            }
        }
    }
    text
}
