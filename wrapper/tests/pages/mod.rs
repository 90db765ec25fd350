//! What the tests of the pages share, each a part of it: the words of an answer as the pages write them, a call with its work buffer, and books of
//! many kinds.

#![allow(dead_code)]

pub mod blocks;

use blocks::{blocks, format};
use cerealbank::{Answer, RunAnswer, SheetAnswer, WORK};
use compare::families::families;
use evaluator::{restamped, CELL, TRAILER};
use std::collections::BTreeSet;
use std::fs;
use std::path::{Path, PathBuf};

/// The limit that the books of the pages are run with.
pub const LIMIT: u32 = 10;

pub fn at(path: &str) -> PathBuf {
    Path::new(env!("CARGO_MANIFEST_DIR")).join("..").join(path)
}

pub fn text(path: &str) -> String {
    fs::read_to_string(at(path)).unwrap_or_else(|error| panic!("{path}: {error}"))
}

/// The names of the books in a folder. The texts beside them are the tool's to test.
pub fn books_in(folder: &str) -> BTreeSet<String> {
    let files = fs::read_dir(at(folder)).expect("the folder").map(|entry| entry.expect("its files").file_name());
    files.map(|name| name.into_string().expect("a name")).filter(|name| name.ends_with(".book")).collect()
}

/// The folders of the sample books: those of many kinds, the refused ones, those in two orders, those to join and the sheets.
pub const FOLDERS: [&str; 5] = ["books", "books/refusals", "books/merging", "books/joining", "books/sheets"];

/// The books of the repository, by name.
pub fn files() -> impl Iterator<Item = (String, Vec<u8>)> {
    let read = |folder, name: String| (name.clone(), fs::read(at(folder).join(name)).expect("a book"));
    FOLDERS.into_iter().flat_map(move |folder| books_in(folder).into_iter().map(move |name| read(folder, name)))
}

/// So many books are taken of each family that is made at random.
const OF_A_FAMILY: usize = 12;

/// These, the books of the repository, those of FORMAT.md, and books that compare makes: each in both versions.
pub fn books_and(these: impl Iterator<Item = Vec<u8>>) -> Vec<Vec<u8>> {
    let (before, sections) = format();
    let pages = [before].into_iter().chain(sections.into_iter().map(|(_, section)| section));
    let shown = pages.flat_map(|page| blocks(&page)).map(|block| block.book);
    let random = families().into_iter().filter(|family| family.share > 0);
    let made = random.flat_map(|family| family.books(8, OF_A_FAMILY));
    let all = files().map(|(_, book)| book).chain(shown).chain(these).chain(made);
    all.flat_map(|book| [restamped(&book), Some(book)]).flatten().collect()
}

pub fn number<T: std::str::FromStr>(word: &str) -> T {
    word.replace(',', "").parse().unwrap_or_else(|_| panic!("{word} is no number here"))
}

/// An answer of a check, a join or a preview in the desk program's words; None if it is something else.
pub fn answer(words: &str) -> Option<Answer> {
    match words.split_whitespace().collect::<Vec<_>>()[..] {
        ["refused", n, cell] => Some(Answer::Refused { number: number(n), cell: number(cell) }),
        ["accepted", size] => Some(Answer::Accepted { size: number(size) }),
        _ => None,
    }
}

/// Why a run stopped, after how many steps, and with which mark.
pub fn stopped([stop, steps, mark]: [&str; 3]) -> Option<RunAnswer> {
    let (steps, mark) = (number(steps), number(mark));
    match stop {
        "value" => Some(RunAnswer::Value { steps, mark }),
        "spent" => Some(RunAnswer::Spent { steps, mark }),
        "room" => Some(RunAnswer::Room { steps, mark }),
        _ => None,
    }
}

/// An answer of a run in the desk program's words, and its mark: `value 4, mark 18`. None if it is something else.
pub fn ran(words: &str) -> Option<RunAnswer> {
    match words.split_whitespace().collect::<Vec<_>>()[..] {
        ["refused", n, cell] => Some(RunAnswer::Refused { number: number(n), cell: number(cell) }),
        [stop, steps, "mark", mark] => stopped([stop, steps.strip_suffix(',')?, mark]),
        _ => None,
    }
}

/// An answer of the sheet call: a check's words, and the count of steps beside an acceptance, `accepted 1, steps 3`. None if it is something else.
pub fn counted(words: &str) -> Option<SheetAnswer> {
    match words.split_whitespace().collect::<Vec<_>>()[..] {
        ["refused", n, cell] => Some(SheetAnswer::Refused { number: number(n), cell: number(cell) }),
        ["accepted", size, "steps", steps] => {
            Some(SheetAnswer::Accepted { size: number(size.strip_suffix(',')?), steps: number(steps) })
        }
        _ => None,
    }
}

/// What a run says in the desk program's words, which have no mark.
pub fn on_the_desk(answer: RunAnswer) -> String {
    match answer {
        RunAnswer::Refused { number, cell } => format!("refused {number} {cell}"),
        RunAnswer::Value { steps, .. } => format!("value {steps}"),
        RunAnswer::Spent { steps, .. } => format!("spent {steps}"),
        RunAnswer::Room { steps, .. } => format!("room {steps}"),
        RunAnswer::Unknown { packed } => panic!("{packed:#x} is no answer"),
    }
}

/// The answer, and the work buffer after it.
pub fn asked<T>(call: impl FnOnce(&mut [u8]) -> T) -> (T, Vec<u8>) {
    let mut work = vec![9; WORK];
    (call(&mut work), work)
}

/// These bytes, and zeros.
pub fn padded(bytes: &[u8]) -> Vec<u8> {
    let mut work = bytes.to_vec();
    work.resize(WORK, 0);
    work
}

/// The parts of a line that stand in backquotes.
pub fn quoted(line: &str) -> Vec<&str> {
    line.split('`').skip(1).step_by(2).collect()
}

/// "The first row of 8 bytes that begins with F0 is the trailer": the book up to its end.
pub fn cut(work: &[u8]) -> &[u8] {
    let trailer = work.chunks(CELL).position(|row| row[0] == TRAILER).expect("a trailer");
    &work[..CELL * (trailer + 1)]
}
