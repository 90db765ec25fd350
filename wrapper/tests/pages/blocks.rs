//! The blocks of docs/FORMAT.md: a line a cell, in hexadecimal, and then each answer with the bytes that it leaves. What follows a `;` is for
//! people.

use super::{number, text};

/// A book, and the words of each answer with the bytes that it leaves at the start of the work buffer.
pub struct Block {
    pub book: Vec<u8>,
    pub answers: Vec<(String, Vec<u8>)>,
}

/// The bytes of a line; `95 × ` stands before a row that there are 95 of.
fn row(line: &str) -> Vec<u8> {
    let (times, row) = line.split_once(" × ").map_or((1, line), |(times, row)| (number(times), row));
    let bytes = row.split_whitespace().map(|byte| {
        assert_eq!(byte.len(), 2, "{line}");
        u8::from_str_radix(byte, 16).unwrap_or_else(|_| panic!("{line}"))
    });
    bytes.collect::<Vec<u8>>().repeat(times)
}

/// A line that begins with a word is an answer.
fn block(lines: &str) -> Block {
    let mut block = Block { book: Vec::new(), answers: Vec::new() };
    for line in lines.lines().map(|line| line.split(';').next().expect("a part").trim()) {
        match line.starts_with(|first: char| first.is_ascii_lowercase()) {
            true => block.answers.push((line.to_string(), Vec::new())),
            false => block.answers.last_mut().map_or(&mut block.book, |(_, left)| left).extend(row(line)),
        }
    }
    block
}

/// The blocks of a text that are marked so.
pub fn marked(mark: &str, text: &str) -> Vec<Block> {
    let start = format!("```{mark}\n");
    text.split(&start).skip(1).map(|text| block(text.split_once("```").expect("the end of the block").0)).collect()
}

/// Those with a single book.
pub fn blocks(text: &str) -> Vec<Block> {
    marked("book", text)
}

/// FORMAT.md before the refusals, and the section of each refusal with the number that it begins with.
pub fn format() -> (String, Vec<(u8, String)>) {
    let text = text("docs/FORMAT.md");
    let (before, after) = text.split_once("\n## Where a book is refused\n").expect("the refusals");
    let (refusals, _) = after.split_once("\n## ").expect("the end of the refusals");
    let sections = refusals.split("\n### ").skip(1).map(|section| {
        let (head, rest) = section.split_once(": ").expect("a number and a condition");
        (number(head), rest.to_string())
    });
    (before.to_string(), sections.collect())
}
