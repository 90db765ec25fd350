//! A text with its lines, and a stretch of it shown with carets.

use std::fmt::Write;

/// From the first byte to behind the last.
pub type Span = (usize, usize);

/// What is wrong with a text, and where.
#[derive(Clone, PartialEq, Eq, Debug)]
pub struct Fault {
    pub at: Span,
    pub message: String,
}

impl Fault {
    pub fn new(at: Span, message: impl Into<String>) -> Fault {
        Fault { at, message: message.into() }
    }
}

/// A text in the notation, and the name that it is shown by.
pub struct Source {
    pub name: String,
    pub text: String,
}

/// The most characters of a line that are shown.
const SHOWN: usize = 96;
/// So many lines are shown at either end of a stretch.
const ABOUT_ENDS: usize = 2;

impl Source {
    /// Line and column, from 1 on, in characters.
    pub fn position(&self, at: usize) -> (usize, usize) {
        let before = &self.text[..self.boundary(at)];
        let line = before.matches('\n').count() + 1;
        let start = before.rfind('\n').map_or(0, |end| end + 1);
        (line, before[start..].chars().count() + 1)
    }

    fn boundary(&self, at: usize) -> usize {
        (0..=at.min(self.text.len())).rev().find(|&place| self.text.is_char_boundary(place)).unwrap_or(0)
    }

    /// `name:line:column`, and the lines of the stretch with carets below it; of many lines the first and the last.
    pub fn marked(&self, (from, to): Span) -> String {
        let (first, column) = self.position(from);
        let (last, end) = self.position(to.max(from));
        let width = last.to_string().len();
        let mut marked = format!("{}:{first}:{column}\n", self.name);
        let behind = last.saturating_sub(ABOUT_ENDS - 1).max(first + ABOUT_ENDS);
        for number in (first..=last).take(ABOUT_ENDS).chain(behind..=last) {
            let text: Vec<char> = self.text.split('\n').nth(number - 1).unwrap_or("").trim_end().chars().map(printable).collect();
            let start = if number == first { column - 1 } else { text.iter().take_while(|sign| sign.is_whitespace()).count() };
            let stop = if number == last { end - 1 } else { text.len() };
            let [line, carets] = marked_line(&text, start, stop);
            if number == behind && behind > first + ABOUT_ENDS {
                writeln!(marked, "  {:width$} | ...", "").ok();
            }
            writeln!(marked, "  {number:width$} | {line}").ok();
            writeln!(marked, "  {:width$} | {carets}", "").ok();
        }
        marked
    }

    /// A fault as it is printed: place, message, line and caret.
    pub fn complaint(&self, fault: &Fault) -> String {
        let marked = self.marked(fault.at);
        let (place, line) = marked.split_once('\n').unwrap_or((&marked, ""));
        format!("{place}: {}\n{line}", fault.message)
    }
}

/// A line, of a long one what is about the start of a stretch, and the carets below the stretch.
fn marked_line(text: &[char], start: usize, stop: usize) -> [String; 2] {
    let first = start.saturating_sub(SHOWN / 2).min(text.len().saturating_sub(SHOWN));
    let end = text.len().min(first + SHOWN);
    let shown: String = text[first..end].iter().collect();
    let lead: String = text[first..end.min(start).max(first)].iter().map(|&sign| if sign == '\t' { sign } else { ' ' }).collect();
    let carets = "^".repeat(stop.min(end).saturating_sub(start).max(1));
    let [before, behind] = [first > 0, end < text.len()].map(|cut| if cut { "..." } else { "" });
    [format!("{before}{shown}{behind}"), format!("{}{lead}{carets}", " ".repeat(before.len()))]
}

/// A character that does nothing to a terminal.
pub fn printable(sign: char) -> char {
    if sign.is_control() && sign != '\t' {
        '?'
    } else {
        sign
    }
}
