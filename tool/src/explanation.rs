//! How a refusal is printed: a sentence, the part that it names, what is to be known of it, and what would help.

use crate::ask::Refusal;
use crate::book::Book;
use crate::kinds::Sort;
use crate::labels::Labels;
use crate::layout::{lay_out, Laid, WIDTH};
use crate::print::{bare_type, laid};

/// The lines that are shown at either end of a long type or term.
const ENDS: usize = 3;
/// What stands within a sentence is shorter than this.
const SHORT: usize = 60;
/// The lines about a marked part that are shown, and of a long part those at its ends.
const CONTEXT: usize = 2;
/// The columns that stand before a type or a term.
const MARGIN: usize = 16;
/// What stands before the answer that a join would give.
pub const WOULD_BE: &str = "would be ";

/// What is to be known, under a heading.
pub type Fact = (&'static str, Vec<String>);

/// A refusal in words, and everything that is shown with it.
#[derive(Default)]
pub struct Explanation {
    /// Which book it is of, where there are several.
    pub of: Option<&'static str>,
    /// Whether it is of a join that would be made.
    pub foreseen: bool,
    pub sentence: String,
    /// The part, marked.
    pub place: Vec<String>,
    pub facts: Vec<Fact>,
    pub help: Vec<String>,
}

impl Explanation {
    pub fn says(sentence: impl Into<String>) -> Explanation {
        Explanation { sentence: sentence.into(), ..Explanation::default() }
    }

    pub fn fact(mut self, heading: &'static str, fact: impl Into<String>) -> Explanation {
        self.facts.push((heading, vec![fact.into()]));
        self
    }

    pub fn facts(mut self, heading: &'static str, facts: Vec<String>) -> Explanation {
        self.facts.extend((!facts.is_empty()).then_some((heading, facts)));
        self
    }

    /// A type; where the question was too large to be asked, that is said.
    pub fn with_type(self, heading: &'static str, a_type: Option<&Book>, labels: &Labels) -> Explanation {
        let lines =
            a_type.map_or(vec!["not found: the question is too large for a book".into()], |a_type| lines_of(a_type, labels));
        self.facts(heading, lines)
    }

    pub fn helps(mut self, help: impl Into<String>) -> Explanation {
        self.help.push(help.into());
        self
    }
}

/// A type or a term in the notation; of a long one both ends.
pub fn lines_of(book: &Book, labels: &Labels) -> Vec<String> {
    let mut lines = match book.parts[book.root].sort() {
        Sort::Type => lay_out(&bare_type(book, labels), MARGIN).lines,
        Sort::Term => laid(book, labels, None, MARGIN).lines,
    };
    if lines.len() > 2 * ENDS + 1 {
        let cut = format!("... ({} cells in all)", book.sizes()[book.root]);
        lines.splice(ENDS..lines.len() - ENDS, [cut]);
    }
    lines
}

/// The same on one line, if it is short.
pub fn short(book: &Book, labels: &Labels) -> Option<String> {
    let [line] = <[String; 1]>::try_from(lines_of(book, labels)).ok()?;
    (line.len() < SHORT).then_some(line)
}

/// Every line, its carets below it.
pub fn with_carets(laid: &Laid) -> Vec<Vec<String>> {
    let carets = |&(from, to): &(usize, usize)| format!("{}{}", " ".repeat(from), "^".repeat((to - from).max(1)));
    laid.lines
        .iter()
        .zip(&laid.marks)
        .map(|(line, mark)| std::iter::once(line.clone()).chain(mark.as_ref().map(carets)).collect())
        .collect()
}

/// The marked lines and those about them.
pub fn excerpt(laid: &Laid) -> Vec<String> {
    let first = laid.marks.iter().position(Option::is_some).unwrap_or(0);
    let last = laid.marks.iter().rposition(Option::is_some).unwrap_or(0);
    let near = |line: usize| line + CONTEXT >= first && line <= last + CONTEXT;
    let about_ends = |line: usize| line <= first + CONTEXT || line + CONTEXT >= last;
    let mut shown: Vec<String> = Vec::new();
    for (line, text) in with_carets(laid).into_iter().enumerate() {
        if near(line) && about_ends(line) {
            shown.extend(text);
        } else if shown.last().is_none_or(|last| last != "...") {
            shown.push("...".into());
        }
    }
    shown
}

/// Words in lines that are not too long.
fn wrapped(text: &str) -> Vec<String> {
    let mut lines: Vec<String> = vec![String::new()];
    for word in text.split(' ') {
        let here = lines.last_mut().filter(|line| line.is_empty() || line.len() + 1 + word.len() <= WIDTH);
        match here {
            Some(line) if line.is_empty() => line.push_str(word),
            Some(line) => line.extend([" ", word]),
            None => lines.push(word.into()),
        }
    }
    lines
}

/// Facts below each other, each behind its heading.
pub fn listed(facts: &[Fact]) -> Vec<String> {
    let width = facts.iter().map(|(heading, _)| heading.len()).max().unwrap_or(0) + 1;
    let mut lines = Vec::new();
    for (heading, fact) in facts {
        let margins = std::iter::once(format!("{heading}:")).chain(std::iter::repeat(String::new()));
        lines.extend(fact.iter().zip(margins).map(|(line, margin)| format!("  {margin:width$}  {line}")));
    }
    lines
}

/// Whether a refusal names a cell.
fn names_cell(number: u8) -> bool {
    matches!(number, 5..=15 | 17)
}

/// The words that a refusal is printed in.
pub fn printed(refusal: Refusal, explanation: &Explanation) -> String {
    let Explanation { of, foreseen, sentence, place, facts, help } = explanation;
    let would_be = if *foreseen { WOULD_BE } else { "" };
    let cell = if names_cell(refusal.number) { format!(", cell {}", refusal.cell) } else { String::new() };
    let of = of.map_or(String::new(), |book| format!(" of the {book}"));
    let mut lines = wrapped(&format!("{would_be}refused {}{cell}{of}: {sentence}.", refusal.number));
    lines.push(String::new());
    if !place.is_empty() {
        lines.extend(place.iter().map(|line| format!("  {line}")));
        lines.push(String::new());
    }
    lines.extend(listed(facts));
    if !facts.is_empty() {
        lines.push(String::new());
    }
    lines.extend(help.iter().flat_map(|help| wrapped(help)));
    lines.push(format!("More: cerealbank explain {}", refusal.number));
    lines.iter().map(|line| format!("{}\n", line.trim_end())).collect()
}
