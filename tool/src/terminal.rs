//! Where a command prints: colours and progress on a terminal, plain text anywhere else.

use crate::ask::Ran;
use crate::explanation::WOULD_BE;
use std::ffi::OsString;
use std::io::{self, ErrorKind, IsTerminal, Write};

const RED: &str = "\x1b[1;31m";
const GREEN: &str = "\x1b[1;32m";
const PLAIN: &str = "\x1b[0m";

pub struct Terminal<'a> {
    out: &'a mut dyn Write,
    err: &'a mut dyn Write,
    /// Whether standard output is a terminal.
    pub is_one: bool,
    /// Whether it is to have colours.
    colours: bool,
    /// Whether someone watches a long run.
    pub watches: bool,
    pub quiet: bool,
    /// The length of the progress that stands on the terminal.
    told: usize,
    failed: Option<io::Error>,
}

impl<'a> Terminal<'a> {
    /// Plain output.
    pub fn plain(out: &'a mut dyn Write, err: &'a mut dyn Write) -> Terminal<'a> {
        Terminal { out, err, is_one: false, colours: false, watches: false, quiet: false, told: 0, failed: None }
    }

    /// Standard output and standard error, as they are.
    pub fn standard(out: &'a mut dyn Write, err: &'a mut dyn Write) -> Terminal<'a> {
        let is_one = io::stdout().is_terminal();
        let colours = has_colours(is_one, std::env::var_os("NO_COLOR"));
        Terminal { is_one, colours, watches: io::stderr().is_terminal(), ..Terminal::plain(out, err) }
    }

    /// Writes bytes as they are.
    pub fn write(&mut self, bytes: &[u8]) {
        if self.failed.is_none() {
            self.failed = self.out.write_all(bytes).and_then(|()| self.out.flush()).err();
        }
    }

    /// Prints a text, unless nothing is to be printed.
    pub fn print(&mut self, text: &str) {
        match (self.quiet, self.colours) {
            (true, _) => {}
            (_, true) => self.write(coloured(text).as_bytes()),
            (_, false) => self.write(text.as_bytes()),
        }
    }

    /// Whether what is printed is still read.
    pub fn is_open(&self) -> bool {
        self.failed.is_none()
    }

    /// What went wrong with the output; that its reader has gone is not wrong.
    pub fn finish(&mut self) -> Result<(), String> {
        let failed = self.failed.take().filter(|error| error.kind() != ErrorKind::BrokenPipe);
        failed.map_or(Ok(()), |error| Err(format!("standard output: {error}")))
    }

    pub fn complain(&mut self, text: &str) {
        self.err.write_all(text.as_bytes()).ok();
    }

    /// How far a long run is: its steps, the cells of the term reached and of the largest so far.
    pub fn progress(&mut self, so_far: &Ran) {
        if !self.quiet {
            let text = format!("{} steps, {} cells, largest {}", so_far.steps, so_far.cells(), so_far.mark);
            self.complain(&format!("\r{text:width$}", width = self.told));
            self.told = text.len();
        }
    }

    /// Takes the progress away.
    pub fn clear(&mut self) {
        if self.told > 0 {
            self.complain(&format!("\r{:width$}\r", "", width = self.told));
            self.told = 0;
        }
    }
}

/// Colours are for a terminal, and not where NO_COLOR is set to something.
fn has_colours(is_terminal: bool, no_color: Option<OsString>) -> bool {
    is_terminal && no_color.is_none_or(|value| value.is_empty())
}

/// The words of an answer and the carets in colour.
fn coloured(text: &str) -> String {
    text.split_inclusive('\n').map(coloured_line).collect()
}

fn coloured_line(line: &str) -> String {
    let carets = line.trim_start_matches([' ', '\t', '|']);
    if carets.starts_with('^') && carets.trim_end().bytes().all(|byte| byte == b'^') {
        return format!("{}{RED}{}{PLAIN}\n", &line[..line.len() - carets.len()], carets.trim_end());
    }
    let before = if line.starts_with(WOULD_BE) { WOULD_BE.len() } else { 0 };
    let words = |colour: &str, last: &str| {
        let (words, rest) = line.split_at(before + last.len());
        format!("{colour}{words}{PLAIN}{rest}")
    };
    match line[before..].split([':', ' ', ',']).next() {
        Some(last @ "refused") => words(RED, last),
        Some(last @ ("accepted" | "value" | "stopped")) => words(GREEN, last),
        _ => line.into(),
    }
}

#[cfg(test)]
mod tests {
    use super::{coloured, has_colours, Ran, Terminal, GREEN, PLAIN, RED};
    use crate::ask::Stop;
    use crate::book::CELL;

    #[test]
    fn colours_only_on_a_terminal_without_no_color() {
        assert!(has_colours(true, None) && has_colours(true, Some("".into())));
        assert!(!has_colours(true, Some("1".into())) && !has_colours(false, None));
    }

    /// Colours are added to an answer's word and to carets, and nothing is taken away.
    #[test]
    fn colours_are_added() {
        let text =
            "refused 14, cell 2: a.\n\n  1 ,, 2\n  ^^^^^^\n  1 | 1 ,, 2\n    | ^^^^\naccepted: Int\nvalue after 1 step\n1 ^\n\
             would be accepted: Int\nwould be refused 2 of the part: a.\nwould be\nwould be late\n";
        let shown = coloured(text);
        for part in [RED, GREEN, PLAIN] {
            assert!(shown.contains(part));
        }
        assert_eq!(shown.matches(PLAIN).count(), 7);
        assert!(shown.contains(&format!("    | {RED}^^^^{PLAIN}\n")) && shown.contains(&format!("{GREEN}accepted{PLAIN}: Int")));
        assert!(shown.contains(&format!("{GREEN}would be accepted{PLAIN}: Int")));
        assert!(shown.contains(&format!("{RED}would be refused{PLAIN} 2 of the part")));
        assert_eq!([RED, GREEN, PLAIN].iter().fold(shown, |shown, colour| shown.replace(colour, "")), text);
    }

    /// Progress is overwritten, the last one with blanks.
    #[test]
    fn progress_is_taken_away() {
        let (mut out, mut err) = (Vec::new(), Vec::new());
        let mut terminal = Terminal::plain(&mut out, &mut err);
        let ran = |steps, mark, cells: usize| Ran { stop: Stop::Spent, steps, mark, left: vec![0; (cells + 1) * CELL] };
        terminal.progress(&ran(100, 2_000, 2_000));
        terminal.progress(&ran(200, 2_300, 3));
        terminal.clear();
        terminal.clear();
        terminal.quiet = true;
        terminal.progress(&ran(300, 2_300, 3));
        let (first, second) = ("100 steps, 2000 cells, largest 2000", "200 steps, 3 cells, largest 2300   ");
        let blanks = " ".repeat(second.trim_end().len());
        assert_eq!(String::from_utf8(err).expect("a text"), format!("\r{first}\r{second}\r{blanks}\r"));
        assert!(out.is_empty());
    }
}
