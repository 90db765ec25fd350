//! A book from a file or from standard input, in bytes or in the notation.

use crate::assemble::assemble;
use crate::labels::Labels;
use crate::source::{printable, Source, Span};
use std::ffi::OsStr;
use std::fs::File;
use std::io::{self, Read};

/// No more than this is read of a file. A book has at most 32,768 bytes, and a longer one is refused whatever is in it.
pub const MOST_BYTES: u64 = 1 << 22;

#[derive(Clone, Copy, PartialEq, Eq, Debug)]
pub enum Form {
    Bytes,
    Notation,
}

/// A book, and the text that it was written as, if it was, with the names of its labels.
pub struct Input {
    pub bytes: Vec<u8>,
    pub labels: Labels,
    source: Option<(Source, Vec<Span>)>,
}

impl Input {
    pub fn of_bytes(bytes: Vec<u8>) -> Input {
        Input { bytes, labels: Labels::default(), source: None }
    }

    /// The text that the book was written as.
    pub fn source(&self) -> Option<&Source> {
        self.source.as_ref().map(|(source, _)| source)
    }

    /// The stretch of the text that a cell was written as, marked.
    pub fn source_of(&self, cell: usize) -> Option<String> {
        let (source, spans) = self.source.as_ref()?;
        Some(source.marked(*spans.get(cell)?))
    }
}

/// What a file holds by its content. A book begins with a kind, which is a control character other than a tab
/// or a line end, and its trailer has a zero; a text has neither.
pub fn form_of(bytes: &[u8]) -> Form {
    let is_control = |byte: &u8| byte.is_ascii_control() && !matches!(byte, b'\t' | b'\n' | b'\r');
    match bytes.first().is_none_or(is_control) || bytes.contains(&0) {
        true => Form::Bytes,
        false => Form::Notation,
    }
}

/// A file's name as it is printed.
pub fn shown_name(name: &OsStr) -> String {
    name.to_string_lossy().chars().map(printable).collect()
}

/// A file as it is, and its name; standard input if there is no name, or the name is `-`.
pub fn read(file: Option<&OsStr>) -> Result<(String, Vec<u8>), String> {
    let named = file.filter(|name| *name != "-");
    let shown = named.map_or("standard input".into(), shown_name);
    let mut bytes = Vec::new();
    let read = match named {
        Some(name) => File::open(name).and_then(|file| file.take(MOST_BYTES).read_to_end(&mut bytes)),
        None => io::stdin().lock().take(MOST_BYTES).read_to_end(&mut bytes),
    };
    match read {
        Ok(_) => Ok((shown, bytes)),
        Err(error) => Err(format!("{shown}: {error}")),
    }
}

/// The text of a file in the notation.
pub fn text(name: String, bytes: Vec<u8>) -> Result<Source, String> {
    if bytes.len() as u64 == MOST_BYTES {
        return Err(format!("{name}: a text in the notation has fewer than {MOST_BYTES} bytes"));
    }
    let text = String::from_utf8_lossy(&bytes);
    Ok(Source { name, text: text.strip_prefix('\u{FEFF}').unwrap_or(&text).to_owned() })
}

/// A book. A text is assembled; what is wrong with it is the error.
pub fn book(file: Option<&OsStr>, form: Option<Form>) -> Result<Input, String> {
    let (name, bytes) = read(file)?;
    if form.unwrap_or_else(|| form_of(&bytes)) == Form::Bytes {
        return Ok(Input::of_bytes(bytes));
    }
    let source = text(name, bytes)?;
    let made = assemble(&source.text, None, false).map_err(|fault| source.complaint(&fault))?;
    Ok(Input { bytes: made.book.bytes(), labels: made.labels, source: Some((source, made.spans)) })
}
