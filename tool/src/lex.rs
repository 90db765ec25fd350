//! The words of the notation.

use crate::source::{Fault, Span};

#[derive(Clone, Copy, PartialEq, Eq, Debug)]
pub enum Token<'a> {
    Name(&'a str),
    Word(Word),
    /// The digits, with the sign.
    Number(&'a str),
    /// The digits behind `#`.
    Skipped(&'a str),
    Merge,
    Plus,
    Colon,
    Dot,
    Equals,
    Arrow,
    And,
    Lambda,
    Open,
    Close,
    OpenBrace,
    CloseBrace,
    End,
}

#[derive(Clone, Copy, PartialEq, Eq, Debug)]
pub enum Word {
    Label,
    Version,
    Share,
    Let,
    Type,
    In,
    Fix,
    If,
    Then,
    Else,
    TopValue,
    Int,
    Top,
}

/// The names that are kept for the notation.
pub const WORDS: [(&str, Word); 13] = [
    ("label", Word::Label),
    ("version", Word::Version),
    ("share", Word::Share),
    ("let", Word::Let),
    ("type", Word::Type),
    ("in", Word::In),
    ("fix", Word::Fix),
    ("if", Word::If),
    ("then", Word::Then),
    ("else", Word::Else),
    ("T", Word::TopValue),
    ("Int", Word::Int),
    ("Top", Word::Top),
];

const SIGNS: [(&str, Token); 12] = [
    (",,", Token::Merge),
    ("->", Token::Arrow),
    ("+", Token::Plus),
    (":", Token::Colon),
    (".", Token::Dot),
    ("=", Token::Equals),
    ("&", Token::And),
    ("\\", Token::Lambda),
    ("(", Token::Open),
    (")", Token::Close),
    ("{", Token::OpenBrace),
    ("}", Token::CloseBrace),
];

fn length(text: &str, of: impl Fn(u8) -> bool) -> usize {
    text.bytes().take_while(|&byte| of(byte)).count()
}

fn is_inner(byte: u8) -> bool {
    byte.is_ascii_alphanumeric() || byte == b'_'
}

/// The length of the spaces and comments at the start.
fn blank(text: &str) -> usize {
    let mut rest = text;
    loop {
        rest = rest.trim_start_matches([' ', '\t', '\r', '\n']);
        if !rest.starts_with("--") {
            return text.len() - rest.len();
        }
        rest = &rest[rest.find(['\n', '\r']).unwrap_or(rest.len())..];
    }
}

/// The word at the start of a text that is not blank, and its length.
fn word(text: &str) -> Result<(Token<'_>, usize), &'static str> {
    if let Some(&(sign, token)) = SIGNS.iter().find(|(sign, _)| text.starts_with(sign)) {
        return Ok((token, sign.len()));
    }
    let digits = |from: usize| from + length(&text[from..], |byte| byte.is_ascii_digit());
    let end = match text.as_bytes()[0] {
        b'0'..=b'9' => digits(0),
        b'-' | b'#' => digits(1),
        byte if is_inner(byte) => length(text, is_inner),
        b',' => return Err("there is no single comma: a merge is a ,, b, two fields are {1 = 2} ,, {3 = 4}, two arguments f 1 2"),
        0x80.. => return Err("this sign is not ASCII, and outside a comment the notation is"),
        _ => return Err("this sign is none of the notation's"),
    };
    match text.as_bytes()[0] {
        b'-' if end == 1 => Err("- stands only before a number, in ->, and twice before a comment; to subtract 1, write + -1"),
        b'#' if end == 1 => Err("# wants a number: how many binders the variable skips"),
        b'0'..=b'9' | b'-' | b'#' if text[end..].bytes().next().is_some_and(is_inner) => Err("a number ends with its digits"),
        b'0'..=b'9' | b'-' => Ok((Token::Number(&text[..end]), end)),
        b'#' => Ok((Token::Skipped(&text[1..end]), end)),
        _ => Ok((named(&text[..end]), end)),
    }
}

fn named(text: &str) -> Token<'_> {
    WORDS.iter().find(|(word, _)| *word == text).map_or(Token::Name(text), |&(_, word)| Token::Word(word))
}

/// All words of a text, each with its place; the last is the end.
pub fn words(text: &str) -> Result<Vec<(Token<'_>, Span)>, Fault> {
    let mut words = Vec::new();
    let mut at = blank(text);
    while at < text.len() {
        let sign = text[at..].chars().next().map_or(1, char::len_utf8);
        let (token, length) = word(&text[at..]).map_err(|message| Fault::new((at, at + sign), message))?;
        words.push((token, (at, at + length)));
        at += length;
        at += blank(&text[at..]);
    }
    let end = words.last().map_or(text.trim_end().len(), |&(_, (_, end))| end);
    words.push((Token::End, (end, end)));
    Ok(words)
}
