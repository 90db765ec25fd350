//! The arguments of a command.

use crate::input::Form;
use std::ffi::{OsStr, OsString};
use std::os::unix::ffi::OsStrExt;

/// What a command was asked for.
#[derive(Default)]
pub struct Options {
    /// What is no flag: files, or a number.
    pub arguments: Vec<OsString>,
    pub output: Option<OsString>,
    pub version: Option<u8>,
    pub limit: Option<u32>,
    pub share: bool,
    pub cells: bool,
    pub dot: bool,
    pub exact: bool,
    pub trace: bool,
    pub preview: bool,
    pub quiet: bool,
    pub help: bool,
    pub form: Option<Form>,
}

/// What a flag does; one with a value says whether the value will do.
enum Set {
    Alone(fn(&mut Options)),
    With(&'static str, fn(&mut Options, OsString) -> bool),
}

pub struct Flag {
    pub name: &'static str,
    pub help: &'static str,
    set: Set,
}

const fn alone(name: &'static str, help: &'static str, set: fn(&mut Options)) -> Flag {
    Flag { name, help, set: Set::Alone(set) }
}

fn number<T: std::str::FromStr>(text: OsString) -> Option<T> {
    text.to_str()?.parse().ok()
}

/// All flags. A command has those that it names, and those of every command.
pub const FLAGS: [Flag; 13] = [
    Flag {
        name: "-o",
        help: "write the book to this file: what is made, the term that a run reached, or the joint",
        set: Set::With("FILE", |to, file| {
            to.output = Some(file);
            true
        }),
    },
    Flag {
        name: "--version",
        help: "the version of the book, 1 or 2",
        set: Set::With("N", |to, text| {
            to.version = number(text).filter(|version| (1..=2).contains(version));
            to.version.is_some()
        }),
    },
    Flag {
        name: "--limit",
        help: "the most steps to take, 0 to 4294967295; 10000 if it is not given",
        set: Set::With("N", |to, text| {
            to.limit = number(text);
            to.limit.is_some()
        }),
    },
    alone("--share", "lay equal parts down once", |to| to.share = true),
    alone("--cells", "the table of cells, and what each is", |to| to.cells = true),
    alone("--dot", "a graph for Graphviz", |to| to.dot = true),
    alone("--exact", "hold every cell: making it again gives the same bytes", |to| to.exact = true),
    alone("--trace", "every term on the way, what steps next marked", |to| to.trace = true),
    alone("--preview", "what the join would come to, or why not; no file is written, not even that of -o", |to| to.preview = true),
    alone("--book", "the input is a book in bytes, whatever it looks like", |to| to.form = Some(Form::Bytes)),
    alone("--notation", "the input is in the notation, whatever it looks like", |to| to.form = Some(Form::Notation)),
    alone("--quiet", "print no text: the exit status tells", |to| to.quiet = true),
    alone("--help", "what the command does, and its flags", |to| to.help = true),
];

impl Options {
    /// The first argument, the book in most commands.
    pub fn first(&self) -> Option<&OsStr> {
        self.arguments.first().map(OsString::as_os_str)
    }

    /// The second, the part of a join.
    pub fn second(&self) -> Option<&OsStr> {
        self.arguments.get(1).map(OsString::as_os_str)
    }
}

/// The flags of every command.
const EVERYWHERE: [&str; 2] = ["--quiet", "--help"];

impl Flag {
    /// Whether a command with these flags has it.
    pub fn is_of(&self, flags: &[&str]) -> bool {
        flags.contains(&self.name) || EVERYWHERE.contains(&self.name)
    }

    /// The flag as it is written, with the name of its value.
    pub fn usage(&self) -> String {
        match self.set {
            Set::Alone(_) => self.name.into(),
            Set::With(value, _) => format!("{} {value}", self.name),
        }
    }
}

/// Reads the arguments of a command that has these flags, and at most so many other arguments.
pub fn options(arguments: &[OsString], flags: &[&str], most: usize) -> Result<Options, String> {
    let mut options = Options::default();
    let mut left = arguments.iter();
    let mut only_names = false;
    while let Some(argument) = left.next() {
        let text = argument.to_string_lossy();
        if only_names || !text.starts_with('-') || text == "-" {
            options.arguments.push(argument.clone());
            if options.arguments.len() > most {
                return Err(format!("{text}: that is an argument too many"));
            }
        } else if text == "--" {
            only_names = true;
        } else {
            set(&mut options, argument, flags, &mut left)?;
        }
    }
    Ok(options)
}

/// Sets a flag, its value behind `=` or the next argument.
fn set<'a>(
    options: &mut Options,
    argument: &OsStr,
    flags: &[&str],
    left: &mut impl Iterator<Item = &'a OsString>,
) -> Result<(), String> {
    let bytes = argument.as_bytes();
    let end = bytes.iter().position(|&byte| byte == b'=').unwrap_or(bytes.len());
    let name = &*String::from_utf8_lossy(&bytes[..end]);
    let value = bytes.get(end + 1..).map(|value| OsStr::from_bytes(value).to_owned());
    let known = FLAGS.iter().find(|flag| flag.name == name && flag.is_of(flags));
    let help = known.map_or("", |flag| flag.help);
    match (known.map(|flag| &flag.set), value) {
        (None, _) => Err(format!("{name}: this command has no such flag")),
        (Some(Set::Alone(set)), None) => {
            set(options);
            Ok(())
        }
        (Some(Set::Alone(_)), Some(_)) => Err(format!("{name}: this flag has no value")),
        (Some(Set::With(what, set)), value) => {
            let value = value.or_else(|| left.next().cloned()).ok_or(format!("{name}: {what} is wanted"))?;
            let shown = value.to_string_lossy().into_owned();
            set(options, value).then_some(()).ok_or(format!("{name} {shown}: {what} is {help}"))
        }
    }
}
