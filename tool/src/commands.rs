//! The commands, a row each: a later one is one more row, and a function.

use crate::ask::{check, join, preview, run, sheet, Ran, Refusal, Stop, NO_ANSWER};
use crate::assemble::assemble;
use crate::book::{Book, MOST_CELLS};
use crate::cells::{graph, table};
use crate::explanation::{printed, with_carets};
use crate::format::{headings, section, NUMBERS};
use crate::input::{book, form_of, read, shown_name, text, Form, Input};
use crate::joining::{accepted, refused, would_be_accepted, would_be_refused};
use crate::options::{options, Options, FLAGS};
use crate::print::{laid, typed};
use crate::refusals::explained;
use crate::running::{steps, traced, watched};
use crate::sheets::counted;
use crate::show::{exact, shown};
use crate::source::printable;
use crate::terminal::Terminal;
use std::ffi::OsString;
use std::fmt::Write;
use std::path::Path;
use std::time::{Duration, Instant};
use std::{fs, io};

/// How a command ended: its exit status.
#[derive(Clone, Copy, PartialEq, Eq, Debug)]
pub enum Status {
    Done = 0,
    Refused = 1,
    Failed = 2,
}

/// Why a command did nothing: it was called wrongly, or a file was not to be had.
enum Failure {
    Call(String),
    File(String),
}

type Ended = Result<Status, Failure>;

struct Command {
    name: &'static str,
    /// What it may be called with; a book that is left out is standard input.
    arguments: &'static [&'static str],
    does: &'static str,
    flags: &'static [&'static str],
    run: fn(&Options, &mut Terminal) -> Ended,
}

/// The steps that a run takes at most if no limit is given: the desk program's.
const LIMIT: u32 = 10_000;
/// A run that takes longer than this says how far it is.
const PATIENCE: Duration = Duration::from_millis(500);

static COMMANDS: [Command; 7] = [
    Command {
        name: "make",
        arguments: &["FILE"],
        does: "assembles the notation into a book",
        flags: &["-o", "--version", "--share"],
        run: make,
    },
    Command {
        name: "show",
        arguments: &["BOOK"],
        does: "prints a book in the notation, what is shared by name",
        flags: &["--exact", "--cells", "--dot", "--book", "--notation"],
        run: show,
    },
    Command {
        name: "check",
        arguments: &["BOOK"],
        does: "prints the book's type, or why it is refused, where, and what would help",
        flags: &["--book", "--notation"],
        run: check_book,
    },
    Command {
        name: "run",
        arguments: &["BOOK"],
        does: "prints why the run stopped, after how many steps, how large its terms became, and the term reached",
        flags: &["--limit", "--trace", "-o", "--book", "--notation"],
        run: run_book,
    },
    Command {
        name: "sheet",
        arguments: &["BOOK"],
        does: "prints a settings sheet's type and how many steps it takes, without a run, or why the book is refused",
        flags: &["--book", "--notation"],
        run: sheet_book,
    },
    Command {
        name: "join",
        arguments: &["PROJECT", "PART"],
        does: "joins a part to a project, or previews it: the joint's type, or which book is refused and why",
        flags: &["-o", "--preview"],
        run: join_books,
    },
    Command {
        name: "explain",
        arguments: &["NUMBER"],
        does: "prints what docs/FORMAT.md says of a refusal",
        flags: &[],
        run: explain,
    },
];

/// Does what the arguments ask for, and says how it ended.
pub fn main(arguments: &[OsString], terminal: &mut Terminal) -> Status {
    let ended = match arguments.first().map(|name| name.to_string_lossy()) {
        None => Err(Failure::Call("a command is wanted".into())),
        Some(name) if ["help", "--help", "-h"].contains(&&*name) => {
            helped(arguments.get(1).map(|about| about.to_string_lossy()).as_deref(), terminal)
        }
        Some(name) if name == "--version" => {
            terminal.print(concat!("cerealbank ", env!("CARGO_PKG_VERSION"), ", for books of version 1 and 2\n"));
            Ok(Status::Done)
        }
        Some(name) => command(&name).and_then(|command| asked(command, &arguments[1..], terminal)),
    };
    let ended = ended.and_then(|status| terminal.finish().map(|()| status).map_err(Failure::File));
    ended.unwrap_or_else(|failure| {
        let (message, hint) = match failure {
            Failure::Call(message) => (message, "\nTry: cerealbank help"),
            Failure::File(message) => (message, ""),
        };
        let shown: String = message.trim_end().chars().map(|sign| if sign == '\n' { sign } else { printable(sign) }).collect();
        terminal.complain(&format!("{shown}{hint}\n"));
        Status::Failed
    })
}

fn command(name: &str) -> Result<&'static Command, Failure> {
    let found = COMMANDS.iter().find(|command| command.name == name);
    found.ok_or_else(|| Failure::Call(format!("{name}: there is no such command")))
}

/// What there is, or what a command does.
fn helped(about: Option<&str>, terminal: &mut Terminal) -> Ended {
    let text = match about {
        Some(name) => manual(command(name)?),
        None => usage(),
    };
    terminal.print(&text);
    Ok(Status::Done)
}

fn asked(command: &Command, arguments: &[OsString], terminal: &mut Terminal) -> Ended {
    let options = options(arguments, command.flags, command.arguments.len()).map_err(Failure::Call)?;
    if options.help {
        terminal.print(&manual(command));
        return Ok(Status::Done);
    }
    terminal.quiet = options.quiet;
    (command.run)(&options, terminal)
}

/// All commands, a line each.
fn usage() -> String {
    let mut usage =
        String::from("Writes, shows, checks, runs, joins and explains folder books. The answers are the proved library's.\n\n");
    for command in &COMMANDS {
        writeln!(usage, "  cerealbank {:7} {:12}  {}", command.name, command.arguments.join(" "), command.does).ok();
    }
    usage
        + "\nA book is a file or standard input, in bytes or in the notation of docs/NOTATION.md.\n\
        `cerealbank COMMAND --help` has the flags. Exit status: 0 accepted, run or joined, 1 refused, 2 a wrong use or file.\n"
}

fn manual(command: &Command) -> String {
    let mut manual = format!("cerealbank {} {}: {}\n\n", command.name, command.arguments.join(" "), command.does);
    for flag in FLAGS.iter().filter(|flag| flag.is_of(command.flags)) {
        writeln!(manual, "  {:14}  {}", flag.usage(), flag.help).ok();
    }
    manual
}

fn input(options: &Options) -> Result<Input, Failure> {
    book(options.first(), options.form).map_err(Failure::File)
}

/// Writes a book to a file; `-` is standard output.
fn write_book(file: &OsString, bytes: &[u8], terminal: &mut Terminal) -> Result<(), Failure> {
    if file == "-" {
        terminal.write(bytes);
        return Ok(());
    }
    write_whole(file.as_ref(), bytes).map_err(|error| Failure::File(format!("{}: {error}", file.to_string_lossy())))
}

/// Writes a file whole or not at all: what it held stays until all that is new stands beside it. In a folder where nothing new may stand, it is
/// written over.
fn write_whole(file: &Path, bytes: &[u8]) -> io::Result<()> {
    let Some(held) = fs::canonicalize(file).ok().filter(|held| held.is_file()) else {
        return fs::write(file, bytes);
    };
    let rights = fs::OpenOptions::new().write(true).open(&held)?.metadata()?.permissions();
    let mut beside = held.clone().into_os_string();
    beside.push(format!(".{}", std::process::id()));
    let written = fs::write(&beside, bytes).and_then(|()| fs::set_permissions(&beside, rights));
    match written.and_then(|()| fs::rename(&beside, &held)) {
        Err(error) if error.kind() == io::ErrorKind::PermissionDenied => fs::write(&held, bytes),
        ended => ended.inspect_err(|_| {
            fs::remove_file(&beside).ok();
        }),
    }
}

fn make(options: &Options, terminal: &mut Terminal) -> Ended {
    let (name, bytes) = read(options.first()).map_err(Failure::File)?;
    if form_of(&bytes) == Form::Bytes && !bytes.is_empty() {
        return Err(Failure::File(format!("{name}: this is no text in the notation; `cerealbank show` prints a book")));
    }
    let source = text(name, bytes).map_err(Failure::File)?;
    let made = assemble(&source.text, options.version, options.share);
    let made = made.map_err(|fault| Failure::File(source.complaint(&fault)))?;
    let bytes = made.book.bytes();
    match &options.output {
        Some(file) => write_book(file, &bytes, terminal)?,
        None if terminal.is_one => {
            return Err(Failure::Call("a book is bytes, and this is a terminal: name a file with -o FILE".into()))
        }
        None => terminal.write(&bytes),
    }
    Ok(Status::Done)
}

/// Refusals 2 to 8 keep a book from being read; a root that is a type, or too large, or without a type, can be shown.
fn show(options: &Options, terminal: &mut Terminal) -> Ended {
    if [options.cells, options.dot, options.exact].iter().filter(|&&asked| asked).count() > 1 {
        return Err(Failure::Call("one of --exact, --cells and --dot is enough".into()));
    }
    let input = input(options)?;
    if options.cells {
        terminal.print(&table(&input.bytes));
        return Ok(Status::Done);
    }
    let refused = check(&input.bytes).err().filter(|refusal| refusal.number < 9);
    let book = match (refused, Book::read(&input.bytes)) {
        (None, Some(book)) => book,
        (refusal, _) => return Ok(refuse(&input, refusal.unwrap_or(NO_ANSWER), terminal)),
    };
    terminal.print(&match (options.dot, options.exact) {
        (true, _) => graph(&book),
        (_, true) => exact(&book, &input.labels),
        _ => shown(&book, &input.labels),
    });
    Ok(Status::Done)
}

fn refuse(input: &Input, refusal: Refusal, terminal: &mut Terminal) -> Status {
    terminal.print(&printed(refusal, &explained(input, refusal)));
    Status::Refused
}

fn check_book(options: &Options, terminal: &mut Terminal) -> Ended {
    let input = input(options)?;
    match check(&input.bytes) {
        Ok(found) => {
            terminal.print(&typed("accepted: ", &found, &input.labels));
            Ok(Status::Done)
        }
        Err(refusal) => Ok(refuse(&input, refusal, terminal)),
    }
}

fn sheet_book(options: &Options, terminal: &mut Terminal) -> Ended {
    let input = input(options)?;
    match sheet(&input.bytes) {
        Ok(sheet) => {
            terminal.print(&counted(&sheet, &input.labels));
            Ok(Status::Done)
        }
        Err(refusal) => Ok(refuse(&input, refusal, terminal)),
    }
}

/// Joins the second book to the first, or says what that would come to; a part that is left out is standard input.
fn join_books(options: &Options, terminal: &mut Terminal) -> Ended {
    let (Some(project), part) = (options.first(), options.second()) else {
        return Err(Failure::Call("a project and a part are wanted".into()));
    };
    if project == "-" && part.is_none_or(|part| part == "-") {
        return Err(Failure::Call("project and part cannot both be standard input".into()));
    }
    let project = book(Some(project), None).map_err(Failure::File)?;
    let part = book(part, None).map_err(Failure::File)?;
    match options.preview {
        true => preview_join(options, &project, &part, terminal),
        false => make_join(options, &project, &part, terminal),
    }
}

fn make_join(options: &Options, project: &Input, part: &Input, terminal: &mut Terminal) -> Ended {
    let joint = match join(&project.bytes, &part.bytes) {
        Ok(joint) => joint,
        Err((which, refusal)) => {
            terminal.print(&printed(refusal, &refused(project, part, which, refusal)));
            return Ok(Status::Refused);
        }
    };
    if let Some(file) = &options.output {
        write_book(file, &joint.bytes, terminal)?;
    }
    // Bytes on standard output stand alone there.
    if options.output.as_ref().is_none_or(|file| file != "-") {
        terminal.print(&accepted(joint, &project.labels.with(&part.labels)));
    }
    Ok(Status::Done)
}

/// No file is written, made or opened to be written.
fn preview_join(options: &Options, project: &Input, part: &Input, terminal: &mut Terminal) -> Ended {
    match preview(&project.bytes, &part.bytes) {
        Ok(told) => {
            let written = would_write(options.output.as_ref())?;
            terminal.print(&would_be_accepted(project, part, &told, &written));
            Ok(Status::Done)
        }
        Err((which, refusal)) => {
            terminal.print(&printed(refusal, &would_be_refused(project, part, which, refusal)));
            Ok(Status::Refused)
        }
    }
}

/// What a join that is accepted would write.
fn would_write(output: Option<&OsString>) -> Result<String, Failure> {
    let Some(file) = output else {
        return Ok("The join would write nothing either: there is no -o FILE.".into());
    };
    if file == "-" {
        return Ok("The join would write the joint to standard output.".into());
    }
    let shown = shown_name(file);
    match is_there(file.as_ref()) {
        Ok(true) => Ok(format!("The join would replace {shown} with the joint.")),
        Ok(false) => Ok(format!("The join would write the joint to {shown}.")),
        Err(error) => Err(Failure::File(format!("{shown}: {error}"))),
    }
}

/// Whether a file is there to be replaced. A folder cannot be, and without its folder no file can be made.
fn is_there(file: &Path) -> io::Result<bool> {
    match fs::metadata(file) {
        Ok(there) if there.is_dir() => Err(io::ErrorKind::IsADirectory.into()),
        Ok(there) => Ok(there.is_file()),
        Err(error) if error.kind() == io::ErrorKind::NotFound => {
            if file.as_os_str().as_encoded_bytes().ends_with(b"/") {
                return Err(io::ErrorKind::IsADirectory.into());
            }
            let folder = file.parent().ok_or(error)?;
            fs::metadata(Path::new(".").join(folder)).map(|_| false)
        }
        Err(error) => Err(error),
    }
}

fn run_book(options: &Options, terminal: &mut Terminal) -> Ended {
    let input = input(options)?;
    let limit = options.limit.unwrap_or(LIMIT);
    let traced = if options.trace && !terminal.quiet { trace(&input, limit, terminal) } else { Ok(()) };
    if !terminal.is_open() && options.output.is_none() {
        return Ok(Status::Done);
    }
    let ran = match traced.and_then(|()| ran(&input.bytes, limit, terminal)) {
        Ok(ran) => ran,
        Err(refusal) => return Ok(refuse(&input, refusal, terminal)),
    };
    if let Some(file) = &options.output {
        write_book(file, &ran.left, terminal)?;
    }
    terminal.print(&ending(&ran));
    if let Some(book) = Book::read(&ran.left).filter(|_| !options.trace) {
        terminal.print(&(laid(&book, &input.labels, None, 0).lines.join("\n") + "\n"));
    }
    Ok(Status::Done)
}

/// A run, and how far it is if it takes long and someone watches.
fn ran(bytes: &[u8], limit: u32, terminal: &mut Terminal) -> Result<Ran, Refusal> {
    if !terminal.watches {
        return run(bytes, limit);
    }
    let start = Instant::now();
    let ran = watched(bytes, limit, |so_far| {
        if start.elapsed() > PATIENCE {
            terminal.progress(so_far);
        }
    });
    terminal.clear();
    ran
}

/// Why a run stopped, after how many steps, and the cells of its largest term.
fn ending(ran: &Ran) -> String {
    let steps = steps(ran.steps);
    let why = match ran.stop {
        Stop::Value => format!("value after {steps}"),
        Stop::Spent => format!("stopped for steps after {steps}: the term is no value yet"),
        Stop::Room => format!("stopped for room after {steps}: the next term has more than {MOST_CELLS} cells"),
    };
    format!("{why}\nlargest term: {} of {} cells\n", grouped(ran.mark), grouped(MOST_CELLS as u32))
}

/// A count of cells as the pages write it.
fn grouped(cells: u32) -> String {
    match cells {
        0..=999 => cells.to_string(),
        _ => format!("{},{:03}", cells / 1_000, cells % 1_000),
    }
}

/// Every term with its number of steps before it.
fn trace(input: &Input, limit: u32, terminal: &mut Terminal) -> Result<(), Refusal> {
    traced(&input.bytes, limit, |reached| {
        let mut margin = format!("{:>5}  ", reached.steps);
        let mut text = String::new();
        for line in with_carets(&laid(&reached.term, &input.labels, reached.redex, margin.len())).concat() {
            writeln!(text, "{margin}{line}").ok();
            margin = " ".repeat(margin.len());
        }
        terminal.print(&text);
        terminal.is_open()
    })
}

fn explain(options: &Options, terminal: &mut Terminal) -> Ended {
    let Some(argument) = options.first() else {
        terminal.print(&headings().map(|heading| format!("{heading}\n")).collect::<String>());
        return Ok(Status::Done);
    };
    let shown = argument.to_string_lossy();
    match shown.parse().ok().and_then(section) {
        Some(section) => {
            terminal.print(&section);
            Ok(Status::Done)
        }
        None => Err(Failure::Call(format!("{shown}: the refusals have the numbers {} to {}", NUMBERS.start(), NUMBERS.end()))),
    }
}
