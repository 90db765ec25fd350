//! What the tests share: the books of the repository, generated ones, and the program called as a user calls it.
#![allow(dead_code)]

use compare::deepest::deepest;
use compare::extremes::extremes;
use compare::families::families;
use std::ffi::OsString;
use std::fs;
use std::io::Write;
use std::path::{Path, PathBuf};
use std::process::{Command, Output, Stdio};
use tool::book::Book;
use tool::commands::{main, Status};
use tool::kinds::Kind;
use tool::terminal::Terminal;

pub fn at(path: &str) -> PathBuf {
    Path::new(env!("CARGO_MANIFEST_DIR")).join("..").join(path)
}

pub fn text(path: &str) -> String {
    fs::read_to_string(at(path)).unwrap_or_else(|error| panic!("{path}: {error}"))
}

pub fn bytes(path: &str) -> Vec<u8> {
    fs::read(at(path)).unwrap_or_else(|error| panic!("{path}: {error}"))
}

/// The files below a folder with an ending, as paths from the repository's own folder.
pub fn files(folder: &str, ending: &str) -> Vec<String> {
    let mut found = Vec::new();
    for entry in fs::read_dir(at(folder)).expect("a folder") {
        let name = entry.expect("an entry").file_name().into_string().expect("a name");
        let path = format!("{folder}/{name}");
        if at(&path).is_dir() {
            found.extend(files(&path, ending));
        } else if name.ends_with(ending) {
            found.push(path);
        }
    }
    found.sort();
    found
}

/// A file in the folder that cargo keeps for tests.
pub fn scratch(name: &str, bytes: &[u8]) -> PathBuf {
    let file = PathBuf::from(env!("CARGO_TARGET_TMPDIR")).join(name);
    fs::write(&file, bytes).expect("a file");
    file
}

pub fn name(file: &Path) -> &str {
    file.to_str().expect("a name")
}

/// So many top values, the last for a root.
pub fn tops(count: usize) -> Vec<u8> {
    let mut book = Book::new(1);
    (0..count).for_each(|_| {
        book.add(Kind::TopValue, &[]);
    });
    book.bytes()
}

/// Some books of every family of the comparison.
pub fn generated(seed: u64, of_each: usize) -> Vec<Vec<u8>> {
    let of_families =
        families().into_iter().flat_map(|family| family.in_both_versions(seed, of_each).take(of_each).collect::<Vec<_>>());
    of_families.collect()
}

/// The deepest books of every shape, and those at the ends of what a book may have.
pub fn largest() -> Vec<Vec<u8>> {
    extremes().into_iter().chain(deepest().into_iter().map(|deep| deep.book)).collect()
}

/// The program called with arguments and an input.
pub fn called(arguments: &[&str], input: &[u8]) -> Output {
    let mut command = Command::new(env!("CARGO_BIN_EXE_cerealbank"));
    command.args(arguments).current_dir(at("."));
    command.stdin(Stdio::piped()).stdout(Stdio::piped()).stderr(Stdio::piped());
    let mut child = command.spawn().expect("the program");
    let mut stdin = child.stdin.take().expect("its input");
    let input = input.to_vec();
    // A program that does not read its input closes it.
    let writer = std::thread::spawn(move || stdin.write_all(&input).ok());
    let output = child.wait_with_output().expect("its output");
    writer.join().expect("the input is written");
    output
}

/// What the program printed and its exit status. It never panics.
pub fn answered(arguments: &[&str], input: &[u8]) -> (String, i32) {
    let output = called(arguments, input);
    let complaint = String::from_utf8_lossy(&output.stderr).into_owned();
    assert!(!complaint.contains("panicked"), "{arguments:?}: {complaint}");
    let status = output.status.code().unwrap_or_else(|| panic!("{arguments:?}: {:?}", output.status));
    (String::from_utf8_lossy(&output.stdout).into_owned() + &complaint, status)
}

/// What the program prints and how it ends, in this process: a call takes less time.
pub fn printed(arguments: &[&str]) -> (String, Status) {
    let (mut out, mut err) = (Vec::new(), Vec::new());
    let arguments: Vec<OsString> = arguments.iter().map(OsString::from).collect();
    let status = main(&arguments, &mut Terminal::plain(&mut out, &mut err));
    (String::from_utf8([out, err].concat()).expect("a text"), status)
}

/// The part that stands right above the first carets.
pub fn marked(printed: &str) -> &str {
    let lines: Vec<&str> = printed.lines().collect();
    let carets = lines.iter().position(|line| line.contains('^')).expect("carets");
    let from = lines[carets].find('^').expect("a caret");
    let to = lines[carets].rfind('^').expect("a caret");
    &lines[carets - 1][from..=to]
}

/// What the program prints on a terminal, where there is `script` to be one.
pub fn on_terminal(arguments: &str, no_color: &str) -> Option<String> {
    let command = format!("{} {arguments}", env!("CARGO_BIN_EXE_cerealbank"));
    let mut script = Command::new("script");
    script.args(["-qec", &command, "/dev/null"]).env("NO_COLOR", no_color).current_dir(at(".")).stdin(Stdio::null());
    Some(String::from_utf8_lossy(&script.output().ok()?.stdout).replace("\r\n", "\n"))
}
