//! The desk program, and the example programs in C and in Rust, print the same lines, the examples with the run's mark in one more. The lines that
//! they are compared with are the evaluator's (`evaluator::desk`); the mark, and the lines of a join, of its preview and of a sheet, are the wrapper's.

#![cfg(not(library_missing))]

mod pages;

use cerealbank::{join, preview, run, sheet, Answer, Joined, RunAnswer, SheetAnswer, PROJECT, WORK};
use pages::FOLDERS;
use std::ffi::OsStr;
use std::path::{Path, PathBuf};
use std::process::{Command, Output};
use std::{env, fs};

const REPOSITORY: &str = concat!(env!("CARGO_MANIFEST_DIR"), "/..");
/// The library and the program as README's line for C names them, and the book that it runs.
const LIBRARY: &str = "target/staticlib/libcerealbank.a";
const PROGRAM: &str = "target/book";
const BOOK: &str = "books/hidden_field.book";
/// The desk program, as `rt` writes it.
const DESK: &str = "target/bin/desk";

/// README's line for C, without the compiler's name: what compiles the example.
fn readme_line() -> String {
    let readme = fs::read_to_string(Path::new(REPOSITORY).join("README.md")).expect("README.md");
    let line = readme.lines().find_map(|line| line.strip_prefix("    cc ")).expect("README's line for C");
    let (compiling, running) = line.split_once(" && ").expect("the compiler, then the program");
    assert_eq!(running, format!("{PROGRAM} {BOOK}"));
    compiling.to_string()
}

/// A C example, compiled as README's line compiles `book` and with no warning. The library is the one that the wrapper links, and the
/// program is written where cargo keeps what tests write.
fn in_c(example: &str) -> PathBuf {
    let program = Path::new(env!("CARGO_TARGET_TMPDIR")).join(example);
    let line = readme_line().replace("examples/book.c", &format!("examples/{example}.c"));
    let mut words: Vec<&OsStr> = line.split_whitespace().map(OsStr::new).collect();
    for (named, file) in [(LIBRARY, Path::new(env!("CEREALBANK_FILE"))), (PROGRAM, &program)] {
        *words.iter_mut().find(|word| **word == named).unwrap_or_else(|| panic!("{line} has no {named}")) = file.as_os_str();
    }
    let mut compiler = Command::new(env::var_os("CC").unwrap_or("cc".into()));
    compiler.current_dir(REPOSITORY).arg("-Werror").args(words);
    let status = compiler.status().expect("a C compiler: cc, or what CC names");
    assert!(status.success(), "{compiler:?}: {status}");
    program
}

/// A Rust example.
fn in_rust(example: &str) -> PathBuf {
    let test = env::current_exe().expect("this program");
    let folder = test.ancestors().nth(3).expect("cargo's folder");
    let mut cargo = Command::new(env!("CARGO"));
    cargo.current_dir(REPOSITORY).args(["build", "--quiet", "--release", "--offline", "--locked", "--example", example]);
    cargo.args(["--manifest-path", "wrapper/Cargo.toml", "--target-dir"]).arg(folder);
    let status = cargo.status().expect("cargo");
    assert!(status.success(), "{cargo:?}: {status}");
    folder.join("release/examples").join(example)
}

/// What a program has written of books.
fn written(output: Output, program: &Path, books: &[&Path]) -> String {
    assert!(output.status.success(), "{} {books:?}: {}", program.display(), output.status);
    String::from_utf8(output.stdout).expect("text")
}

/// What a program writes when it is given books.
fn printed(program: &Path, books: &[&Path]) -> String {
    let output = Command::new(program).args(books).output().unwrap_or_else(|error| panic!("{}: {error}", program.display()));
    written(output, program, books)
}

/// What the desk program writes of the book on its standard input.
fn on_the_desk(book: &Path) -> String {
    let program = Path::new(REPOSITORY).join(DESK);
    let output = Command::new(&program).stdin(fs::File::open(book).expect("a book")).output();
    written(output.unwrap_or_else(|error| panic!("{DESK}, which `tools/build desk` builds: {error}")), &program, &[book])
}

/// The books of a folder.
fn books_of(folder: &str) -> Vec<PathBuf> {
    let files = fs::read_dir(Path::new(REPOSITORY).join(folder)).expect("the folder");
    let files = files.map(|file| file.expect("a file").path());
    let books: Vec<PathBuf> = files.filter(|file| file.extension().is_some_and(|end| end == "book")).collect();
    assert!(!books.is_empty(), "{folder}");
    books
}

/// The sample books, and two files that are too short and too long for a book.
fn books() -> Vec<PathBuf> {
    let mut books = FOLDERS.map(books_of).concat();
    for length in [0, 100_000] {
        let file = Path::new(env!("CARGO_TARGET_TMPDIR")).join(format!("{length}.book"));
        fs::write(&file, vec![0; length]).expect("a file written");
        books.push(file);
    }
    books
}

/// The desk program's lines of a book, and behind why the run stopped the mark. A refused book has none.
fn with_mark(book: &[u8]) -> String {
    let lines = evaluator::desk(book);
    match run(book, &mut vec![0; WORK], evaluator::DESK_LIMIT) {
        RunAnswer::Value { mark, .. } | RunAnswer::Spent { mark, .. } | RunAnswer::Room { mark, .. } => {
            let mut lines: Vec<String> = lines.lines().map(str::to_string).collect();
            lines.insert(2, format!("mark {mark}"));
            lines.join("\n") + "\n"
        }
        _ => lines,
    }
}

#[test]
fn both_examples_print_the_lines_of_the_desk_program_and_the_mark() {
    for program in [in_c("book"), in_rust("book")] {
        let hidden = printed(&program, &[&Path::new(REPOSITORY).join(BOOK)]);
        assert_eq!(hidden, "accepted 1\nvalue 4\nmark 18\n0 17 0 0 2 0\n");
        for book in books() {
            let expected = with_mark(&fs::read(&book).expect("a book"));
            assert!(printed(&program, &[&book]) == expected, "{} {}", program.display(), book.display());
        }
    }
}

/// What a join or its preview says, in the examples' words.
fn in_words(joined: Joined) -> String {
    let which = format!("{:?}", joined.which).to_lowercase();
    match joined.answer {
        Answer::Refused { number, cell } => format!("{which} refused {number} {cell}"),
        Answer::Accepted { size } => format!("{which} accepted {size}, {} bytes", joined.bytes),
        other => panic!("{other:?}"),
    }
}

/// A join and its preview in the examples' lines.
fn join_lines(project: &[u8], part: &[u8]) -> String {
    let (mut lent, mut work) = (project.to_vec(), vec![0; WORK]);
    lent.resize(PROJECT, 0);
    let previewed = preview(&lent, project.len(), part, &mut work);
    let joined = join(&mut lent, project.len(), part, &mut work);
    let cells = lent[..joined.bytes.saturating_sub(8)].chunks(8).map(|cell| {
        let field = |at: usize| u16::from_le_bytes([cell[at], cell[at + 1]]);
        format!(" {} {} {} {} {}\n", cell[0], cell[1], field(2), field(4), field(6))
    });
    let cells: String = cells.enumerate().map(|(number, cell)| format!("{number}{cell}")).collect();
    format!("preview: {}\njoin: {}\n{cells}", in_words(previewed), in_words(joined))
}

#[test]
fn both_examples_join_as_the_wrapper_does() {
    let at = |name: &str| Path::new(REPOSITORY).join(format!("books/{name}.book"));
    let (office, site) = (at("joining/office"), at("joining/site"));
    let both_ways = |book: PathBuf| [[office.clone(), book.clone()], [book, office.clone()]];
    let pairs: Vec<[PathBuf; 2]> = books().into_iter().flat_map(both_ways).collect();
    for program in [in_c("join"), in_rust("join")] {
        let joined = printed(&program, &[&office, &site]);
        let cells = ["0 17 0 0 12 0", "1 24 1 0 0 0", "2 17 0 0 34 0", "3 24 2 2 0 0", "4 22 0 1 3 0"];
        let answers = ["preview: joint accepted 5, 48 bytes", "join: joint accepted 5, 48 bytes"];
        assert_eq!(joined.lines().collect::<Vec<_>>(), [&answers[..], &cells].concat());
        let refused = printed(&program, &[&office, &at("refusals/12")]);
        assert_eq!(refused, "preview: part refused 12 2\njoin: part refused 12 2\n");
        for [project, part] in &pairs {
            let expected = join_lines(&fs::read(project).expect("a book"), &fs::read(part).expect("a book"));
            assert!(printed(&program, &[project, part]) == expected, "{} {project:?} {part:?}", program.display());
        }
    }
}

/// The sheet call in the examples' lines.
fn sheet_lines(book: &[u8]) -> String {
    match sheet(book, &mut vec![0; WORK]) {
        SheetAnswer::Refused { number, cell } => format!("refused {number} {cell}\n"),
        SheetAnswer::Accepted { size, steps } => format!("accepted {size}\nsteps {steps}\n"),
        other => panic!("{other:?}"),
    }
}

#[test]
fn both_examples_count_the_steps_of_a_sheet_as_the_wrapper_does() {
    for program in [in_c("sheet"), in_rust("sheet")] {
        let at = |name: &str| printed(&program, &[&Path::new(REPOSITORY).join(format!("books/{name}.book"))]);
        assert_eq!(at("sheets/doubled_copies"), "accepted 1\nsteps 1023\n");
        assert_eq!(at("sheets/17"), "refused 17 3\n");
        for book in books() {
            let expected = sheet_lines(&fs::read(&book).expect("a book"));
            assert!(printed(&program, &[&book]) == expected, "{} {}", program.display(), book.display());
        }
    }
}

/// A number of 48 bits is printed in three fields: 2^40 less 1.
#[test]
fn the_desk_program_prints_the_lines_of_the_evaluator() {
    let sum =
        [[17, 0, 0, 0, 0, 0, 0, 1], [17, 0, 255, 255, 255, 255, 255, 255], [26, 0, 0, 0, 1, 0, 0, 0], [240, 2, 3, 0, 2, 0, 0, 0]]
            .concat();
    let wide = Path::new(env!("CARGO_TARGET_TMPDIR")).join("wide.book");
    fs::write(&wide, &sum).expect("a file written");
    assert_eq!(on_the_desk(&wide), "accepted 1\nvalue 1\n0 17 0 65535 65535 255\n");
    for book in books() {
        let expected = evaluator::desk(&fs::read(&book).expect("a book"));
        assert!(on_the_desk(&book) == expected, "{}", book.display());
    }
}
