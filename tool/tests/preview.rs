//! Joins previewed: what is said is what a join then says, and nothing is written.

mod common;

use common::{answered, at, bytes, called, files, generated, name, printed, scratch, tops};
use std::ffi::OsString;
use std::fs::{self, File};
use std::os::unix::fs::MetadataExt;
use std::path::{Path, PathBuf};
use std::process::Command;
use std::time::{Duration, SystemTime};
use tool::ask::{join, preview};
use tool::book::Book;
use tool::commands::Status;
use tool::deep;
use tool::layout::WIDTH;

const NOTHING_WRITTEN: &str = "This is a preview: nothing is written.\n";
const AS_IT_IS: &str = "The join would write nothing either: the project would stay as it is.\n";

/// A preview of sample books, called as a user calls it.
fn previewed(project: &str, part: &str, more: &[&str]) -> (String, i32) {
    let books = [project, part].map(|book| format!("books/{book}"));
    answered(&[&["join", &books[0], &books[1], "--preview"], more].concat(), b"")
}

/// Words with one blank between them, wherever the lines end.
fn words(text: &str) -> String {
    text.split_whitespace().collect::<Vec<_>>().join(" ")
}

#[test]
fn a_join_that_would_be_accepted() {
    let expected = "would be accepted: {1 : Int} & {2 : Int}
joint: 5 cells, 48 bytes, version 1

  cells of the project:  2 now, 5 with the part: 4090 of 4095 left
  with nothing shared:   2 now, 5 with the part: 4090 of 4095 left

This is a preview: nothing is written.
The join would write nothing either: there is no -o FILE.
";
    for (project, part) in [("office.book", "site.book"), ("office.txt", "site.book"), ("office.book", "site.txt")] {
        let books = [project, part].map(|book| format!("joining/{book}"));
        assert_eq!(previewed(&books[0], &books[1], &[]), (expected.into(), 0));
        let flag_first = answered(&["join", "--preview", &format!("books/{}", books[0])], &bytes(&format!("books/{}", books[1])));
        assert_eq!(flag_first, (expected.into(), 0));
    }
}

/// A type that has room behind the words of a join, and none behind those of a preview.
#[test]
fn a_type_that_takes_several_lines() {
    let fields: Vec<String> = (10..16).map(|label| format!("{{{label} = {label}}}")).collect();
    let project = scratch("fields.txt", fields.join(" ,, ").as_bytes());
    let arguments = ["join", name(&project), "books/joining/top.book"];
    let (foreseen, _) = answered(&[&arguments[..], &["--preview"]].concat(), b"");
    let (said, _) = answered(&arguments, b"");
    let answer = foreseen.split("\n\n").next().expect("an answer");
    assert_eq!(words(answer), format!("would be {}", words(&said)));
    assert!(said.lines().count() == 2 && answer.lines().count() > 2, "{said}{answer}");
    assert!(answer.lines().all(|line| line.len() <= WIDTH), "{answer}");
}

/// The names of both books' labels.
#[test]
fn labels_of_both_are_shown() {
    let project = scratch("labels.txt", b"label office = 1 {office = 12}");
    let (said, _) = answered(&["join", name(&project), "--preview"], b"label site = 2 {site = 34}");
    assert!(said.starts_with("would be accepted: {office : Int} & {site : Int}\n"), "{said}");
    let (said, _) = answered(&["join", name(&project), "--preview"], b"label site = 2 {1 = 13} ,, {site = 34}");
    assert!(said.contains("\n  part:     {office : Int} & {site : Int}\n"), "{said}");
}

/// Cells that the roots do not reach count as cells, and what is shared counts as often as it is used.
#[test]
fn how_the_project_would_grow() {
    let growth = |project: &str, part: &str| {
        let said = previewed(project, part, &[]).0;
        let facts = said.split("\n\n").nth(1).unwrap_or_else(|| panic!("{said}")).to_owned();
        facts.lines().map(words).collect::<Vec<_>>()
    };
    assert_eq!(
        growth("joining/drafts.book", "joining/notes.book"),
        [
            "cells of the project: 4 now, 8 with the part: 4087 of 4095 left",
            "with nothing shared: 2 now, 5 with the part: 4090 of 4095 left",
            "version: 1 now, 2 with the part",
        ]
    );
    assert_eq!(growth("joining/register.book", "joining/correction.book").len(), 2);
    let shared = scratch("shared.txt", b"share let a = T ,, T in let b = a ,, a in b ,, b");
    let said = answered(&["join", name(&shared), "--preview"], &tops(4_090));
    assert!(said.0.contains("  cells of the project:  4 now, 4095 with the part: 0 of 4095 left\n"), "{said:?}");
    assert!(said.0.contains("  with nothing shared:   15 now, 17 with the part: 4078 of 4095 left\n"), "{said:?}");
}

/// A refusal of each book that can be meant, and of the joint each that can be said.
#[test]
fn a_join_that_would_be_refused() {
    for (project, part, first) in [
        ("unequal_numbers.book", "joining/site.book", "would be refused 14, cell 2 of the project: "),
        ("refusals/05.book", "refusals/12.book", "would be refused 5, cell 1 of the project: "),
        ("joining/site.book", "refusals/12.book", "would be refused 12, cell 2 of the part: "),
        ("joining/site.book", "refusals/02.book", "would be refused 2 of the part: "),
        ("joining/doubled.book", "joining/top.book", "would be refused 10, cell 13 of the joint: "),
        ("joining/office.book", "joining/revision.book", "would be refused 14, cell 4 of the joint: "),
    ] {
        let (said, status) = previewed(project, part, &[]);
        assert!(said.starts_with(first), "{said}");
        let number = first.split([' ', ',']).nth(3).expect("a number");
        assert!(said.ends_with(&format!("\n{NOTHING_WRITTEN}{AS_IT_IS}More: cerealbank explain {number}\n")), "{said}");
        assert_eq!(status, 1, "{said}");
    }
    let full = scratch("full_of_tops.book", &tops(4_000));
    let (said, status) = answered(&["join", name(&full), "--preview"], &tops(95));
    assert!(said.starts_with("would be refused 16 of the joint: it would have more than 4095 cells.\n"), "{said}");
    assert!(said.contains("\n  joint:    4096 cells, with the merge of the two\n"), "{said}");
    assert!(said.ends_with(&format!("\n{NOTHING_WRITTEN}{AS_IT_IS}More: cerealbank explain 16\n")), "{said}");
    assert_eq!(status, 1);
}

/// A file's bytes, when it was written, and which file it is.
fn state(file: &Path) -> (Vec<u8>, SystemTime, u64) {
    let metadata = fs::metadata(file).expect("a file");
    (fs::read(file).expect("its bytes"), metadata.modified().expect("a time"), metadata.ino())
}

fn names_in(folder: &Path) -> Vec<OsString> {
    let mut names: Vec<_> = fs::read_dir(folder).expect("a folder").map(|entry| entry.expect("an entry").file_name()).collect();
    names.sort();
    names
}

/// A new folder, with files that were written long ago.
fn folder(name: &str, files: &[(&str, &[u8])]) -> PathBuf {
    let folder = PathBuf::from(env!("CARGO_TARGET_TMPDIR")).join(name);
    fs::remove_dir_all(&folder).ok();
    fs::create_dir(&folder).expect("a folder");
    for (name, bytes) in files {
        fs::write(folder.join(name), bytes).expect("a file");
        let file = File::options().write(true).open(folder.join(name)).expect("the file");
        file.set_modified(SystemTime::UNIX_EPOCH + Duration::from_secs(1_000_000_000)).expect("a time");
    }
    folder
}

/// Whatever the answer and wherever the joint would go, no file is made, changed or replaced, and no byte of a joint is printed.
#[test]
fn nothing_is_written() {
    let office = bytes("books/joining/office.book");
    let folder = folder("previewed", &[("project.book", &office), ("kept.book", b"kept"), ("empty.book", b"")]);
    let [project, kept, empty, absent] = ["project.book", "kept.book", "empty.book", "absent.book"].map(|file| folder.join(file));
    let before = [&project, &kept, &empty].map(|file| state(file));
    for (part, expected) in [("joining/site", 0), ("joining/register", 0), ("joining/revision", 1), ("refusals/02", 1)] {
        let part = format!("books/{part}.book");
        for output in [name(&project), name(&kept), name(&empty), name(&absent), "-"] {
            let said = called(&["join", name(&project), &part, "-o", output, "--preview"], b"");
            assert_eq!(said.status.code(), Some(expected));
            assert!(said.stdout.starts_with(b"would be ") && !said.stdout.contains(&0), "{said:?}");
            let quiet = answered(&["join", name(&project), &part, "--quiet", "--preview", "-o", output], b"");
            assert_eq!(quiet, (String::new(), expected));
            assert_eq!([&project, &kept, &empty].map(|file| state(file)), before, "{part} {output}");
            assert_eq!(names_in(&folder), ["empty.book", "kept.book", "project.book"], "{part} {output}");
        }
    }
}

/// The program is called in a folder of its own.
#[test]
fn where_the_joint_would_go() {
    let folder = folder("written", &[("kept.book", b"kept")]);
    fs::create_dir(folder.join("below")).expect("a folder");
    let [project, part] = ["office", "site"].map(|book| at(&format!("books/joining/{book}.book")));
    for (output, last) in [
        ("kept.book", "The join would replace kept.book with the joint.\n"),
        ("below/../kept.book", "The join would replace below/../kept.book with the joint.\n"),
        ("absent.book", "The join would write the joint to absent.book.\n"),
        ("below/absent.book", "The join would write the joint to below/absent.book.\n"),
        ("a\x1b.book", "The join would write the joint to a?.book.\n"),
        ("/dev/null", "The join would write the joint to /dev/null.\n"),
        ("-", "The join would write the joint to standard output.\n"),
    ] {
        let mut command = Command::new(env!("CARGO_BIN_EXE_cerealbank"));
        command.args(["join", name(&project), name(&part), "--preview", "-o", output]).current_dir(&folder);
        let said = String::from_utf8(command.output().expect("the program").stdout).expect("a text");
        assert!(said.ends_with(&format!("\n\n{NOTHING_WRITTEN}{last}")), "{said}");
    }
    assert_eq!(names_in(&folder), ["below", "kept.book"]);
}

/// Where a join that is accepted could write no file, a preview fails as it does; a refused join would not come to that.
#[test]
fn a_file_that_could_not_be_written() {
    for output in ["books", "absent/", "no/such/folder/file", "README.md/file", ""] {
        let fails = previewed("joining/office.book", "joining/site.book", &["-o", output]);
        assert!(fails.1 == 2 && fails.0.starts_with(&format!("{output}: ")) && fails.0.lines().count() == 1, "{fails:?}");
        assert_eq!(answered(&["join", "books/joining/office.book", "books/joining/site.book", "-o", output], b"").1, 2);
        assert_eq!(previewed("joining/office.book", "joining/revision.book", &["-o", output]).1, 1);
    }
}

/// What a preview said of an accepted join is what the join then said and wrote.
fn accepted_agrees(foreseen: &str, said: &str, project: &[u8], joint: &[u8]) {
    let (answer, more) = foreseen.split_once("\n\n").expect("an answer, and what is below");
    assert_eq!(words(answer), format!("would be {}", words(said)));
    let [project, joint] = [project, joint].map(|bytes| (Book::read(bytes).expect("a book"), bytes.len()));
    let ([now, then], length) = ([project.0, joint.0], joint.1);
    assert!(
        answer.ends_with(&format!("\njoint: {} cells, {length} bytes, version {}", then.parts.len(), then.version)),
        "{answer}"
    );
    let cells = [&now, &then].map(|book| book.parts.len());
    let sizes = [&now, &then].map(|book| book.sizes()[book.root] as usize);
    for (heading, [now, then]) in [("cells of the project:", cells), ("with nothing shared: ", sizes)] {
        let line = format!("  {heading}  {now} now, {then} with the part: {} of 4095 left\n", 4_095 - then);
        assert!(more.contains(&line), "{line} is not in\n{foreseen}");
    }
    let changed = format!("  version:               {} now, {} with the part\n", now.version, then.version);
    assert_eq!(more.contains("version:"), now.version != then.version, "{foreseen}");
    assert!(now.version == then.version || more.contains(&changed), "{foreseen}");
}

/// Every two sample books: a preview, and then the join.
#[test]
fn what_was_foreseen_is_what_a_join_says_and_writes() {
    let counts = deep(|| {
        let books: Vec<(String, Vec<u8>)> =
            files("books", ".book").iter().map(|book| (name(&at(book)).to_owned(), bytes(book))).collect();
        let output = scratch("foreseen.book", b"");
        let mut counts = [0; 2];
        for ((project, book), (part, _)) in books.iter().flat_map(|project| books.iter().map(move |part| (project, part))) {
            fs::remove_file(&output).ok();
            let (foreseen, status) = printed(&["join", project, part, "-o", name(&output), "--preview"]);
            assert!(!output.exists(), "{project} {part}");
            let (said, joined) = printed(&["join", project, part, "-o", name(&output)]);
            assert_eq!(status, joined, "{project} {part}");
            if status == Status::Done {
                accepted_agrees(&foreseen, &said, book, &fs::read(&output).expect("the joint"));
                counts[0] += 1;
            } else {
                let (before, more) = foreseen.split_once(&format!("\n{NOTHING_WRITTEN}{AS_IT_IS}")).expect("what is written");
                assert_eq!(words(&format!("{before} {more}")), format!("would be {}", words(&said)), "{project} {part}");
                counts[1] += 1;
            }
        }
        counts
    });
    let [accepted, refused] = counts.expect("no panic");
    println!("{accepted} accepted, {refused} refused");
    assert!(accepted > 1_000 && refused > 2_000, "{accepted} {refused}");
}

/// The library's preview and its join, of generated books.
#[test]
fn preview_and_join_agree_on_generated_books() {
    let counts = deep(|| {
        let books = generated(29, 12);
        let mut counts = [0; 2];
        for pair in books.windows(2) {
            let told = preview(&pair[0], &pair[1]).map(|told| (told.bytes, told.found));
            counts[usize::from(told.is_err())] += 1;
            assert_eq!(told, join(&pair[0], &pair[1]).map(|joint| (joint.bytes.len(), joint.found)));
        }
        counts
    });
    let [accepted, refused] = counts.expect("no panic");
    println!("{accepted} accepted, {refused} refused");
    assert!(accepted > 50 && refused > 200, "{accepted} {refused}");
}
