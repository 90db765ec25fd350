//! Books joined: what is said of the joint, of each book that is refused and of what overlaps, and what is written.

mod common;

use common::{answered, at, bytes, called, files, generated, name, scratch, text, tops};
use std::fs;
use std::path::PathBuf;
use std::process::Command;
use tool::ask::{check, join, Joint, Refusal, Which};
use tool::assemble::assemble;
use tool::book::{Book, Part};
use tool::deep;
use tool::explanation::printed;
use tool::input::Input;
use tool::joining::refused;
use tool::kinds::Kind;

fn sample(name: &str) -> String {
    format!("books/joining/{name}")
}

/// A project in a file, and a part on standard input.
fn said(project: &str, part: &str) -> (String, i32) {
    let file = scratch(&format!("{:?}.project", std::thread::current().id()), project.as_bytes());
    answered(&["join", name(&file), "-"], part.as_bytes())
}

/// Numbers from this one on, no two of them equal, and a record of the first for a root.
fn numbers(count: usize, label: i64, first: i64) -> Vec<u8> {
    let mut book = Book::new(1);
    (0..count as i64 - 1).for_each(|n| {
        book.push(Part::new(Kind::Number, first + n, &[]));
    });
    book.push(Part::new(Kind::Record, label, &[0]));
    book.bytes()
}

/// The pairs of docs/JOINING.md that are accepted, their type, and the joint's cells, bytes and version.
const ACCEPTED: [(&str, &str, &str, &str); 7] = [
    ("office", "site", "{1 : Int} & {2 : Int}", "5 cells, 48 bytes, version 1"),
    ("site", "office", "{2 : Int} & {1 : Int}", "5 cells, 48 bytes, version 1"),
    ("office", "office", "{1 : Int} & {1 : Int}", "5 cells, 48 bytes, version 1"),
    ("correction", "register", "Int & {3 : Int}", "4 cells, 40 bytes, version 2"),
    ("register", "correction", "{3 : Int} & Int", "4 cells, 40 bytes, version 2"),
    ("drafts", "notes", "{4 : Int} & {5 : Int}", "8 cells, 72 bytes, version 2"),
    ("counter", "register", "{6 : Int} & {3 : Int}", "7 cells, 64 bytes, version 2"),
];

/// Bytes and notation, either way, give the same answer; the joint is the file of both names.
#[test]
fn accepted_joins() {
    for (project, part, found, joint) in ACCEPTED {
        let expected = (format!("accepted: {found}\njoint: {joint}\n"), 0);
        for (one, other) in [("book", "book"), ("book", "txt"), ("txt", "book"), ("txt", "txt")] {
            let arguments = [format!("{}.{one}", sample(project)), format!("{}.{other}", sample(part))];
            assert_eq!(answered(&["join", &arguments[0], &arguments[1]], b""), expected, "{arguments:?}");
            let written = called(&["join", &arguments[0], &arguments[1], "-o", "-"], b"");
            assert_eq!(written.stdout, bytes(&format!("{}_{part}.book", sample(project))), "{arguments:?}");
        }
        let on_input = answered(&["join", &format!("{}.book", sample(project))], &bytes(&format!("{}.book", sample(part))));
        assert_eq!(on_input, expected);
        let on_input = answered(&["join", "-", &format!("{}.txt", sample(part))], &bytes(&format!("{}.book", sample(project))));
        assert_eq!(on_input, expected);
    }
}

#[test]
fn the_joint_is_written_and_can_be_joined_to() {
    let project = scratch("folder.book", &bytes("books/joining/office.book"));
    let file = name(&project);
    assert_eq!(answered(&["join", file, "books/joining/site.txt", "-o", file], b"").1, 0);
    assert_eq!(fs::read(&project).expect("the joint"), bytes("books/joining/office_site.book"));
    assert_eq!(
        answered(&["join", file, "books/joining/register.book", &format!("-o={file}")], b"").0,
        "accepted: {1 : Int} & {2 : Int} & {3 : Int}\njoint: 8 cells, 72 bytes, version 2\n"
    );
    assert_eq!(answered(&["show", file], b"").0, "version 2\n{1 = 12} ,, {2 = 34} ,, {3 = 1099511627776}\n");
    assert_eq!(
        answered(&["run", file], b"").0,
        "value after 0 steps\nlargest term: 8 of 4,095 cells\n{1 = 12} ,, {2 = 34} ,, {3 = 1099511627776}\n"
    );
    // A text stays a text until the joint takes its place.
    let text = scratch("folder.txt", b"{1 = 12}");
    assert_eq!(answered(&["join", name(&text), "books/joining/site.txt", "-o", name(&text), "--quiet"], b""), (String::new(), 0));
    assert_eq!(fs::read(&text).expect("the joint"), bytes("books/joining/office_site.book"));
}

/// The answer of a sum changes with the joint's version.
#[test]
fn a_sum_of_version_1_in_a_joint_of_version_2() {
    assert_eq!(
        answered(&["run", "books/joining/counter.book"], b"").0,
        "value after 1 step\nlargest term: 4 of 4,095 cells\n{6 = 2147483647}\n"
    );
    let joint = called(&["join", "books/joining/counter.book", "books/joining/register.book", "-o", "-"], b"").stdout;
    assert_eq!(
        answered(&["run"], &joint).0,
        "value after 1 step\nlargest term: 7 of 4,095 cells\n{6 = 2147483648} ,, {3 = 1099511627776}\n"
    );
}

/// A refused join writes nothing, whichever book is meant, and whatever the file to write is.
#[test]
fn a_refused_join_writes_nothing() {
    let absent = PathBuf::from(env!("CARGO_TARGET_TMPDIR")).join("absent.book");
    fs::remove_file(&absent).ok();
    let damaged = bytes("books/refusals/05.book");
    for (project, part) in [
        (bytes("books/joining/office.book"), bytes("books/joining/revision.book")),
        (bytes("books/joining/office.book"), damaged.clone()),
        (damaged, bytes("books/joining/office.book")),
        (b"{1 = 12} ,, {1 = 13}".to_vec(), bytes("books/joining/site.book")),
        (bytes("books/joining/doubled.book"), bytes("books/joining/top.book")),
        (tops(4_000), tops(95)),
        (vec![0; 70_000], bytes("books/joining/top.book")),
        (vec![], bytes("books/joining/top.book")),
    ] {
        let file = scratch("untouched.book", &project);
        for output in [&file, &absent] {
            let quiet = answered(&["join", name(&file), "-", "-o", name(output), "--quiet"], &part);
            assert_eq!(quiet, (String::new(), 1));
            assert_eq!(answered(&["join", name(&file), "-", "-o", name(output)], &part).1, 1);
            assert_eq!(fs::read(&file).expect("the project"), project);
            assert!(!absent.exists());
        }
        assert!(called(&["join", name(&file), "-", "-o", "-", "--quiet"], &part).stdout.is_empty());
    }
}

/// Where the joint cannot be written whole, the project's file stays: here no file may have a byte.
#[test]
fn a_joint_that_cannot_be_written_leaves_the_project() {
    let office = bytes("books/joining/office.book");
    let file = scratch("full.book", &office);
    let script = format!(
        "trap '' XFSZ; ulimit -f 0; exec '{}' join '{1}' books/joining/site.book -o '{1}' --quiet",
        env!("CARGO_BIN_EXE_cerealbank"),
        name(&file)
    );
    let output = Command::new("sh").args(["-c", &script]).current_dir(at(".")).output().expect("a shell");
    assert_eq!(output.status.code(), Some(2), "{output:?}");
    assert_eq!(fs::read(&file).expect("the project"), office);
    let left = fs::read_dir(env!("CARGO_TARGET_TMPDIR")).expect("a folder").map(|entry| entry.expect("an entry").file_name());
    assert!(!left.into_iter().any(|name| name.to_string_lossy().starts_with("full.book.")), "what was begun is left");
}

/// A link stays a link, and a file its rights; what is no file is written to.
#[test]
fn what_is_written_to_stays_what_it_is() {
    use std::os::unix::fs::{symlink, PermissionsExt};
    let file = scratch("linked.book", &bytes("books/joining/office.book"));
    fs::set_permissions(&file, fs::Permissions::from_mode(0o640)).expect("rights");
    let link = file.with_file_name("link.book");
    fs::remove_file(&link).ok();
    symlink(&file, &link).expect("a link");
    assert_eq!(answered(&["join", name(&link), "books/joining/site.book", "-o", name(&link)], b"").1, 0);
    assert!(fs::symlink_metadata(&link).expect("the link").is_symlink());
    assert_eq!(fs::metadata(&file).expect("the file").permissions().mode() & 0o777, 0o640);
    assert_eq!(fs::read(&file).expect("the joint"), bytes("books/joining/office_site.book"));
    assert_eq!(answered(&["join", name(&file), "books/joining/register.book", "-o", "/dev/null"], b"").1, 0);
}

/// Of the project and of the part a join says what a check says, and of which it is.
#[test]
fn a_book_that_is_refused_on_its_own() {
    for path in files("books/refusals", ".book").into_iter().chain(["books/unequal_rules.txt".to_owned()]) {
        let alone = answered(&["check", &path], b"").0;
        let words = |text: &str| text.split_whitespace().map(str::to_owned).collect::<Vec<_>>().join(" ");
        for (arguments, of) in [([&path[..], "books/joining/site.book"], "project"), (["books/joining/site.book", &path], "part")] {
            let (joined, status) = answered(&["join", arguments[0], arguments[1]], b"");
            assert_eq!(words(&joined), words(&alone).replacen(": ", &format!(" of the {of}: "), 1), "{path}");
            assert_eq!(status, 1);
        }
        // The project goes before the part.
        assert!(answered(&["join", &path, "books/refusals/12.book"], b"").0.contains(" of the project: "), "{path}");
    }
}

const CLASHES: [(&str, &str, &[&str]); 9] = [
    (
        "{1 = 12}",
        "{1 = 13}",
        &[
            "refused 14, cell 4 of the joint: project and part overlap, and nothing says which of them\ncounts.\n",
            "  project:  {1 : Int}\n  part:     {1 : Int}\n  overlap:  {1 = 12}\n  with:     {1 = 13}\n",
            "Both books are values, but where they overlap they are not the same.\nGive the records different labels, take the field out of one book,",
            "\nMore: cerealbank explain 14\n",
        ],
    ),
    (
        "label office = 1 label site = 2 5 ,, {office = {site = 3}}",
        "label here = 2 label there = 1 7 ,, {1 = {here = 4}}",
        &["overlap:  5\n  with:     7\n", "Take the number out of one book, or annotate one book with"],
    ),
    (
        "label office = 1 {office = {2 = 3}}",
        "label site = 2 {1 = {site = 4}}",
        &["in field:  office\n  overlap:   {site = 3}\n  with:      {site = 4}\n"],
    ),
    (
        "{1 = 12}",
        "{1 = 12} : {1 : Int}",
        &[
            "overlap:  {1 : Int}\n  with:     {1 : Int}\n",
            "The part is no value yet: only books of disjoint types may be merged then.",
            "join what a run of each comes to: cerealbank run BOOK -o FILE",
        ],
    ),
    ("1 + 2", "3", &["The project is no value yet: only books of disjoint types"]),
    ("1 + 2", "3 : Int", &["Both books are no values yet: only books of disjoint types"]),
    (
        "\\x : Int . x : Int",
        "\\x : Int . x + 0 : Int",
        &["overlap:  \\x : Int . x : Int\n  with:     \\x : Int . x + 0 : Int\n", "Functions agree if body and input type are the same."],
    ),
    // In one version the numbers would be equal, and are not: 2^32 + 1 and 1.
    ("1", "version 2 4294967297", &["overlap:  1\n  with:     4294967297\n"]),
    ("version 2 -5", "-6", &["overlap:  -5\n  with:     -6\n"]),
];

#[test]
fn what_overlaps_is_shown() {
    for (project, part, wanted) in CLASHES {
        let (printed, status) = said(project, part);
        assert_eq!(status, 1, "{printed}");
        for line in wanted {
            assert!(printed.contains(line), "{project} and {part}: {line} is not in\n{printed}");
        }
    }
    assert!(!said("{1 = 12}", "{1 = 13}").0.contains("cerealbank run"));
}

/// Equal numbers of two versions agree.
#[test]
fn versions_agree() {
    assert_eq!(said("-5", "version 2 -5"), ("accepted: Int & Int\njoint: 3 cells, 32 bytes, version 2\n".into(), 0));
    assert_eq!(said("version 2 {1 = 7}", "{1 = 7}").1, 0);
}

/// Calls that do nothing.
const WRONG: [&[&str]; 13] = [
    &["join"],
    &["join", "-"],
    &["join", "-", "-"],
    &["join", "no/such/file", "books/joining/site.book"],
    &["join", "books/joining/office.book", "no/such/file"],
    &["join", "books/joining", "books/joining/site.book"],
    &["join", "books/joining/office.book", "books/joining/site.book", "books/joining/top.book"],
    &["join", "books/joining/office.book", "books/joining/site.book", "-o"],
    &["join", "books/joining/office.book", "books/joining/site.book", "-o", "no/such/folder/file"],
    &["join", "books/joining/office.book", "books/joining/site.book", "-o", "books"],
    &["join", "books/joining/office.book", "books/joining/site.book", "--limit", "1"],
    &["join", "books/joining/office.book", "books/joining/site.book", "--quiet=1"],
    &["join", "books/joining/office.book", "docs/FORMAT.md"],
];

#[test]
fn calls_that_go_wrong() {
    let previews = WRONG.map(|wrong| [&wrong[..1], &["--preview"], &wrong[1..]].concat());
    for wrong in WRONG.into_iter().chain(previews.iter().map(Vec::as_slice)) {
        let output = called(wrong, b"1");
        assert_eq!((output.status.code(), output.stdout.len()), (Some(2), 0), "{wrong:?}");
        assert!(!output.stderr.is_empty(), "{wrong:?}");
    }
    assert_eq!(answered(&["join"], b"1").0, "a project and a part are wanted\nTry: cerealbank help\n");
    assert_eq!(answered(&["join", "-"], b"1").0, "project and part cannot both be standard input\nTry: cerealbank help\n");
    let (printed, _) = answered(&["join", "books/joining/office.txt"], b"1 ,");
    assert!(printed.starts_with("standard input:1:3: ") && !printed.contains("Try:"), "{printed}");
}

/// The names of labels: the project's, and the part's where they name another label.
#[test]
fn labels_of_both_are_shown() {
    let (printed, _) = said("label office = 1 {office = 12}", "label office = 2 label site = 3 {office = 34} ,, {site = 56}");
    assert!(printed.starts_with("accepted: {office : Int} & ({2 : Int} & {site : Int})\n"), "{printed}");
    let (printed, _) = said("label office = 1 {office = 12}", "label here = 1 label site = 3 {here = 12} ,, {site = 56}");
    assert!(printed.starts_with("accepted: {office : Int} & ({office : Int} & {site : Int})\n"), "{printed}");
}

#[test]
fn a_joint_that_is_too_large() {
    let (printed, status) = answered(&["join", "books/joining/doubled.txt", "books/joining/top.book"], b"");
    assert_eq!(status, 1);
    assert!(printed.starts_with("refused 10, cell 13 of the joint: it would be too large: with nothing shared it has more than\n"));
    assert!(printed.contains("  project:  4095\n  part:     1\n  joint:    4097, with the merge of the two\n"), "{printed}");
    assert!(printed.ends_with("More: cerealbank explain 10\n"), "{printed}");
}

#[test]
fn a_joint_with_too_many_cells() {
    let project = scratch("tops.book", &tops(4_000));
    let (printed, status) = answered(&["join", name(&project)], &tops(95));
    let wanted = "refused 16 of the joint: it would have more than 4095 cells.

  project:  4000 cells, 1 with equal parts laid down once
  part:     95 cells, 1 with equal parts laid down once
  joint:    4096 cells, with the merge of the two
  a book:   at most 4095 cells

Lay equal parts down once; what the root does not reach is left out too:
cerealbank show BOOK | cerealbank make --share -o FILE
More: cerealbank explain 16
";
    assert_eq!((printed, status), (wanted.into(), 1));
    assert_eq!(
        answered(&["join", name(&project)], &tops(94)).0,
        "accepted: Top & Top\njoint: 4095 cells, 32768 bytes, version 1\n"
    );
    // What is said to help does.
    let shown = answered(&["show", name(&project)], b"").0;
    assert_eq!(called(&["make", "--share"], shown.as_bytes()).stdout, tops(1));
    assert!(answered(&["explain", "16"], b"").0.starts_with("16: the joint has more than 4,095 cells\n"));
}

/// A merge of so many different numbers in records, none of which can be shared.
fn merged(count: usize, first: i64) -> Vec<u8> {
    let mut book = Book::new(1);
    let mut whole = None;
    for n in 0..count as i64 {
        let content = book.push(Part::new(Kind::Number, first + n, &[]));
        let nested = book.push(Part::new(Kind::Record, n % 256, &[content]));
        let record = book.push(Part::new(Kind::Record, n / 256 + first, &[nested]));
        whole = Some(whole.map_or(record, |left| book.add(Kind::Merge, &[left, record])));
    }
    book.bytes()
}

#[test]
fn cells_that_cannot_be_shared() {
    let project = scratch("many.book", &merged(600, 0));
    let (printed, _) = answered(&["join", name(&project)], &merged(600, 100));
    assert!(printed.contains("  project:  2399 cells\n  part:     2399 cells\n  joint:    4799 cells,"), "{printed}");
    assert!(printed.contains("Write the books with fewer cells, or keep the part in a book of its own.\n"), "{printed}");
    let loose = scratch("loose.book", &numbers(4_000, 1, 0));
    let (printed, _) = answered(&["join", name(&loose)], &numbers(95, 2, 9_000));
    assert!(printed.contains("  project:  4000 cells, 2 with equal parts laid down once\n"), "{printed}");
}

/// The answer of a joint, the other way about: the size of its type and its bytes, or its refusal.
fn answer_of(joined: &Result<Joint, (Which, Refusal)>) -> Result<(usize, usize), (Which, Refusal)> {
    joined.as_ref().map(|joint| (joint.found.len(), joint.bytes.len())).map_err(|&refused| refused)
}

/// Every pair of generated books gets an answer in words, the joint's parts are shown where they clash, and of accepted books the order
/// makes no difference to the answer.
#[test]
fn generated_books_are_joined() {
    let counts = deep(|| {
        let books = generated(23, 12);
        let accepted: Vec<&Vec<u8>> = books.iter().filter(|book| check(book).is_ok()).collect();
        let mut counts = [0; 2];
        for pair in accepted.windows(2).chain(books.iter().collect::<Vec<_>>().windows(2)) {
            let [project, part] = [pair[0], pair[1]].map(|book| Input::of_bytes(book.clone()));
            let joined = join(&project.bytes, &part.bytes);
            if !matches!(joined, Err((Which::Project | Which::Part, _))) {
                assert_eq!(answer_of(&joined), answer_of(&join(&part.bytes, &project.bytes)));
            }
            match joined {
                Ok(joint) => {
                    assert_eq!(check(&joint.bytes), Ok(joint.found));
                    counts[0] += 1;
                }
                Err((which, refusal)) => {
                    let printed = printed(refusal, &refused(&project, &part, which, refusal));
                    assert!(printed.starts_with(&format!("refused {}", refusal.number)), "{printed}");
                    assert!(printed.lines().count() < 80 && printed.lines().all(|line| line.len() < 160), "{printed}");
                    assert!(which != Which::Joint || refusal.number != 14 || printed.contains("\n  project:  "), "{printed}");
                    counts[1] += 1;
                }
            }
        }
        counts
    });
    let [accepted, refused] = counts.expect("no panic");
    println!("{accepted} joined, {refused} refused");
    assert!(accepted > 20 && refused > 100, "{accepted} {refused}");
}

/// The sample texts of joints are what `show` and `make` make of them.
#[test]
fn the_joints_can_be_shown_and_made() {
    for (project, part, ..) in ACCEPTED {
        let path = format!("books/joining/{project}_{part}");
        let made = assemble(&text(&format!("{path}.txt")), None, false).expect("a text").book.bytes();
        assert_eq!(made, bytes(&format!("{path}.book")), "{path}");
        let shown = answered(&["show", "--exact", &format!("{path}.book")], b"").0;
        assert_eq!(called(&["make"], shown.as_bytes()).stdout, bytes(&format!("{path}.book")), "{path}");
    }
}
