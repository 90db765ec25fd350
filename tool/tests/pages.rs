//! The pages are true: the tour's, JOINING's and README's commands print what stands below them, the sample texts are the sample books, and the table of
//! kinds is the manual's.

mod common;

use common::{at, bytes, files, text};
use std::process::Command;
use tool::assemble::assemble;
use tool::book::Book;
use tool::kinds::{Datum, Sort, KINDS};
use tool::show::same_term;

/// What a shell prints of a command, with the program on its path.
fn printed(command: &str) -> String {
    let program = std::path::Path::new(env!("CARGO_BIN_EXE_cerealbank"));
    let folder = program.parent().expect("a folder").to_str().expect("a name");
    let path = format!("{folder}:{}", std::env::var("PATH").expect("a path"));
    let output = Command::new("sh")
        .args(["-c", &format!("{command} 2>&1")])
        .env("PATH", path)
        .current_dir(at("."))
        .output()
        .expect("a shell");
    String::from_utf8(output.stdout).expect("a text")
}

/// The blocks of a page that begin with these words, each with the rest of its first line.
fn blocks(page: &str, kind: &str) -> Vec<(String, String)> {
    let start = format!("\n```{kind}");
    let parts = text(page).split(&start).skip(1).map(str::to_owned).collect::<Vec<_>>();
    let cut = |part: String| {
        let (head, body) = part.split_once('\n').expect("a block has a first line");
        let body = &body[..body.find("\n```").expect("a block ends") + 1];
        (head.trim().to_owned(), body.to_owned())
    };
    parts.into_iter().map(cut).collect()
}

/// Every command of a page prints what stands below it; how many there are.
fn commands_print(page: &str) -> usize {
    std::fs::create_dir_all(at("target")).expect("a folder");
    let mut count = 0;
    for (_, block) in blocks(page, "console") {
        for command in format!("\n{block}").split("\n$ ").skip(1) {
            let (command, below) = command.split_once('\n').unwrap_or((command, ""));
            let expected = if below.is_empty() || below.ends_with('\n') { below.to_owned() } else { format!("{below}\n") };
            assert_eq!(printed(command), expected, "{page}: {command}");
            count += 1;
        }
    }
    count
}

#[test]
fn the_tour_is_what_the_program_prints() {
    assert!(commands_print("docs/TOUR.md") >= 20);
    let texts = blocks("docs/TOUR.md", "text");
    assert!(!texts.is_empty());
    texts.iter().for_each(|(path, block)| assert_eq!(*block, text(path)));
}

#[test]
fn the_joins_are_what_the_program_prints() {
    assert!(commands_print("docs/JOINING.md") >= 7);
}

#[test]
fn readme_shows_a_refused_book_with_its_explanation() {
    assert!(commands_print("README.md") >= 1);
    assert!(text("README.md").contains("\n$ cerealbank check books/"));
}

/// Every sample book that a text can say has its text beside it: the same term in the same version.
#[test]
fn the_sample_texts_are_the_sample_books() {
    for path in files("books", ".book") {
        let beside = path.replace(".book", ".txt");
        let book = bytes(&path);
        let damaged = matches!(tool::ask::check(&book), Err(refusal) if refusal.number < 9);
        assert_eq!(at(&beside).is_file(), !damaged, "{beside}");
        if !damaged {
            let made = assemble(&text(&beside), None, false).unwrap_or_else(|fault| panic!("{beside}: {fault:?}")).book;
            let read = Book::read(&book).expect("a book");
            assert!(same_term(&made, &read), "{beside}");
            assert_eq!(
                evaluator::decode(&made.bytes()).map_err(|refusal| refusal.number),
                evaluator::decode(&book).map_err(|refusal| refusal.number)
            );
        }
    }
    for path in files("books", ".txt") {
        assert!(at(&path.replace(".txt", ".book")).is_file(), "{path} has no book");
    }
}

/// The table of kinds in docs/FORMAT.md, row by row.
#[test]
fn the_kinds_are_the_manuals() {
    let page = text("docs/FORMAT.md");
    let rows = page.lines().map(|line| line.split('|').map(str::trim).collect::<Vec<_>>());
    let rows: Vec<Vec<&str>> = rows.filter(|row| row.len() == 9 && (row[2] == "type" || row[2] == "term")).collect();
    for kind in &KINDS {
        let code = (kind.kind as u8).to_string();
        let row = rows.iter().find(|row| row[1] == code).unwrap_or_else(|| panic!("kind {code}"));
        assert_eq!(kind.kind.row().kind, kind.kind);
        assert_eq!(row[2] == "type", kind.sort == Sort::Type, "{row:?}");
        assert_eq!(row[4] != "-", kind.datum == Datum::Label, "{row:?}");
        let sorts: Vec<Sort> = row[5..8].iter().filter_map(|field| sort(field)).collect();
        assert_eq!(sorts, kind.references.iter().map(|(sort, _)| *sort).collect::<Vec<_>>(), "{row:?}");
    }
    let mut codes: Vec<&str> = rows.iter().map(|row| row[1]).collect();
    codes.dedup();
    assert_eq!(codes.len(), KINDS.len());
}

fn sort(field: &str) -> Option<Sort> {
    match field.split(':').next() {
        Some("type") => Some(Sort::Type),
        Some("term") => Some(Sort::Term),
        _ => None,
    }
}
