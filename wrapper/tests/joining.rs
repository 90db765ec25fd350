//! What docs/JOINING.md says of books is what the engine answers and leaves; and of such books it is as the page says.

#![cfg(not(library_missing))]

mod pages;
mod previewing;

use cerealbank::{check, run, Answer, Joined, Which, PROJECT, WORK};
use evaluator::{decode, infer, Term, TermShape};
use pages::{answer, asked, at, books_in, cut, number, on_the_desk, padded, quoted, text, LIMIT};
use previewing::join_as_previewed;
use std::collections::BTreeSet;
use std::fs;

/// What the lent bytes past the project hold before a join.
const PAST: u8 = 0xAA;

/// Two books, and what the page says of their join.
struct Row {
    books: [Vec<u8>; 2],
    joined: Joined,
    /// The joint's file, if there is one.
    joint: Option<String>,
}

fn section(heading: &str) -> String {
    let page = text("docs/JOINING.md");
    let (_, after) = page.split_once(&format!("\n## {heading}\n")).unwrap_or_else(|| panic!("{heading}"));
    after.split("\n## ").next().expect("its text").to_string()
}

/// The rows of the tables that begin with this column, each a list of its columns.
fn rows(page: &str, first: &str) -> Vec<Vec<String>> {
    let mut rows = Vec::new();
    let mut within = false;
    for line in page.lines() {
        within = line.starts_with(&format!("| {first} |")) || within && line.starts_with('|');
        let columns: Vec<String> = line.trim_matches('|').split(" | ").map(|column| column.trim().to_string()).collect();
        if within && !line.starts_with(&format!("| {first} |")) && !line.starts_with("|---") {
            rows.push(columns);
        }
    }
    assert!(!rows.is_empty(), "{first}");
    rows
}

fn word(column: &str) -> &str {
    quoted(column).first().unwrap_or_else(|| panic!("{column}"))
}

/// `joint refused 14 4`, and the bytes.
fn joined(said: &str, bytes: &str) -> Joined {
    let (which, words) = word(said).split_once(' ').expect("a book and its answer");
    let which = match which {
        "project" => Which::Project,
        "part" => Which::Part,
        "joint" => Which::Joint,
        other => panic!("{other}"),
    };
    Joined { which, answer: answer(words).unwrap_or_else(|| panic!("{said}")), bytes: number(bytes) }
}

fn file(name: &str) -> Vec<u8> {
    fs::read(at(&format!("books/{name}.book"))).unwrap_or_else(|error| panic!("{name}: {error}"))
}

/// So many top values, the last for a root.
fn tops(count: usize) -> Vec<u8> {
    let [cells, root] = [count, count - 1].map(|n| (n as u16).to_le_bytes());
    [[18, 0, 0, 0, 0, 0, 0, 0].repeat(count), vec![0xF0, 1, cells[0], cells[1], root[0], root[1], 0, 0]].concat()
}

/// The rows with two files.
fn of_files(page: &str) -> Vec<Row> {
    let row = |columns: Vec<String>| {
        let [project, part, said, bytes, _] = &columns[..] else { panic!("{columns:?}") };
        let (project, part) = (word(project), word(part));
        let joined = joined(said, bytes);
        let short = part.rsplit('/').next().expect("a name");
        let joint = (joined.bytes > 0).then(|| format!("{project}_{short}"));
        Row { books: [project, part].map(file), joined, joint }
    };
    rows(page, "project").into_iter().map(row).collect()
}

/// The rows with two counts of cells.
fn of_counts(page: &str) -> Vec<Row> {
    let row = |columns: Vec<String>| {
        let [project, part, said, bytes] = &columns[..] else { panic!("{columns:?}") };
        let books = [project, part].map(|count| tops(number(count)));
        Row { books, joined: joined(said, bytes), joint: None }
    };
    rows(page, "cells of the project").into_iter().map(row).collect()
}

fn all() -> Vec<Row> {
    let page = text("docs/JOINING.md");
    of_files(&page).into_iter().chain(of_counts(&page)).collect()
}

/// The answer, the project's lent bytes and the work buffer after a join, which is previewed.
fn after_join([project, part]: &[Vec<u8>; 2]) -> (Joined, Vec<u8>, Vec<u8>) {
    let (mut lent, mut work) = (project.clone(), vec![9; WORK]);
    lent.resize(PROJECT, PAST);
    (join_as_previewed(&mut lent, project.len(), part, &mut work), lent, work)
}

#[test]
fn every_row_is_what_the_engine_answers() {
    let rows = all();
    assert!(rows.len() > 20);
    for Row { books, joined, joint } in &rows {
        let (got, lent, work) = after_join(books);
        assert_eq!(got, *joined, "{joint:?}");
        let mut before = books[0].clone();
        before.resize(PROJECT, PAST);
        if joined.bytes == 0 {
            assert!(lent == before && work == padded(&[]), "a refused join leaves the project");
            continue;
        }
        assert_eq!(asked(|work| check(&lent[..joined.bytes], work)), (joined.answer, work), "{joint:?}");
        assert!(lent[joined.bytes..].iter().all(|&byte| byte == 0), "{joint:?}");
        if let Some(name) = joint {
            assert!(lent[..joined.bytes] == file(name), "{name}");
        }
    }
}

/// What a joint is: both cells behind each other, the merge of both roots, and a type that has both types.
#[test]
fn a_joint_is_the_merge_of_both() {
    let accepted: Vec<Row> = all().into_iter().filter(|row| row.joined.bytes > 0).collect();
    assert!(accepted.len() > 6);
    for Row { books, joined, .. } in &accepted {
        let (_, lent, _) = after_join(books);
        assert_eq!(joined.bytes, books[0].len() + books[1].len(), "the trailers are one less, the merge one more");
        let (root, version) = decode(&lent[..joined.bytes]).expect("a term");
        let [(project, one), (part, other)] = books.each_ref().map(|book| decode(book).expect("a term"));
        assert_eq!(version, if one == other { one } else { evaluator::Version::Two });
        let TermShape::Merge(left, right) = root.shape() else { panic!("{root}") };
        assert!(*left == project && *right == part, "{root}");
        let found = [&root, &project, &part].map(|term| infer(&mut Vec::new(), term).expect("a type").to_string());
        assert_eq!(found[0], format!("({} & {})", found[1], found[2]));
    }
}

/// The project's own refusal, and the part's, are those of a check.
#[test]
fn a_book_is_refused_as_in_a_check() {
    let of_books = all().into_iter().filter(|row| row.joined.which != Which::Joint);
    for Row { books, joined, .. } in of_books {
        let book = &books[usize::from(joined.which == Which::Part)];
        assert_eq!(asked(|work| check(book, work)).0, joined.answer);
        assert!(joined.which == Which::Project || matches!(asked(|work| check(&books[0], work)).0, Answer::Accepted { .. }));
    }
}

/// The numbers that the page lists are those of its rows, and of a joint there are no others.
#[test]
fn the_refusals_of_a_joint_are_those_that_the_page_lists() {
    let listed = rows(&section("What a join refuses"), "book that is meant");
    let listed: BTreeSet<u8> = listed.iter().filter(|row| row[0] == "joint").map(|row| number(&row[1])).collect();
    let refused = all().into_iter().filter(|row| row.joined.which == Which::Joint);
    let shown = refused.filter_map(|row| match row.joined.answer {
        Answer::Refused { number, .. } => Some(number),
        _ => None,
    });
    assert_eq!(shown.collect::<BTreeSet<u8>>(), listed);
    assert_eq!(listed, BTreeSet::from([10, 14, 16]));
}

/// The other way about, every pair of accepted books is accepted, or refused with the same number, and as large.
#[test]
fn the_order_makes_no_difference_to_what_is_accepted() {
    let pairs: Vec<Row> = all().into_iter().filter(|row| row.joined.which == Which::Joint).collect();
    assert!(pairs.len() > 12);
    for Row { books: [project, part], joined, .. } in pairs {
        let (swapped, _, _) = after_join(&[part, project]);
        assert_eq!(swapped, joined);
    }
    let order = of_files(&section("In which order"));
    let refused_alone = order.iter().filter(|row| row.joined.which != Which::Joint).count();
    assert_eq!((order.len(), refused_alone), (5, 1));
}

/// The content of a field of a merge of records.
fn field(term: &Term, label: u8) -> Option<String> {
    match term.shape() {
        TermShape::Merge(left, right) => field(left, label).or_else(|| field(right, label)),
        TermShape::Record(of, content) if *of == label => Some(content.to_string()),
        _ => None,
    }
}

#[test]
fn a_sum_is_held_to_the_joints_numbers() {
    let rows = rows(&section("Sums, once a book of version 2 is joined"), "book");
    assert_eq!(rows.len(), 2);
    for row in rows {
        let [name, said, content] = &row[..] else { panic!("{row:?}") };
        let (got, work) = asked(|work| run(&file(word(name)), work, LIMIT));
        assert_eq!(on_the_desk(got), word(said), "{name}");
        let (reached, _) = decode(cut(&work)).expect("a term");
        assert_eq!(field(&reached, 6).as_deref(), Some(word(content)), "{name}");
    }
}

#[test]
fn every_file_has_its_row() {
    let page = text("docs/JOINING.md");
    let named = rows(&page, "project").into_iter().flat_map(|row| [word(&row[0]).to_string(), word(&row[1]).to_string()]);
    let joints = of_files(&page).into_iter().filter_map(|row| row.joint);
    let files = named.chain(joints).filter_map(|name| Some(name.strip_prefix("joining/")?.to_string() + ".book"));
    assert_eq!(files.collect::<BTreeSet<_>>(), books_in("books/joining"));
}
