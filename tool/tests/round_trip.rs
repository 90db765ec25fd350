//! What `show` prints, `make` makes again: the same term in the same version, and the same bytes where that is promised.

mod common;

use common::{answered, at, files, generated, largest};
use evaluator::{decode, encode_term, Refusal, Term, Version};
use std::fs;
use tool::assemble::{assemble, opened};
use tool::book::{Book, MOST_CELLS};
use tool::labels::Labels;
use tool::show::{exact, shown};
use tool::{ask, deep};

/// No line is longer, however deep a book is: the deepest indent, a name given, and a part that cannot be broken.
const WIDEST: usize = 130;
/// The fewest books that are generated and well-formed.
const BOOKS: usize = 10_000;

fn made(text: &str) -> Book {
    assemble(text, None, false).unwrap_or_else(|fault| panic!("{fault:?} in\n{text}")).book
}

/// What the evaluator reads in a book, with nothing shared: its term, or why it has none.
fn read(book: &[u8]) -> Result<(Term, Version), u8> {
    decode(book).map_err(|Refusal { number, .. }| number)
}

/// Makes a book again from both ways of showing it; whether the plain way gave the same bytes. The library is asked whether it is well-formed.
fn again(bytes: &[u8]) -> Option<bool> {
    let well_formed = ask::check(bytes).map_or_else(|refusal| refusal.number > 8, |_| true);
    let book = well_formed.then(|| Book::read(bytes).expect("a well-formed book is read"))?;
    assert_eq!(book.bytes(), bytes);
    let labels = Labels::default();
    let text = exact(&book, &labels);
    assert_eq!(made(&text).bytes(), bytes, "{text}");
    let text = shown(&book, &labels);
    let plain = made(&text).bytes();
    assert_eq!(read(&plain), read(bytes), "{text}");
    assert_eq!(plain == bytes, !text.starts_with("-- "), "{text}");
    assert!(text.lines().all(|line| line.len() <= WIDEST), "{text}");
    if let Some(expected) = book.opened() {
        assert_eq!(opened(&text).map(|written| written.book), Ok(expected), "{text}");
    }
    Some(plain == bytes)
}

#[test]
fn every_sample_book_is_made_again() {
    let books = files("books", ".book");
    let made_again = deep(move || books.iter().filter_map(|path| again(&fs::read(at(path)).expect("a book"))).count());
    // Those of the refusals 2 to 8 are no well-formed books.
    assert_eq!(made_again, Some(files("books", ".book").len() - 7));
}

#[test]
fn generated_books_are_made_again() {
    let count = deep(|| generated(17, 280).iter().chain(&largest()).filter_map(|book| again(book)).count()).expect("no book fails");
    println!("{count} books");
    assert!(count >= BOOKS, "{count}");
}

/// What is encoded, and what is made with equal parts laid once, has its bytes held without further names.
#[test]
fn encoded_and_shared_books_keep_their_bytes() {
    let held = |bytes: &[u8]| {
        let Ok((term, version)) = decode(bytes) else { return 0 };
        let book = encode_term(&term, version);
        assert_eq!(again(&book), Some(true));
        let shared = Book::read(&book).expect("a book").shared().book;
        assert_eq!(again(&shared.bytes()), Some(true));
        assert_eq!(assemble(&shown(&shared, &Labels::default()), None, true).expect("a book").book, shared);
        1
    };
    let count = deep(move || generated(18, 60).iter().map(|book| held(book)).sum::<usize>()).expect("no book fails");
    assert!(count >= 1_000, "{count}");
}

fn cell(version: u8, row: [u8; 8]) -> Vec<u8> {
    [row, [0xF0, version, 1, 0, 0, 0, 0, 0]].concat()
}

#[test]
fn numbers_labels_and_variables_are_kept_at_their_ends() {
    for (version, ends) in [(1, [-(1 << 31), (1 << 31) - 1]), (2, [-(1i64 << 47), (1 << 47) - 1])] {
        for number in ends.into_iter().chain([0, 1, -1, 65_535, 65_536, -65_536]) {
            let text = format!("version {version} {number}");
            let book = made(&text).bytes();
            assert_eq!(decode(&book), Ok((Term::number(number), Version::of(version).expect("a version"))));
            assert_eq!(again(&book), Some(true));
        }
        for past in [ends[0] - 1, ends[1] + 1] {
            assert!(assemble(&format!("version {version} {past}"), None, false).is_err());
        }
        for skipped in [0, 1, 255, 256, 65_535u16] {
            let [low, high] = skipped.to_le_bytes();
            assert_eq!(again(&cell(version, [16, 0, low, high, 0, 0, 0, 0])), Some(true));
        }
        for label in [0, 1, 255] {
            let text = format!("version {version} type {{{label} : Top}}");
            assert_eq!(again(&made(&text).bytes()), Some(true));
            assert_eq!(made(&text).parts[1].datum, label);
        }
    }
}

/// Books at the largest count of cells, shared so that the root has a size that nobody can count.
#[test]
fn books_too_large_to_open_are_made_again() {
    for leaf in [[18, 0, 0, 0, 0, 0, 0, 0], [16, 0, 0, 0, 0, 0, 0, 0], [16, 0, 255, 255, 0, 0, 0, 0]] {
        let mut rows = vec![leaf];
        for at in 0..MOST_CELLS as u16 - 1 {
            let [low, high] = at.to_le_bytes();
            rows.push([22, 0, low, high, low, high, 0, 0]);
        }
        let [low, high] = (MOST_CELLS as u16 - 1).to_le_bytes();
        rows.push([0xF0, 1, 0xFF, 0x0F, low, high, 0, 0]);
        let book = rows.concat();
        assert_eq!(ask::check(&book).map_err(|refusal| refusal.number), Err(10));
        assert!(deep(move || again(&book)).expect("no panic").is_some());
    }
}

/// What is printed so is shown so: brackets, names, and where they are given.
#[test]
fn shown_as_written() {
    for text in [
        "\\x : Int . (\\y : Int . y : Int) : Int -> Int\n",
        "fix self : Int -> Int . \\x : Int . self x : Int\n",
        "if 1 then 2 else (\\x : Int . x : Int)\n",
        "if (if 1 then 2 else 3) then 4 else 5\n",
        "let part3 = \\x : Int . x : Int in\n{1 = {2 = part3} ,, {3 = part3}}\n",
        "\\x : Int .\n  (let part1 = {1 = x} in\n    {2 = part1} ,, {3 = part1})\n  ,, T\n  : Top\n",
        "\\x : Int .\n  if x\n  then 1\n  else (let part4 = x + 1 in\n      part4 + part4)\n  : Top\n",
        "share\nlet part1 = {1 = #0} in\n\\x : Int . {2 = part1} ,, {3 = \\y : Int . {5 = part1} : Int} : Int\n",
    ] {
        assert_eq!(answered(&["show"], text.as_bytes()), (text.to_owned(), 0));
    }
}

/// As few names as it takes: a part that waits last may be any child.
#[test]
fn few_names_hold_every_cell() {
    for text in ["let part0 = 1 in\n2 ,, part0\n", "let part0 = T in\nlet part2 = part0 ,, 1 in\n2 part0 ,, 3 part2\n"] {
        assert_eq!(exact(&made(text), &Labels::default()), text);
    }
}

#[test]
fn a_root_that_others_use_is_held() {
    let middle = made("let a = 1 in let b = {1 = a} in a");
    assert_eq!(made(&exact(&middle, &Labels::default())), middle);
}
