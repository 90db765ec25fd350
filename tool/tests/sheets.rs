//! Settings sheets: the steps that are told are those that a run takes, a book that is refused is refused as by a check, and of one that is no sheet
//! the part is shown that makes it none.

mod common;

use common::{answered, bytes, files, generated, largest, marked, name, printed, scratch, text};
use evaluator::{decode, encode_term, on_large_stack};
use tool::ask::{check, sheet, Refusal};
use tool::assemble::assemble;
use tool::commands::Status;
use tool::deep;
use tool::input::Input;
use tool::refusals::explained;

/// Texts, and what is printed of each: its type and its steps.
const SHEETS: [(&str, &str, &str); 9] = [
    ("7", "Int", "takes 0 steps: it is a value already"),
    ("{1 = 2} ,, T", "{1 : Int} & Top", "takes 0 steps: it is a value already"),
    ("7 : Int", "Int", "takes 1 step to its value"),
    ("T 3", "Top", "takes 1 step to its value"),
    ("(T : Int -> Top) (3 : Int)", "Top", "takes 3 steps to its value"),
    ("label copies = 4 {copies = 1 + 2}", "{copies : Int}", "takes 1 step to its value"),
    ("version 2 ({1 = 4294967296 : Int} ,, {2 = 2}).1", "Int", "takes 2 steps to its value"),
    ("let p = 1 + 2 in p + p", "Int", "takes 3 steps to its value"),
    ("let unused = \\x : Int . x : Int in 7", "Int", "takes 0 steps: it is a value already"),
];

#[test]
fn a_sheet_is_counted() {
    for (text, of, takes) in SHEETS {
        let expected = (format!("accepted: {of}\nsettings sheet, {takes}\n"), 0);
        assert_eq!(answered(&["sheet"], text.as_bytes()), expected, "{text}");
        assert_eq!(answered(&["sheet", "--notation", "-"], text.as_bytes()), expected, "{text}");
    }
    let many = ("accepted: Int\nsettings sheet, takes 1023 steps to its value\n".to_owned(), 0);
    for way in [&["sheet", "books/sheets/doubled_copies.book"][..], &["sheet", "books/sheets/doubled_copies.txt"]] {
        assert_eq!(answered(way, b""), many);
    }
    assert_eq!(answered(&["sheet", "--book"], &bytes("books/sheets/doubled_copies.book")), many);
    assert_eq!(bytes("books/sheets/doubled_copies.book").len(), 8 * 13, "12 cells");
}

/// A long type is laid out as a check lays it out.
#[test]
fn the_type_is_shown_as_by_a_check() {
    let fields: Vec<String> = (10..30).map(|label| format!("{{{label} = {label}}}")).collect();
    let text = fields.join(" ,, ");
    let [checked, counted] = [["check"], ["sheet"]].map(|way| answered(&way, text.as_bytes()).0);
    assert!(checked.lines().count() > 2);
    assert_eq!(counted, checked + "settings sheet, takes 0 steps: it is a value already\n");
}

/// Books that are no sheets: the part that is marked, what it is, how many of each kind there are, and what helps.
const NO_SHEETS: [(&str, &str, &str, &str, &str); 8] = [
    ("{1 = if 1 then 5 else 7} ,, T", "if 1 then 5 else 7", "choice", "1 choice", "Write the branch that is meant in its place."),
    ("(\\x : Int . x + x : Int) 4", "\\x : Int . x + x : Int", "function", "1 function, 2 variables", "Write what it gives"),
    ("1 + (fix self : Int . self)", "fix self : Int . self", "fixpoint", "1 fixpoint, 1 variable", "Write what it comes to"),
    ("{2 = #3}.2", "#3", "variable", "1 variable", "Nothing binds it"),
    ("T (if 0 then 1 else if 2 then 3 else 4)", "if 0 then 1 else if 2 then 3 else 4", "choice", "2 choices", "Write the branch"),
    ("(T : Int -> Top) #0 + (if 0 then 1 else 2)", "#0", "variable", "1 choice, 1 variable", "Nothing binds it"),
    ("(\\x : Int . x : Int) ,, 1 2", "\\x : Int . x : Int", "function", "1 function, 1 variable", "Write what it gives"),
    ("let p = if 1 then 2 else 3 in p + p", "if 1 then 2 else 3", "choice", "2 choices", "Write the branch"),
];

#[test]
fn what_makes_a_book_no_sheet_is_shown() {
    for (text, part, what, has, help) in NO_SHEETS {
        let book = assemble(text, None, false).expect("a text").book;
        let first = format!("refused 17, cell {}: this is no settings sheet, for it has a {what} in it.\n", book.root);
        for input in [text.as_bytes(), &book.bytes()] {
            let (said, status) = answered(&["sheet"], input);
            assert_eq!(status, 1, "{said}");
            assert!(said.starts_with(&first), "{said}");
            // A book has no names: its fixpoint's variable is called self, its function's x.
            assert_eq!(marked(&said), part, "{said}");
            assert!(said.contains(&format!("\n  this book has:  {has}\n\n{help}")), "{said}");
            assert!(said.ends_with("\nMore: cerealbank explain 17\n"), "{said}");
        }
    }
}

/// The whole of it, of a book that runs and of one that a check refuses too.
#[test]
fn no_sheet_word_for_word() {
    let expected = "refused 17, cell 3: this is no settings sheet, for it has a choice in it.

  if 1 then 5 else 7
  ^^^^^^^^^^^^^^^^^^

  no sheet has:   variables, functions, fixpoints or choices
  this book has:  1 choice

Write the branch that is meant in its place.
As a book it is accepted, and a run says its steps by taking them: cerealbank run BOOK
More: cerealbank explain 17
";
    assert_eq!(answered(&["sheet", "books/sheets/17.book"], b""), (expected.into(), 1));
    let (said, _) = answered(&["sheet"], b"(\\x : Int . x : Int).7");
    assert!(said.contains("\nA check refuses it too, with 13: cerealbank check BOOK\n"), "{said}");
    assert!(answered(&["explain", "17"], b"").0.starts_with("17: the book is no settings sheet\n"));
}

/// Where a part is used by its name, the place is marked.
#[test]
fn the_use_of_a_name_is_marked() {
    let (said, _) = answered(&["sheet"], b"let p = if 1 then 2 else 3 in {1 = p}");
    let place = "used at standard input:1:36\n    1 | let p = if 1 then 2 else 3 in {1 = p}\n      |                                    ^\n";
    assert!(said.contains(place), "{said}");
}

/// Those that rows 2 to 10 meet, and sheets that have no type: in the words of a check. The book of 11 has a function.
#[test]
fn other_books_are_refused_as_by_a_check() {
    for path in files("books/refusals", ".book") {
        let [checked, said] = ["check", "sheet"].map(|command| answered(&[command, &path], b""));
        match path.ends_with("/11.book") {
            true => assert!(said.0.starts_with("refused 17, cell 2: "), "{path}: {said:?}"),
            false => assert_eq!(said, checked, "{path}"),
        }
    }
}

/// How many cells of these kinds a book's root has, with nothing shared.
fn count(book: &[u8], kinds: &[u8]) -> usize {
    let opened = on_large_stack(|| decode(book).map(|(term, version)| encode_term(&term, version)).unwrap_or_default());
    opened.chunks(8).filter(|cell| kinds.contains(&cell[0])).count()
}

/// What is printed of a book is what the library says of it, and what a check and a run say.
fn is_true(book: &[u8]) -> Result<u32, u8> {
    let file = scratch("sheet.book", book);
    let [(counted, status), (checked, _)] = ["sheet", "check"].map(|command| printed(&[command, "--book", name(&file)]));
    match sheet(book) {
        Ok(sheet) => {
            assert_eq!(status, Status::Done);
            let rest = counted.strip_prefix(&checked).unwrap_or_else(|| panic!("{checked}{counted}"));
            let ran = printed(&["run", "--book", "--limit", &sheet.steps.to_string(), name(&file)]).0;
            let told: u32 = rest.split(' ').nth(3).and_then(|count| count.parse().ok()).expect("a count");
            assert!(rest.starts_with("settings sheet, takes ") && rest.lines().count() == 1, "{rest}");
            assert!(ran.starts_with(&format!("value after {told} step")), "{rest}{ran}");
            assert_eq!(told as usize, count(book, &[19, 20, 25, 26]));
            Ok(told)
        }
        Err(Refusal { number: 17, cell }) => {
            assert_eq!(status, Status::Refused);
            assert!(
                counted.starts_with(&format!("refused 17, cell {cell}: this is no settings sheet, for it has a ")),
                "{counted}"
            );
            assert!(counted.lines().count() < 80 && counted.lines().all(|line| line.len() < 160), "{counted}");
            assert!(counted.contains('^'), "{counted}");
            let has = counted.lines().find_map(|line| line.strip_prefix("  this book has:  ")).expect("a line");
            let has: usize =
                has.split(", ").map(|of| of.split(' ').next().expect("a count").parse::<usize>().expect("a count")).sum();
            assert_eq!(has, count(book, &[16, 21, 23, 27]), "{counted}");
            assert_eq!(counted.contains("\nAs a book it is accepted"), check(book).is_ok(), "{counted}");
            Err(17)
        }
        Err(Refusal { number, .. }) => {
            assert_eq!((counted, status), (checked, Status::Refused));
            assert_eq!(check(book).err().map(|refusal| refusal.number), Some(number));
            Err(number)
        }
    }
}

#[test]
fn what_is_printed_is_what_the_library_says() {
    let met = deep(|| {
        let samples = files("books", ".book").into_iter().map(|path| bytes(&path));
        let mut met = [0; 4];
        for book in samples.chain(generated(9, 4)).chain(largest().into_iter().step_by(80)) {
            met[match is_true(&book) {
                Ok(0) => 0,
                Ok(_) => 1,
                Err(17) => 2,
                Err(_) => 3,
            }] += 1;
        }
        met
    });
    assert!(met.expect("no panic").iter().all(|&count| count > 20), "{met:?}");
}

/// An answer that the library never gives is no panic either.
#[test]
fn a_sheet_that_is_called_none() {
    let input = Input::of_bytes(bytes("books/sheets/site_settings.book"));
    let explanation = explained(&input, Refusal { number: 17, cell: 0 });
    assert_eq!(explanation.sentence, "this is no settings sheet");
}

/// Head office's fields and the site's, by their names.
#[test]
fn the_sample_sheet_has_its_names() {
    let (said, _) = answered(&["sheet", "books/sheets/site_settings.txt"], b"");
    let labels: Vec<String> = text("books/sheets/site_settings.txt")
        .lines()
        .filter_map(|line| line.strip_prefix("label "))
        .map(|line| format!("{{{} : Int}}", line.split(' ').next().expect("a name")))
        .collect();
    assert_eq!(said.lines().next(), Some(&*format!("accepted: {}", labels.join(" & "))));
}
