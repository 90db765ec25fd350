//! A refusal in words: a sentence for each number, with a book that gets it; the part that is meant; and the types, which are the
//! evaluator's too.

mod common;

use common::{answered, bytes, generated, marked};
use compare::contexts::redex;
use evaluator::{decode, encode_type, infer, successors, Part, Refusal, Term as Tree, Type};
use tool::ask::{are_disjoint, check, is_below, parts, run, Term};
use tool::assemble::assemble;
use tool::book::Book;
use tool::deep;
use tool::explanation::printed;
use tool::format::{headings, section, NUMBERS};
use tool::input::Input;
use tool::refusals::explained;
use tool::running::{traced, watched};

/// The first line that the program prints of each book of books/refusals, and a line that says more.
const SAMPLES: [(&str, &str, &str); 14] = [
    ("02", "refused 2: the file is no whole book.", "  length:  15 bytes, which is 8 and 7 more"),
    ("03", "refused 3: the last 8 bytes are no trailer of version 1 or 2.", "  last bytes:  00 01 01 00 00 00 00 00"),
    (
        "04",
        "refused 4: the trailer does not fit the cells before it.",
        "  last bytes:  F0 01 02 00 00 00 00 00  trailer: version 1, cells 2, root 0",
    ),
    ("05", "refused 5, cell 1: the kind of this cell is unknown.", "  the cell:  1  00 00 00 00 00 00 00 00  unknown kind 0"),
    ("06", "refused 6, cell 1: this cell has something in a field that its kind does not use.", "  what is wrong:  the label, 7"),
    (
        "07",
        "refused 7, cell 1: this cell refers to itself, to a later cell or past the end.",
        "  what is wrong:  right half: cell 1, which is itself",
    ),
    (
        "08",
        "refused 8, cell 1: this cell refers to a type where its kind wants a term, or to a term where it",
        "  what is wrong:  term: cell 0, a type where a term is wanted",
    ),
    ("09", "refused 9, cell 1: the root is a type, and only a term can be checked and run.", "  the type:  Int"),
    ("10", "refused 10, cell 12: the book is too large: with nothing shared it has more than 4095 cells.", "  size:  8191"),
    ("11", "refused 11, cell 1: this variable has no binder.", "  binders around it:  1, from the inside x"),
    ("12", "refused 12, cell 2: what is applied here is no function.", "  applied is:  Int"),
    ("13", "refused 13, cell 2: there is no field 8 here to read.", "  read from:  {7 : Int}"),
    ("14", "refused 14, cell 2: the two halves of this merge overlap, and nothing says which of them counts.", "  overlap:     1"),
    ("15", "refused 15, cell 1: a term of type Int is wanted here, and this one has type Top.", "  found:   Top"),
];

/// No book gets refusal 1 from this program, which lends a whole work buffer; the library gives it for a shorter one.
#[test]
fn the_first_refusal_has_its_sentence() {
    let book = bytes("books/first_number.book");
    let answer = cerealbank::check(&book, &mut [0; 16]);
    assert_eq!(answer, cerealbank::Answer::Refused { number: 1, cell: 0 });
    let refusal = tool::ask::Refusal { number: 1, cell: 0 };
    let printed = printed(refusal, &explained(&Input::of_bytes(book), refusal));
    assert!(printed.starts_with("refused 1: the work buffer that was lent to the library has not 65536 bytes.\n"), "{printed}");
}

#[test]
fn every_refusal_has_its_sentence() {
    for (number, sentence, more) in SAMPLES {
        let (printed, status) = answered(&["check", &format!("books/refusals/{number}.book")], b"");
        let lines: Vec<&str> = printed.lines().collect();
        assert_eq!(lines[0], sentence);
        assert!(lines.contains(&more), "{printed}");
        let explain = format!("More: cerealbank explain {}", number.trim_start_matches('0'));
        assert_eq!(lines.last(), Some(&explain.as_str()), "{printed}");
        assert_eq!(status, 1);
        // A run refuses it in the same words.
        assert_eq!(answered(&["run", &format!("books/refusals/{number}.book")], b""), (printed, 1));
    }
}

/// Texts that are refused: what is printed of each below the first line and above the last.
const TEXTS: [(&str, &[&str]); 31] = [
    ("#3", &["binders it skips:   3", "binders around it:  none"]),
    ("\\a : Int . fix b : Int . #2 : Int", &["^^", "binders around it:  2, from the inside b, a"]),
    (
        "(1 ,, \\x : Int . x : Int) 2",
        &[
            "applied is:  Int & (Int -> Int)",
            "There is a function in it: annotate it before it is applied, as in (... : Int -> Int).",
        ],
    ),
    ("\\n : Int . n -1 : Int", &["applied is:  Int", "There is no subtraction: write + before the minus."]),
    ("\\f : Top & Top . f 1 : Int", &["applied is:  Top & Top", "Apply a function."]),
    (
        "label a = 3 ({a = 1} ,, {4 = 2} ,, {4 = \\x : Int . x : Int}).5",
        &["there is no field 5 here to read.", "Compare the label: there is a, 4."],
    ),
    (
        "({4 = 1} ,, {4 = \\x : Int . x : Int}).4",
        &["field 4 is there more than once.", "Annotate what is read from, as in (... : {4 : Int})"],
    ),
    ("1.4", &[]),
    ("(1).4", &["there is no field 4 here to read.", "read from:  Int", "It is a number, which has no fields."]),
    ("\\x : {1 : Int} . x ,, {1 = 2} : Int", &["left half:   {1 : Int}", "The left half uses a variable from outside"]),
    ("(1 + 2) ,, 3", &["overlap:     Int\n  with:        Int\n", "The left half is no value yet"]),
    ("({1 = 2} ,, {3 = 4}) ,, ({5 = 6} ,, {3 = 7})", &["overlap:     {3 = 4}\n  with:        {3 = 7}\n", "Both halves are values"]),
    (
        "{1 = 2} : {1 : Int} & {3 : Int} & Top",
        &["wanted:   {1 : Int} & {3 : Int} & Top", "by:       the annotation", "found:    {1 : Int}", "missing:  {3 : Int}"],
    ),
    ("\\x : Int . x : Int -> Int", &["wanted:  Int -> Int", "by:      the function, of its body", "found:   Int"]),
    ("fix x : Int . {1 = x}", &["by:      the fixpoint, of its body", "found:   {1 : Int}"]),
    ("(\\f : Int -> Int . f T : Int)", &["wanted:  Int", "by:      the function, of its argument", "found:   Top"]),
    ("T + 1", &["by:      the sum, of its part 'left side'", "wanted:  Int"]),
    ("1 + {1 = 2}", &["by:      the sum, of its part 'right side'", "found:   {1 : Int}"]),
    ("if 1 then 2 else T", &["by:      the choice, of its part 'for anything else'"]),
    ("({1 = 2} ,, T).3 + 1", &["found:   Top", "What it reads from has no such field"]),
    ("{3 = T}.3 : Int", &["found:   Top", "Change the term, or the type that is wanted of it."]),
    ("{3 = T}.3 + 1", &["found:   Top", "Only numbers can be added"]),
    ("if {1 = 2} then 3 else 4", &["by:      the choice, of its part 'tested'", "A choice tests a number"]),
    ("{1 = \\x : Int . x : Int} 3", &["applied is:  {1 : Int -> Int}", "There is a function in field 1: read it first"]),
    ("({7 = T} ,, {7 = 1} ,, {7 = 1}).7", &["field 7 is there more than once.", "as in (... : {7 : Int})"]),
    ("({10 = 1} ,, {9 = 1} ,, {100 = 1} ,, {9 = 1}).7", &["Compare the label: there is 9, 10, 100."]),
    ("(\\x : Int . x : Int).7", &["It is a function, which has no fields: apply it first."]),
    ("(1 ,, {1 = 2}) ,, (1 ,, {1 = 3})", &["overlap:     {1 = 2}\n  with:        {1 = 3}\n", "Give the records different labels"]),
    ("(\\x : Int . 1 : Int) ,, (\\x : Top . 1 : Int)", &["Functions agree if body and input type are the same."]),
    (
        "\\x : Int . x ,, x : Int",
        &["Both halves use variables from outside: only halves of disjoint types", "Take the number out of one half"],
    ),
    ("\\x : Int . x ,, (1 + 2) : Int", &["The left half uses a variable from outside, and the right half is no value yet: only"]),
];

#[test]
fn what_a_refusal_says_of_a_text() {
    for (text, wanted) in TEXTS {
        let (printed, status) = answered(&["check"], text.as_bytes());
        assert_eq!(status, if wanted.is_empty() { 2 } else { 1 }, "{text}\n{printed}");
        for line in wanted {
            assert!(printed.contains(line), "{text}: {line} is not in\n{printed}");
        }
    }
}

/// The marked part stands right above its carets, in a text and in a book.
#[test]
fn the_part_is_marked() {
    let cases = [
        ("{1 = (1 ,, 2)}", "1 ,, 2"),
        ("1 + (T) + 2", "T"),
        ("\\x : Int . (3 x) ,, 2 : Int", "3 x"),
        ("let p = (\\x : Int . x : Int) T in p", "T"),
        ("{1 = 2} ,, {2 = {3 = 4}.5}", "{3 = 4}.5"),
    ];
    for (text, part) in cases {
        let made = assemble(text, None, false).expect("a text").book.bytes();
        for input in [text.as_bytes(), &made] {
            let (printed, _) = answered(&["check"], input);
            assert_eq!(marked(&printed), part, "{printed}");
        }
    }
}

/// Where cells are shared, by a name or by `share`, the place that is refused is marked, and where the name is used.
#[test]
fn the_place_that_is_refused_is_marked() {
    let cases = [
        ("share T ,, (T : Int)", "standard input:1:13\n"),
        ("share (\\x : Int . #0 : Int) ,, {1 = #0}", "standard input:1:37\n"),
        ("let p = {1 = 5} in (p : {1 : Int}) ,, {2 = p : {3 : Int}}", "standard input:1:9\n    1 | let p = {1 = 5} in (p : {1 : Int}) ,, {2 = p : {3 : Int}}\n      |         ^^^^^^^\n  used at standard input:1:44\n"),
        ("let p = 1 in let q = p in q ,, {2 = q : Top -> Int}", "  used at standard input:1:22\n    1 | let p = 1 in let q = p in q ,, {2 = q : Top -> Int}\n      |                      ^\n  used at standard input:1:37\n"),
        (
            "let p = {1 = 2 3} in {4 = p}",
            "standard input:1:14\n    1 | let p = {1 = 2 3} in {4 = p}\n      |              ^^^\n  used at standard input:1:27\n",
        ),
    ];
    for (text, place) in cases {
        let (printed, _) = answered(&["check"], text.as_bytes());
        assert!(printed.contains(place), "{text}\n{printed}");
    }
}

/// Of records that clash the field is named, and within it what clashes; what is long is cut, and not left out.
#[test]
fn a_clash_is_found_within_fields() {
    let record = |last: u8| {
        format!(
            "{{1 = {{2 = {}}}}}",
            (3..10).map(|n| format!("{{{n} = {}}}", if n == 8 { last } else { n })).collect::<Vec<_>>().join(" ,, ")
        )
    };
    says(&format!("{} ,, {}", record(8), record(9)), &["  in field:    1.2\n  overlap:     {8 = 8}\n  with:        {8 = 9}\n"]);
    let long = |last: u8| format!("{{1 = \\x : Int . {}{last} : Int}}", "x + ".repeat(60));
    let (printed, _) = answered(&["check"], format!("{} ,, {}", long(1), long(2)).as_bytes());
    assert!(
        printed.contains("  overlap:     {1 =") && printed.contains("  with:        {1 =") && printed.contains(" cells in all)\n"),
        "{printed}"
    );
}

/// A type is found where variables of large types are used often, and where it is not, that is said.
#[test]
fn large_questions() {
    let fields: Vec<String> = (0..100).map(|label| format!("{{{label} : Int}}")).collect();
    let reads: Vec<String> = (0..30).map(|label| format!("x.{label}")).collect();
    let text = format!("\\x : {} . {} : Top -> Int", fields.join(" & "), reads.join(" + "));
    let (printed, _) = answered(&["check"], text.as_bytes());
    assert!(printed.contains("  found:   Int\n"), "{printed}");
    let text = format!("\\x : {} . 1 ({}) : Int", fields.join(" & "), reads.join(" + "));
    assert!(answered(&["check"], text.as_bytes()).0.contains("  applied is:  Int\n"));
    let records: Vec<String> = (0..30).map(|label| format!("{{{label} = x}}")).collect();
    let text = format!("\\x : {} . ({}) + 1 : Int", fields.join(" & "), records.join(" ,, "));
    let (printed, _) = answered(&["check"], text.as_bytes());
    assert!(printed.contains("  found:   not found: the question is too large for a book\n"), "{printed}");
}

/// A part of several lines is marked on each, of many on the first and the last two.
#[test]
fn long_parts_are_marked_at_their_ends() {
    let two = "{1 =\n  1 ,,\n  2}\n";
    let (printed, _) = answered(&["check"], two.as_bytes());
    assert!(printed.contains("standard input:2:3\n    2 |   1 ,,\n      |   ^^^^\n    3 |   2}\n      |   ^\n"), "{printed}");
    let many = format!("1\n,, 2\n{},, 3", "+ 4\n".repeat(8));
    let (printed, _) = answered(&["check"], many.as_bytes());
    let place = "    1 | 1\n       | ^\n     2 | ,, 2\n       | ^^^^\n       | ...\n     9 | + 4\n       | ^^^\n    10 | + 4\n       | ^^^\n";
    assert!(printed.contains(place), "{printed}");
    let longest = format!("1 ,,{}2", "\n".repeat(4_000_000));
    let (printed, _) = answered(&["check"], longest.as_bytes());
    assert!(printed.contains("  4000001 | 2\n"), "{printed}");
}

/// The type that a term names first: a binder its variable's, an annotation its own.
fn first_type(term: &Tree) -> Type {
    let types =
        term.node().fields.into_iter().filter_map(|part| if let Part::Type(named) = part { Some(named.clone()) } else { None });
    types.into_iter().next().expect("a type")
}

/// The types that the evaluator finds for a term and for all its parts, each by its cell in the book with nothing shared.
fn types(binders: &mut Vec<Type>, term: &Tree, found: &mut Vec<(usize, Result<Type, Refusal>)>) {
    found.push((term.cell(), infer(binders, term)));
    let node = term.node();
    for (_, over, part) in node.terms() {
        let bound = (over > 0).then(|| first_type(term));
        binders.extend(bound.clone());
        types(binders, part, found);
        if bound.is_some() {
            binders.pop();
        }
    }
}

/// Of every part of a book that has a type, the library is asked for it, and gives the evaluator's.
fn types_agree(book: &[u8]) -> usize {
    let Some(opened) = Book::read(book).and_then(|book| book.opened()) else { return 0 };
    let Ok((tree, version)) = decode(&opened.bytes()) else { return 0 };
    let term = Term::new(opened);
    let mut found = Vec::new();
    types(&mut Vec::new(), &tree, &mut found);
    let mut asked = 0;
    for (cell, expected) in found {
        if let (Ok(expected), Some(found)) = (expected, term.type_of(cell)) {
            assert_eq!(found.bytes(), encode_type(&expected, version));
            asked += 1;
        }
    }
    asked
}

#[test]
fn the_types_that_are_shown_are_the_evaluators() {
    let asked = deep(|| {
        let small = generated(19, 40)
            .into_iter()
            .filter(|book| book.len() < 400 && matches!(check(book), Err(refusal) if refusal.number > 10));
        small.map(|book| types_agree(&book)).sum::<usize>()
    });
    println!("{asked:?} types");
    assert!(asked.expect("no panic") > 2_000, "{asked:?}");
}

/// Below and disjoint, asked of the library in books, are the evaluator's.
#[test]
fn questions_about_types_have_the_evaluators_answers() {
    let types: Vec<Book> = TYPES.iter().map(|text| assemble(&format!("type {text}"), None, false).expect("a type").book).collect();
    let read = |book: &Book| {
        let mut term = Book::new(1);
        for part in &book.parts {
            term.push(*part);
        }
        let variable = term.add(tool::kinds::Kind::TopValue, &[]);
        term.add(tool::kinds::Kind::Annotation, &[variable, book.root]);
        let (tree, _) = decode(&term.bytes()).expect("a term");
        first_type(&tree)
    };
    for one in &types {
        for other in &types {
            let (a, b) = (read(one), read(other));
            assert_eq!(is_below(one, std::slice::from_ref(other)), Some(evaluator::subtype(&a, &b)));
            assert_eq!(are_disjoint(&parts(one), &parts(other)), Some(evaluator::disjoint(&a, &b)));
        }
    }
}

const TYPES: [&str; 14] = [
    "Int",
    "Top",
    "Int -> Int",
    "Int -> Top",
    "Top -> Int",
    "{1 : Int}",
    "{2 : Int}",
    "{1 : Top}",
    "Int & Top",
    "Int & {1 : Int}",
    "{1 : Int} & {2 : Int}",
    "(Int -> Int) & {1 : Int -> Int}",
    "Int & Int",
    "{1 : {2 : Int & Top}}",
];

/// The part that a trace marks is the evaluator's redex, and every term is the one that a run with that limit leaves.
#[test]
fn a_trace_marks_the_redex() {
    const LIMIT: u32 = 6;
    let marked = |book: &[u8]| {
        let mut count = 0;
        let _ = traced(book, LIMIT, |reached| {
            assert_eq!(run(book, reached.steps).expect("a run").left, reached.term.bytes());
            let (tree, version) = decode(&reached.term.bytes()).expect("a term");
            assert_eq!(reached.redex, (!tree.is_value() && fits(&successors(&tree, version))).then(|| redex(&tree).cell()));
            count += usize::from(reached.redex.is_some());
            true
        });
        count
    };
    let count = deep(move || generated(20, 12).iter().filter(|book| book.len() < 4_000).map(|book| marked(book)).sum::<usize>());
    println!("{count:?} redexes");
    assert!(count.expect("no panic") > 1_000, "{count:?}");
}

fn fits(next: &[Tree]) -> bool {
    next.iter().all(|next| next.size() <= 4_095)
}

/// A run watched in parts gives the whole run's answer.
#[test]
fn a_watched_run_is_the_run() {
    for name in ["spent_loop", "growing_loop", "revision_counter", "first_number", "unequal_numbers", "equal_numbers"] {
        let book = bytes(&format!("books/{name}.book"));
        for limit in [0, 1, 2, 5, 37, 38, 39, 2_045, 2_046, 2_047, 10_000] {
            let mut told = Vec::new();
            let watched = watched(&book, limit, |so_far| told.push(so_far.steps));
            assert_eq!(watched, run(&book, limit), "{name} {limit}");
            assert!(told.windows(2).all(|pair| pair[0] < pair[1]) && told.iter().all(|&steps| steps < limit));
        }
    }
}

/// `explain` prints the section of docs/FORMAT.md, word for word, and there is one for each number.
#[test]
fn explanations_are_the_pages() {
    let page = common::text("docs/FORMAT.md");
    let words = |text: &str| text.split_whitespace().map(str::to_owned).collect::<Vec<_>>().join(" ");
    let plain = words(&page.replace("```book", "").replace("```join", "").replace("```sheet", "").replace("```", ""));
    assert_eq!(headings().count(), NUMBERS.count());
    for number in NUMBERS {
        let said = section(number).expect("a section");
        assert!(plain.contains(&format!("### {}", words(&said))), "{said}");
        assert!(
            said.starts_with(&format!("{number}: ")) && said.contains("\nCell: ") && said.contains("\nTell the writer: "),
            "{said}"
        );
        assert!(said.lines().last().is_some_and(|line| line.starts_with(&format!("    refused {number} "))), "{said}");
        assert_eq!(answered(&["explain", &number.to_string()], b""), (said, 0));
    }
    for wrong in ["0", "18", "256", "-1", "x", ""] {
        assert_eq!(answered(&["explain", "--", wrong], b"").1, 2);
    }
    assert_eq!(answered(&["explain"], b"").0.lines().count(), 17);
}

fn book(text: &str) -> Book {
    assemble(text, None, false).unwrap_or_else(|fault| panic!("{text}: {fault:?}")).book
}

fn says(text: &str, wanted: &[&str]) {
    let (printed, _) = answered(&["check"], text.as_bytes());
    for line in wanted {
        assert!(printed.contains(line), "{text}: {line} is not in\n{printed}");
    }
}

fn lacks(text: &str, unwanted: &str) {
    let (printed, _) = answered(&["check"], text.as_bytes());
    assert!(!printed.contains(unwanted), "{printed}");
}

#[test]
fn every_refusal_says_what_helps() {
    for (number, help) in [
        ("02", "Compare the length with the one that was sent"),
        ("03", "Send the whole file again"),
        ("04", "Count the cells again"),
        ("05", "The kinds are 1 to 5 and 16 to 27."),
        ("06", "Write zero there."),
        ("07", "Write every part before the whole that uses it."),
        ("08", "Compare its fields with the table of kinds"),
        ("09", "Set the trailer's root to the cell of a term."),
        ("10", "A part that is used twice counts twice."),
    ] {
        let printed = answered(&["check", &format!("books/refusals/{number}.book")], b"").0;
        assert!(printed.lines().any(|line| line.starts_with(help)), "{printed}");
    }
}

fn cell(version: u8, row: [u8; 8]) -> Vec<u8> {
    [row, [0xF0, version, 1, 0, 0, 0, 0, 0]].concat()
}

/// Exactly the fields that the kind does not use in this version.
#[test]
fn fields_that_are_not_used() {
    for (version, row, wrong) in [
        (1, [17, 0, 9, 0, 5, 0, 0, 0], "field a, 9"),
        (1, [17, 3, 0, 0, 5, 0, 7, 0], "the label, 3"),
        (2, [17, 3, 9, 0, 5, 0, 0, 0], "the label, 3"),
        (1, [16, 0, 1, 0, 2, 0, 0, 0], "field b, 2"),
        (1, [1, 0, 0, 0, 0, 0, 1, 1], "field c, 257"),
    ] {
        let printed = answered(&["check", "--book"], &cell(version, row)).0;
        let lines: Vec<&str> = printed.lines().skip_while(|line| !line.contains("what is wrong:")).collect();
        assert_eq!(lines[..2], [format!("  what is wrong:  {wrong}").as_str(), ""], "{printed}");
    }
}

/// The other sort, what a trailer is, the cells that are there, sizes that cannot be counted.
#[test]
fn what_is_wrong_with_a_file_or_cell() {
    let rows = [[17, 0, 0, 0, 1, 0, 0, 0], [19, 0, 0, 0, 0, 0, 0, 0], [0xF0, 1, 2, 0, 1, 0, 0, 0]].concat();
    let printed = answered(&["check", "--book"], &rows).0;
    assert!(printed.contains("  what is wrong:  type: cell 0, a term where a type is wanted\n"), "{printed}");
    says("type Int", &["standard input:1:6\n", "Write a term: "]);
    assert!(answered(&["check", "books/refusals/04.book"], b"").0.contains("\n  cells:       1, number 0\n"));
    assert!(answered(&["check", "books/refusals/03.book"], b"").0.contains("\n  a trailer:   F0, then 01 or 02, "));
}

/// Sizes that double, and that treble, past what can be counted.
#[test]
fn sizes_that_cannot_be_counted() {
    for kind in [22, 27] {
        let mut rows = vec![[18, 0, 0, 0, 0, 0, 0, 0]];
        for at in 0..100u8 {
            rows.push([kind, 0, at, 0, at, 0, if kind == 27 { at } else { 0 }, 0]);
        }
        rows.push([0xF0, 1, 101, 0, 100, 0, 0, 0]);
        assert!(answered(&["check", "--book"], &rows.concat()).0.contains("  size:  more than can be counted here\n"));
    }
}

/// Texts whose cells are shared are marked where they stand, and their binders have their names.
#[test]
fn marks_and_names_in_shared_texts() {
    says(
        "share {1 = 5} ,, {2 = 5} ,, (T + 1)",
        &["standard input:1:30\n", "  1 | share {1 = 5} ,, {2 = 5} ,, (T + 1)\n      |                              ^\n"],
    );
    says("share \\a : Int . 1 + 1 + (\\b : Int . #2 : Int) 1 : Int", &["binders around it:  2, from the inside b, a"]);
    says(
        "let p = 1 in let q = p + p in \\a : Int . q + (\\b : Int . q + #2 : Int) 1 : Int",
        &["binders around it:  2, from the inside b, a"],
    );
    says("let p = {1 = 2} in {3 = p} ,, {4 = p} ,, {5 = 6 7}", &["standard input:1:47\n"]);
}

/// Which half, which side, which part of a type.
#[test]
fn halves_and_types_are_not_exchanged() {
    lacks("(1 + 2) ,, 3", "The right half");
    says("1 ,, (1 + 2)", &["\nThe right half is no value yet"]);
    says("({1 = 2} ,, (1 + 2)) ,, ({3 = 4} ,, (3 : Int & Int))", &["overlap:     Int\n  with:        Int\n"]);
    says("(T ,, {3 = 1 + 2}) ,, ({4 = 5} ,, {3 = {2 = 1} ,, 2})", &["in field:    3\n  overlap:     Int\n  with:        Int\n"]);
    says("({1 = 1 + 2} ,, {3 = 4}) ,, ({3 = 5} ,, {1 = 6})", &["overlap:     {1 : Int}\n  with:        {1 : Int}\n"]);
    says("\\f : {1 : Int} -> Int . f 2 : Int", &["wanted:  {1 : Int}"]);
    lacks("1 : {1 : Int}", "missing:");
}

/// A type of this many records that have a number each: three cells a record, less one.
fn records(count: usize) -> String {
    (0..count).map(|label| format!("{{{} : Int}}", label % 256)).collect::<Vec<_>>().join(" & ")
}

/// What cannot be asked is not said.
#[test]
fn types_too_large_to_be_asked_about() {
    let b = records(467);
    says(
        &format!("\\x : {b} . ({{1 = x}} ,, {{2 = x}} ,, {{3 = x}}) ,, {{1 = x}} : Int"),
        &["refused 14", "left half:   not found: the question is too large for a book"],
    );
    says(
        &format!("\\x : {b} . ({{1 = x}} ,, {{2 = x}} ,, {{3 = x}}).9 : Int"),
        &["field 9 is not there, or more than once", "read from:  not found: the question is too large for a book"],
    );
    let (large, small) = (records(680), records(5));
    let text = format!("\\x : {large} . ({{1 = x}} ,, {{2 = x}} : {{1 : {small}}} & {{9 : {small}}}) : Top");
    says(&text, &["refused 15", "found:   {1"]);
    lacks(&text, "missing:");
}

/// Lines are as wide as they may be, and no wider.
#[test]
fn widths() {
    for (length, lines) in [(72, 1), (73, 2)] {
        let name = "a".repeat(length);
        let printed = answered(&["check"], format!("label {name} = 1 {{{name} = 2}} ,, T").as_bytes()).0;
        assert_eq!(printed.lines().count(), lines, "{printed}");
    }
    for (length, lines) in [(84, 2), (85, 3)] {
        let name = "a".repeat(length);
        let printed = answered(&["show"], format!("label {name} = 1 {{{name} = 2}} : Top").as_bytes()).0;
        assert_eq!(printed.lines().count(), lines, "{printed}");
    }
    for (number, broken) in [("22", false), ("222", true)] {
        let printed = answered(&["check"], &book(&format!("1 {number}{}", " ,, T".repeat(18))).bytes()).0;
        assert_eq!(printed.contains("\n  ...\n"), broken, "{printed}");
    }
    let deep = format!("{}1{}", "(T ,, 1 2 : Int) (".repeat(60), ")".repeat(60));
    let shown = answered(&["show"], deep.as_bytes()).0;
    assert!(shown.lines().all(|line| line.len() - line.trim_start().len() <= 40), "{shown}");
    let name = "a".repeat(67);
    says(&format!("label {name} = 1 {{{name} = 2}}.5"), &[&format!("\nCompare the label: there is {name}.\n")]);
    says(&format!("label {name}a = 1 {{{name}a = 2}}.5"), &[&format!("\nCompare the label: there is\n{name}a.\n")]);
    let name = "a".repeat(66);
    says(&format!("label {name} = 1 ({{{name} = 1}} ,, T) 2"), &[&format!("  applied is:  {{{name} : Int}} & Top\n")]);
    says(
        &format!("label {name}a = 1 ({{{name}a = 1}} ,, T) 2"),
        &[&format!("  applied is:  {{{name}a : Int}}\n               & Top\n")],
    );
}

/// The lines about a marked part; of a long part those at its ends.
#[test]
fn excerpts() {
    let fields: Vec<String> =
        (10..40).map(|label| if label == 25 { "{25 = 1 2}".into() } else { format!("{{{label} = 3}}") }).collect();
    let printed = answered(&["check"], &book(&fields.join(" ,, ")).bytes()).0;
    let wanted = "\n  ...\n  ,, {23 = 3}\n  ,, {24 = 3}\n  ,, {25 = 1 2}\n           ^^^\n  ,, {26 = 3}\n  ,, {27 = 3}\n  ...\n";
    assert!(printed.contains(wanted), "{printed}");
    let fields: Vec<String> = (10..40).map(|label| format!("{{{label} = 3}}")).collect();
    let whole = fields.join(" ,, ");
    let printed = answered(&["check"], &book(&format!("{{9 = {whole} ,, {{10 = 4}}}}")).bytes()).0;
    let wanted = "
  {9 =
    {10 = 3}
    ^^^^^^^^
    ,, {11 = 3}
    ^^^^^^^^^^^
    ,, {12 = 3}
    ^^^^^^^^^^^
  ...
    ,, {38 = 3}
    ^^^^^^^^^^^
    ,, {39 = 3}
    ^^^^^^^^^^^
    ,, {10 = 4}}
    ^^^^^^^^^^^
";
    assert!(printed.contains(wanted), "{printed}");
}

#[test]
fn long_types_are_cut() {
    let label = |n: usize| format!("{}{n}", "a".repeat(40));
    let declared: String = (1..=8).map(|n| format!("label {} = {n} ", label(n))).collect();
    let wanted = |count: usize| {
        let fields: Vec<String> = (1..=count).map(|n| format!("{{{} : Int}}", label(n))).collect();
        let text = format!("{declared} \\f : {} -> Int . f 1 : Int", fields.join(" & "));
        let printed = answered(&["check"], text.as_bytes()).0;
        let lines: Vec<String> = printed
            .lines()
            .skip_while(|line| !line.starts_with("  wanted:"))
            .take_while(|line| !line.starts_with("  by:"))
            .map(str::to_owned)
            .collect();
        lines
    };
    let seven = wanted(7);
    assert_eq!(seven.len(), 7, "{seven:?}");
    assert_eq!(seven[0], format!("  wanted:   {{{} : Int}}", label(1)));
    assert_eq!(seven[6], format!("            & {{{} : Int}}", label(7)));
    let eight = wanted(8);
    assert_eq!(eight.len(), 7, "{eight:?}");
    assert_eq!(eight[2], format!("            & {{{} : Int}}", label(3)));
    assert_eq!(eight[3], "            ... (23 cells in all)");
    assert_eq!(eight[4], format!("            & {{{} : Int}}", label(6)));
}

#[test]
fn carets_end_with_the_line() {
    for lead in [0, 30, 200] {
        let text = format!("{}{{1 = {}}} 2", " ".repeat(lead), vec!["1"; 60].join(" + "));
        let (printed, _) = answered(&["check"], text.as_bytes());
        let lines: Vec<&str> = printed.lines().collect();
        let carets = lines.iter().position(|line| line.contains('^')).expect("carets");
        assert!(lines[carets - 1].ends_with("..."), "{printed}");
        assert_eq!(lines[carets].len(), lines[carets - 1].trim_end_matches('.').len(), "{printed}");
    }
}

/// The last term of a trace is the one at the limit; progress tells the cells of the term.
#[test]
fn traces_end_at_the_limit_and_progress_counts_cells() {
    let printed = answered(&["run", "--trace", "--limit", "1"], b"1 + 2 + 3").0;
    assert_eq!(
        printed,
        "    0  1 + 2 + 3\n       ^^^^^\n    1  3 + 3\n       ^^^^^\nstopped for steps after 1 step: the term is no value yet\n\
         largest term: 5 of 4,095 cells\n"
    );
    let loops = bytes("books/spent_loop.book");
    let _ = tool::running::watched(&loops, 50, |so_far| {
        let left = tool::ask::run(&loops, so_far.steps).expect("a run").left;
        assert_eq!(so_far.cells(), Book::read(&left).expect("a book").parts.len());
    });
}
