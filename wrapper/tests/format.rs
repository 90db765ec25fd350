//! What docs/FORMAT.md and books/README.md say of books is what the engine answers and leaves. A block of FORMAT.md that is marked `book` has a
//! book, and then each answer, of a run with its mark, and the bytes that it leaves. One that is marked `join` has a project and a part, and then
//! the answer with the joint; its preview is asked first. One that is marked `sheet` has a book, what the sheet call answers and leaves, and, unless
//! it is refused, a run's answer.

#![cfg(not(library_missing))]

mod pages;
mod previewing;

use cerealbank::{check, join, preview, run, sheet, Answer, Joined, RunAnswer, SheetAnswer, Which, PROJECT, WORK};
use evaluator::{Cell, Field, Row, Sort, Version, CELL, TABLE};
use pages::blocks::{blocks, format, marked, Block};
use pages::{answer, asked, at, books_in, counted, cut, number, on_the_desk, padded, quoted, ran, stopped, text, LIMIT};
use previewing::join_as_previewed;
use std::collections::BTreeSet;
use std::fs;

/// The refusals; the last but one is of a join and its preview, the last of the sheet call.
const REFUSALS: std::ops::RangeInclusive<u8> = 1..=17;
const OF_A_BOOK: std::ops::RangeInclusive<u8> = 1..=15;
/// The limit of the desk program.
const DESK_LIMIT: u32 = 10_000;

#[test]
fn every_refusal_has_its_section() {
    let sections = format().1;
    assert_eq!(sections.iter().map(|(number, _)| *number).collect::<Vec<_>>(), REFUSALS.collect::<Vec<_>>());
    for (number, section) in sections {
        for part in ["\nCell: ", "\nTell the writer: "] {
            assert!(section.contains(part), "{number} has no {part}");
        }
    }
}

#[test]
fn every_refused_book_is_refused_as_its_section_says() {
    for (number, section) in format().1.into_iter().filter(|(number, _)| *number > 1 && OF_A_BOOK.contains(number)) {
        let [Block { book, answers }] = &blocks(&section)[..] else { panic!("{number} has no single book") };
        let [(words, left)] = &answers[..] else { panic!("{number}: {answers:?}") };
        assert!(words.starts_with(&format!("refused {number} ")) && left.is_empty(), "{number}: {words}");
        let (checked, ran) = (answer(words).expect("an answer"), ran(words).expect("an answer"));
        let file = format!("books/refusals/{number:02}.book");
        assert_eq!(book, &fs::read(at(&file)).expect("the book's file"), "{file}");
        assert_eq!(asked(|work| check(book, work)), (checked, padded(&[])), "{file}, checked");
        assert_eq!(asked(|work| run(book, work, LIMIT)), (ran, padded(&[])), "{file}, run");
    }
}

#[test]
fn every_file_of_a_refused_book_has_a_section() {
    assert_eq!(books_in("books/refusals"), OF_A_BOOK.skip(1).map(|number| format!("{number:02}.book")).collect());
}

/// What an expression of Samples.antt stands for: lines of eight bytes, lists and named books, one behind the other.
fn bytes(expression: &str, definitions: &str) -> Vec<u8> {
    let part = |part: &str| -> Vec<u8> {
        if let Some(line) = part.strip_prefix("line ") {
            let line: Vec<u8> = line.split(' ').map(number).collect();
            assert_eq!(line.len(), 8, "{part}");
            return line;
        }
        if let Some(list) = part.strip_suffix(" ∷ []") {
            return list.split(" ∷ ").map(number).collect();
        }
        let (_, book) = definitions.split_once(&format!("\n{part} =\n")).unwrap_or_else(|| panic!("{part} is not defined"));
        bytes(book.split("\n\n").next().expect("a definition"), definitions)
    };
    expression.split("++").map(str::trim).flat_map(part).collect()
}

/// The samples of a list of Samples.antt, a line each.
fn listed<'a>(list: &str, definitions: &'a str) -> Vec<&'a str> {
    let (_, lines) = definitions.split_once(&format!("\n{list} =\n")).expect("the list");
    let lines: Vec<&str> = lines.lines().map_while(|line| line.trim().trim_start_matches("∷ ").strip_prefix("sample ")).collect();
    assert!(lines.len() > 10, "{list}");
    lines
}

/// The words between brackets.
fn bracketed(words: &str) -> Vec<&str> {
    words.strip_prefix('(').and_then(|words| words.strip_suffix(')')).expect("brackets").split(' ').collect()
}

/// The book of a sample that is checked, and its answer.
fn checked_sample(sample: &str, definitions: &str) -> (Vec<u8>, Answer) {
    let (_, sample) = sample.rsplit_once("\" ").expect("a name");
    let (book, shown) = sample.split_once(" check (").expect("a check");
    let book = book.strip_prefix('(').and_then(|book| book.strip_suffix(')')).unwrap_or(book);
    let shown = shown.strip_suffix(") []").expect("an answer that leaves no book");
    (bytes(book, definitions), answer(shown).expect("an answer"))
}

#[test]
fn the_refused_books_are_those_of_the_definitions() {
    let definitions = text("crates/answers/specs/Samples.antt");
    let defined = listed("refusals", &definitions).into_iter().map(|sample| checked_sample(sample, &definitions));
    let shown = OF_A_BOOK.zip(format().1).skip(1).map(|(number, (_, section))| {
        let Block { book, answers } = blocks(&section).remove(0);
        assert!(answers[0].0.starts_with(&format!("refused {number} ")), "{number}");
        (book, answer(&answers[0].0).expect("an answer"))
    });
    assert_eq!(defined.collect::<Vec<_>>(), shown.collect::<Vec<_>>());
}

/// What is asked about a sample, and the answer.
enum Said {
    Check(Answer),
    Run(u32, RunAnswer),
}

/// The answer of a run in Samples.antt's words: `stopped value 4 18`, or a refusal.
fn ran_sample(words: &str) -> RunAnswer {
    let parts: Vec<&str> = words.split(' ').collect();
    let ran = match parts[..] {
        ["stopped", stop, steps, mark] => stopped([stop, steps, mark]),
        _ => ran(words),
    };
    ran.unwrap_or_else(|| panic!("{words} is no answer of a run"))
}

/// A sample of Samples.antt: its book, what is asked and answered, and the bytes that are left.
fn sample(line: &str, definitions: &str) -> (Vec<u8>, Said, Vec<u8>) {
    let (_, line) = line.rsplit_once("\" ").expect("a name");
    let (book, line) = line.split_once(' ').expect("a book");
    let (limit, line) = match line.strip_prefix("(run ") {
        Some(line) => line.split_once(") (").map(|(limit, line)| (Some(number(limit)), line)).expect("a limit"),
        None => (None, line.strip_prefix("check (").expect("a check or a run")),
    };
    let (shown, left) = line.split_once(") ").expect("an answer");
    let left = left.strip_prefix('(').and_then(|left| left.strip_suffix(')')).map_or(Vec::new(), |left| bytes(left, definitions));
    let said = match limit {
        Some(limit) => Said::Run(limit, ran_sample(shown)),
        None => Said::Check(answer(shown).expect("an answer")),
    };
    (bytes(book, definitions), said, left)
}

#[test]
fn the_samples_of_the_definitions_are_answered_as_they_say() {
    let definitions = text("crates/answers/specs/Samples.antt");
    for list in ["samples", "field_reads", "sums_and_choices", "bodies", "wide_numbers", "orders", "marks"] {
        for line in listed(list, &definitions) {
            let (book, said, left) = sample(line, &definitions);
            match said {
                Said::Check(answer) => assert_eq!(asked(|work| check(&book, work)), (answer, padded(&left)), "{line}"),
                Said::Run(limit, answer) => assert_eq!(asked(|work| run(&book, work, limit)), (answer, padded(&left)), "{line}"),
            }
        }
    }
}

/// What a sample join expects: the answer, the joint and the type that is left, both none after a refusal.
fn expected(shown: &str, definitions: &str) -> (Joined, Vec<u8>, Vec<u8>) {
    match bracketed(shown)[..] {
        ["joins", size, joint, of] => {
            let (joint, of) = (bytes(joint, definitions), bytes(of, definitions));
            let answer = Answer::Accepted { size: number(size) };
            (Joined { which: Which::Joint, answer, bytes: joint.len() }, joint, of)
        }
        ["refuses", which, refusal, cell] => {
            let which = match which {
                "Project" => Which::Project,
                "Part" => Which::Part,
                _ => Which::Joint,
            };
            let answer = Answer::Refused { number: number(refusal), cell: number(cell) };
            (Joined { which, answer, bytes: 0 }, Vec::new(), Vec::new())
        }
        _ => panic!("{shown}"),
    }
}

#[test]
fn the_sample_joins_of_the_definition_are_answered_as_they_say() {
    let definitions = text("crates/joining/specs/Samples.antt");
    for line in listed("join_samples", &definitions) {
        let (_, books) = line.rsplit_once("\" ").expect("a name");
        let (project, books) = books.split_once(' ').expect("a project");
        let (part, shown) = books.split_once(' ').expect("a part");
        let (project, part) = (bytes(project, &definitions), bytes(part, &definitions));
        let (joined, joint, left) = expected(shown, &definitions);
        let mut lent = project.clone();
        lent.resize(PROJECT, 0xAA);
        let mut after = if joined.bytes == 0 { lent.clone() } else { joint };
        after.resize(PROJECT, 0);
        assert_eq!(asked(|work| join_as_previewed(&mut lent, project.len(), &part, work)), (joined, padded(&left)), "{line}");
        assert!(lent == after, "{line}");
    }
}

/// A sample sheet is accepted with the size of its type, its count of steps and the type that is left, or refused.
#[test]
fn the_sample_sheets_of_the_definition_are_answered_as_they_say() {
    let definitions = text("crates/sheets/specs/Samples.antt");
    for line in listed("sheet_samples", &definitions) {
        let (_, sample) = line.rsplit_once("\" ").expect("a name");
        let (book, shown) = sample.split_once(' ').expect("a book");
        let book = bytes(book, &definitions);
        let (said, left) = match bracketed(shown)[..] {
            ["accepts", size, steps, of] => {
                (SheetAnswer::Accepted { size: number(size), steps: number(steps) }, bytes(of, &definitions))
            }
            ["refuses", refusal, cell] => (SheetAnswer::Refused { number: number(refusal), cell: number(cell) }, Vec::new()),
            _ => panic!("{line}"),
        };
        assert_eq!(asked(|work| sheet(&book, work)), (said, padded(&left)), "{line}");
    }
}

#[test]
fn refusal_1_is_of_another_length_and_touches_nothing() {
    let section = format().1.remove(0).1;
    let [Block { book, answers }] = &blocks(&section)[..] else { panic!("no single book") };
    assert_eq!(answers, &[("refused 1 0".to_string(), Vec::new())]);
    let refused = Answer::Refused { number: 1, cell: 0 };
    for length in [0, 1, 8, WORK - 1, WORK + 1, 2 * WORK] {
        let mut work = vec![9; length];
        for book in [&book[..], &[]] {
            assert_eq!(check(book, &mut work), refused);
            assert_eq!(run(book, &mut work, LIMIT), RunAnswer::Refused { number: 1, cell: 0 });
            assert_eq!(sheet(book, &mut work), SheetAnswer::Refused { number: 1, cell: 0 });
            let of_joint = Joined { which: Which::Joint, answer: refused, bytes: 0 };
            assert_eq!(join(&mut [], 0, book, &mut work), of_joint);
            assert_eq!(preview(&[], 0, book, &mut work), of_joint);
        }
        assert!(work.iter().all(|&byte| byte == 9));
    }
    assert!(matches!(asked(|work| check(book, work)).0, Answer::Accepted { .. }));
}

#[test]
fn the_examples_are_answered_as_shown() {
    let examples = blocks(&format().0);
    assert!(!examples.is_empty());
    for Block { book, answers } in examples {
        let [(checked, shown), (stopped, left)] = &answers[..] else { panic!("{answers:?}") };
        let (checked, stopped) = (answer(checked).expect("an answer"), ran(stopped).expect("an answer with its mark"));
        assert_eq!(asked(|work| check(&book, work)), (checked, padded(shown)));
        assert_eq!(asked(|work| run(&book, work, LIMIT)), (stopped, padded(left)));
    }
}

/// The joins of the page: the project up to its trailer, the part, and the answer with the joint.
#[test]
fn the_joins_are_answered_as_shown() {
    let page = text("docs/FORMAT.md");
    let joins = marked("join", &page);
    assert_eq!(joins.len(), 2);
    for Block { book, answers } in joins {
        let [(words, joint)] = &answers[..] else { panic!("{answers:?}") };
        let answer = answer(words).expect("an answer");
        let (project, part) = book.split_at(cut(&book).len());
        assert_eq!(cut(part), part);
        let (mut lent, mut work) = (project.to_vec(), vec![9; WORK]);
        lent.resize(PROJECT, 9);
        let before = lent.clone();
        let joined = join_as_previewed(&mut lent, project.len(), part, &mut work);
        assert_eq!(joined, Joined { which: Which::Joint, answer, bytes: joint.len() });
        match answer {
            Answer::Accepted { .. } => {
                assert!(lent[..joint.len()] == joint[..] && lent[joint.len()..].iter().all(|&byte| byte == 0));
                assert!(page.contains(&format!("joint's {} bytes for a byte count", joint.len())));
            }
            _ => assert!(lent == before),
        }
        assert_eq!(asked(|work| check(&lent[..joined.bytes], work)).1, work);
    }
    assert_eq!(marked("join", &format().1[15].1)[0].answers[0].0, "refused 16 0");
}

#[test]
fn the_sheets_are_answered_as_shown() {
    let (page, sections) = format();
    let [accepted] = &marked("sheet", &page)[..] else { panic!("no single sheet") };
    let [(words, found), (stopped, reached)] = &accepted.answers[..] else { panic!("{:?}", accepted.answers) };
    let said = counted(words).expect("an answer with its steps");
    assert_eq!(asked(|work| sheet(&accepted.book, work)), (said, padded(found)));
    let stopped = ran(stopped).expect("an answer with its mark");
    assert_eq!(asked(|work| run(&accepted.book, work, LIMIT)), (stopped, padded(reached)));
    assert!(
        matches!((said, stopped), (SheetAnswer::Accepted { steps, .. }, RunAnswer::Value { steps: taken, .. }) if steps == taken)
    );

    let [refused] = &marked("sheet", &sections[16].1)[..] else { panic!("no single sheet") };
    let [(words, left)] = &refused.answers[..] else { panic!("{:?}", refused.answers) };
    assert!(words.starts_with("refused 17 ") && left.is_empty(), "{words}");
    assert_eq!(asked(|work| sheet(&refused.book, work)), (counted(words).expect("an answer"), padded(&[])));
    assert_eq!(&refused.book, &fs::read(at("books/sheets/17.book")).expect("the book's file"));
    assert!(matches!(asked(|work| check(&refused.book, work)).0, Answer::Accepted { .. }), "17 is of the sheet call alone");
}

/// The numbers of 64 bits that the page shows, taken apart.
#[test]
fn the_packed_answers_are_what_the_page_says() {
    let (before, _) = format();
    for (packed, words) in [
        (0x0000_000E_0000_0002_u64, "0x0000000E00000002 is refused 14, cell 2"),
        (0x0000_1221_0000_0004, "0x0000122100000004 is a value after 4 steps with the mark 18"),
        (0x0000_030E_0000_0004, "0x0000030E00000004 is refused 14, cell 4 of the joint"),
        (0x0028_0320_0000_0004, "0x0028032000000004 is accepted with a type of size 4 and a joint of 40 bytes"),
        (0x0000_0320_0000_0001, "0x0000032000000001 is accepted with a type of size 1 and 3 steps"),
    ] {
        let page = before.split_whitespace().collect::<Vec<_>>().join(" ");
        assert!(page.contains(words), "{words}");
        let shown = [packed as u32 as u64, packed >> 32 & 255, packed >> 40 & 255, packed >> 48];
        let numbers: Vec<u64> = words.split([' ', ',']).skip(1).filter_map(|word| word.parse().ok()).collect();
        assert!(numbers.iter().all(|number| shown.contains(number)), "{words}: {shown:?}");
    }
}

#[test]
fn the_example_is_the_book_that_it_names() {
    let (before, _) = format();
    let (_, example) = before.split_once("\n### An example\n").expect("the example");
    let (example, _) = example.split_once("\n## ").expect("its end");
    let [Block { book, .. }] = &blocks(example)[..] else { panic!("no single book") };
    let file = quoted(example)[0];
    assert_eq!(file, "books/first_number.book");
    assert_eq!(book, &fs::read(at(file)).expect("the book's file"));
}

/// The limits of a row: `2 and more` are several.
fn limits(words: &str) -> Vec<u32> {
    match words.strip_suffix(" and more").map(number::<u32>) {
        Some(first) => vec![first, first + 1, 10_000, u32::MAX],
        None => vec![number(words)],
    }
}

/// The example of the mark has a table below it, a row a limit.
#[test]
fn the_table_of_the_mark_is_what_the_engine_answers() {
    let (before, _) = format();
    let (_, section) = before.split_once("\n**The mark** ").expect("the mark");
    let (section, _) = section.split_once("\n### ").expect("its end");
    let [Block { book, .. }] = &blocks(section)[..] else { panic!("no single book") };
    let rows = section.lines().filter(|line| line.starts_with("| ") && line.contains('`'));
    let mut sizes: Vec<usize> = Vec::new();
    for row in rows {
        let [limit, said, reached] = row.trim_matches('|').split(" | ").map(str::trim).collect::<Vec<_>>()[..] else {
            panic!("{row}")
        };
        let cells = number(reached.split(':').next().expect("a number"));
        for limit in limits(limit) {
            let (got, work) = asked(|work| run(book, work, limit));
            assert_eq!(Some(got), ran(quoted(said)[0]), "{row}");
            assert_eq!(cut(&work).len(), CELL * (cells + 1), "{row}");
        }
        sizes.push(cells);
    }
    let [first, second, last] = sizes[..] else { panic!("{sizes:?}") };
    assert!(second > first && second > last, "the largest term is neither the first nor the last");
    assert!(section.contains(&format!("which is {} cells in the book", book.len() / CELL - 1)));
}

#[test]
fn a_spent_run_continues_from_the_term_it_left() {
    let book = fs::read(at("books/spent_loop.book")).expect("the book's file");
    let (first, half) = asked(|work| run(&book, work, 5));
    let (second, twice) = asked(|work| run(cut(&half), work, 5));
    let (whole, once) = asked(|work| run(&book, work, 10));
    assert_eq!([first, second, whole], [(5, 68), (5, 64), (10, 68)].map(|(steps, mark)| RunAnswer::Spent { steps, mark }));
    assert!(twice == once, "the same bytes");
}

/// The rows of a table whose first column is a number, each a list of its columns.
fn numbered_rows(text: &str) -> Vec<Vec<String>> {
    let rows = text.lines().filter_map(|line| line.strip_prefix("| ")?.strip_suffix(" |"));
    let rows = rows.map(|row| row.split(" | ").map(|column| column.trim().to_string()).collect::<Vec<_>>());
    rows.filter(|row| row[0].parse::<u8>().is_ok()).collect()
}

/// FORMAT.md's table of kinds for a version: of each row the meaning, and the rest in the words of the definitions. A row of another version is left out.
fn kinds(version: Version) -> Vec<(String, String)> {
    let (before, _) = format();
    let (_, table) = before.split_once("\n### Kinds\n").expect("the kinds");
    let (table, _) = table.split_once("\n### ").expect("their end");
    let kind = |row: Vec<String>| {
        let [kind, sort, meaning, fields @ ..] = &row[..] else { panic!("{row:?}") };
        let used = |field: &String| match field.split(':').next() {
            Some("-") => "unused",
            Some("type") => "types",
            Some("term") => "terms",
            _ => "plain",
        };
        (meaning.clone(), format!("{kind} {sort}_sort {}", fields.iter().map(used).collect::<Vec<_>>().join(" ")))
    };
    let (own, other) = match version {
        Version::One => ("version 1", "version 2"),
        Version::Two => ("version 2", "version 1"),
    };
    let rows = numbered_rows(table).into_iter().map(kind).filter(|(meaning, _)| !meaning.contains(other));
    let rows: Vec<_> = rows.collect();
    assert_eq!(rows.iter().filter(|(meaning, _)| meaning.contains(own)).count(), 1, "the number's row alone is by the version");
    rows
}

/// The definitions' table of kinds for a version: what `lowest` says of the version stands in its place.
fn defined(version: Version) -> Vec<String> {
    let table = text("crates/format/specs/Table.antt");
    let lowest = format!("lowest {version:?} = ");
    let lowest = table.lines().find_map(|line| line.strip_prefix(&lowest)).expect("the number's field a").to_string();
    let rows = table.lines().filter_map(|line| line.trim().trim_start_matches("∷ ").strip_prefix("row "));
    let rows = rows.filter(|row| row.starts_with(|c: char| c.is_ascii_digit()));
    rows.map(|row| row.replace("(lowest v)", &lowest)).collect()
}

#[test]
fn the_table_of_kinds_is_that_of_the_definitions() {
    for version in [Version::One, Version::Two] {
        assert_eq!(kinds(version).into_iter().map(|(_, row)| row).collect::<Vec<_>>(), defined(version));
    }
}

/// One version's table is the evaluator's.
fn same_as_the_evaluators(version: Version) {
    let used = |field: Field| match field {
        Field::Unnamed => "unused",
        Field::Plain => "plain",
        Field::Reference(Sort::Type) => "types",
        Field::Reference(Sort::Term) => "terms",
    };
    let shown = kinds(version);
    assert_eq!(shown.len(), TABLE.len());
    for ((meaning, shown), row) in shown.iter().zip(TABLE) {
        let Row { kind, meaning: word, sort, labelled, .. } = row;
        let sort = if *sort == Sort::Type { "type" } else { "term" };
        let label = if *labelled { "plain" } else { "unused" };
        assert_eq!(shown, &format!("{kind} {sort}_sort {label} {}", row.fields_in(version).map(used).join(" ")));
        assert!(meaning.contains(word), "{kind}: {meaning}");
    }
}

#[test]
fn the_table_of_kinds_is_that_of_the_evaluator() {
    same_as_the_evaluators(Version::One);
    same_as_the_evaluators(Version::Two);
}

/// The term left is "the number N", or has "N cells", in the version of its book; or, for "-", there is none.
fn is_reached(shown: &str, version: Version, work: &[u8]) -> bool {
    let trailer = |cells: u16| Cell::trailer(cells, cells - 1, version).bytes();
    if let Some(value) = shown.strip_prefix("the number ") {
        let cell = Cell::number(number::<i64>(value), version).bytes();
        return work == padded(&[cell, trailer(1)].concat());
    }
    if let Some(cells) = shown.strip_suffix(" cells") {
        let past = CELL * number::<usize>(cells);
        return work == padded(&[&work[..past], &trailer(number(cells))].concat());
    }
    assert_eq!(shown, "-");
    work == padded(&[])
}

/// The rows of books/README.md about the books of a folder, which are all of them: of each the book's name, the book and the row. The name of a book
/// elsewhere than in `books` has its folder before it.
fn sample_rows(folder: &str) -> Vec<(String, Vec<u8>, String)> {
    let page = text("books/README.md");
    let below = |name: &str| at("books").join(name).parent() == Some(&at(folder));
    let rows = page.lines().filter(|line| line.starts_with("| `") && below(quoted(line)[0]));
    let rows = rows.map(|row| {
        let name = quoted(row)[0];
        (name.rsplit('/').next().expect("a name").to_string(), fs::read(at("books").join(name)).expect("a book"), row.to_string())
    });
    let rows: Vec<_> = rows.collect();
    assert_eq!(rows.iter().map(|(name, ..)| name.clone()).collect::<BTreeSet<_>>(), books_in(folder));
    rows
}

/// A run of a sample book says what stands last in quotes in its row, and reaches what the last column says.
fn runs_as_shown(name: &str, book: &[u8], row: &str) {
    let shown = quoted(row).pop().expect("an answer");
    let reached = row.trim_end_matches(" |").rsplit(" | ").next().expect("a column");
    let (got, work) = asked(|work| run(book, work, DESK_LIMIT));
    assert_eq!(on_the_desk(got), shown, "{name}");
    let version = Version::of(book[book.len() - CELL + 1]).expect("a version");
    assert!(is_reached(reached, version, &work), "{name} does not reach {reached}");
}

#[test]
fn every_sample_book_is_answered_as_its_table_says() {
    for (name, book, row) in sample_rows("books") {
        runs_as_shown(&name, &book, &row);
    }
}

#[test]
fn every_sample_sheet_is_answered_as_its_table_says() {
    for (name, book, row) in sample_rows("books/sheets") {
        let [_, .., said, _] = quoted(&row)[..] else { panic!("{row}") };
        assert_eq!(Some(asked(|work| sheet(&book, work)).0), counted(said), "{name}");
        runs_as_shown(&name, &book, &row);
    }
}
