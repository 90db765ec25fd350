//! The largest term of a run, from the first to the one reached: shown for every stop, whether the run is whole or watched in parts. What is
//! expected is counted in the books that single steps lay down, never taken from the library's mark.

mod common;

use common::{answered, bytes, files, generated, name, on_terminal, scratch, text};
use evaluator::{decode, successors};
use tool::ask::{run, Refusal, Stop};
use tool::assemble::assemble;
use tool::book::CELL;
use tool::deep;
use tool::running::{in_parts, watched};

/// The limit of a run that is given none.
const DESK: u32 = 10_000;

/// The sizes of the terms that a run reaches, the first too.
fn sizes(book: &[u8], limit: u32) -> Result<Vec<usize>, Refusal> {
    let mut reached = run(book, 0)?;
    let mut sizes = vec![reached.left.len() / CELL - 1];
    while sizes.len() <= limit as usize {
        reached = run(&reached.left, 1)?;
        if reached.steps == 0 {
            break;
        }
        sizes.push(reached.left.len() / CELL - 1);
    }
    Ok(sizes)
}

/// A count below 10,000 has at most one group of three digits behind the first.
fn line(cells: usize) -> String {
    let mut digits = cells.to_string();
    if digits.len() == 4 {
        digits.insert(1, ',');
    }
    format!("largest term: {digits} of 4,095 cells")
}

/// The one line about the largest term, which stands right below the stop.
fn shown(printed: &str) -> &str {
    let lines: Vec<&str> = printed.lines().collect();
    let stop = |line: &str| line.starts_with("value after ") || line.starts_with("stopped for ");
    let at = lines.iter().position(|line| stop(line)).unwrap_or_else(|| panic!("{printed}"));
    assert_eq!(lines.iter().filter(|line| line.contains("largest")).count(), 1, "{printed}");
    lines[at + 1]
}

fn made(text: &str) -> Vec<u8> {
    assemble(text, None, false).expect("a text").book.bytes()
}

/// Every sample book shows the largest of its terms; one that is refused shows none.
#[test]
fn sample_books_show_their_largest_terms() {
    let (mut ran, mut refused) = (0, 0);
    for path in files("books", ".book") {
        let book = bytes(&path);
        let (printed, status) = answered(&["run", &path], b"");
        match deep(move || sizes(&book, DESK)).expect("no panic") {
            Ok(sizes) => {
                assert_eq!(shown(&printed), line(*sizes.iter().max().expect("a first term")), "{path}");
                assert_eq!(status, 0);
                ran += 1;
            }
            Err(_) => {
                let traced = answered(&["run", "--trace", &path], b"");
                assert_eq!((printed.contains("largest"), status, &traced), (false, 1, &(printed, 1)), "{path}");
                refused += 1;
            }
        }
    }
    assert!(ran > 40 && refused > 15, "{ran} {refused}");
}

/// The sizes by single steps are those that runs with every limit from 0 on lay down.
#[test]
fn sizes_are_those_of_every_limit() {
    for name in ["three_copies", "revision_counter", "spent_loop", "growing_loop", "four_copies"] {
        let book = bytes(&format!("books/{name}.book"));
        for (limit, &size) in (0..).zip(&sizes(&book, 40).expect("sizes")) {
            let ran = run(&book, limit).expect("a run");
            assert_eq!((ran.steps, ran.left.len() / CELL - 1, ran.cells()), (limit, size, size), "{name} {limit}");
        }
    }
}

/// books/README.md has the largest term of each book in its tables.
#[test]
fn the_table_of_samples_has_the_largest_terms() {
    let page = text("books/README.md");
    let rows: Vec<Vec<&str>> =
        page.lines().filter(|line| line.starts_with("| `")).map(|line| line.split(" | ").collect()).collect();
    for row in &rows {
        let [book, .., answer, largest, _] = row[..] else { panic!("{row:?}") };
        let printed = answered(&["run", &format!("books/{}", book.trim_matches(['|', ' ', '`']))], b"").0;
        match largest.strip_suffix(" cells") {
            Some(cells) => assert_eq!(shown(&printed), line(cells.replace(',', "").parse().expect("a count")), "{book}"),
            None => assert!(largest == "-" && answer.starts_with("`refused ") && printed.starts_with("refused "), "{row:?}"),
        }
    }
    let listed = |path: &&String| path.matches('/').count() == 1 || path.starts_with("books/sheets/");
    assert_eq!(rows.len(), files("books", ".book").iter().filter(listed).count());
}

/// What the tour says of the book that has no room for four copies.
#[test]
fn the_step_that_finds_no_room() {
    let book = bytes("books/four_copies.book");
    let (term, version) = decode(&book).expect("a term");
    assert_eq!((book.len() / CELL - 1, term.size()), (34, 1_046));
    assert_eq!(successors(&term, version).iter().map(|next| next.size()).collect::<Vec<_>>(), [4_116]);
    assert!(text("docs/TOUR.md").contains(" has 34 cells, and the term that it begins with 1,046.\n"));
    assert!(text("docs/TOUR.md").contains(" the next term would have 4,116. "));
}

const VALUE: &str = "value";
const STEPS: &str = "stopped for steps";
const ROOM: &str = "stopped for room";

/// A limit, why the run stops under it, after how many steps, and its largest term.
type Limited = (u32, &'static str, u32, usize);

/// Texts, and their runs.
const RUNS: [(&str, &[Limited]); 5] = [
    ("7", &[(0, VALUE, 0, 1), (5, VALUE, 0, 1)]),
    (
        "fix self : Int . self",
        &[(0, STEPS, 0, 3), (1, STEPS, 1, 5), (5, STEPS, 5, 13), (2_046, STEPS, 2_046, 4_095), (2_047, ROOM, 2_046, 4_095)],
    ),
    (
        "fix self : Int . if 0 then self else 1",
        &[(0, STEPS, 0, 6), (1, STEPS, 1, 11), (2, STEPS, 2, 11), (3, STEPS, 3, 15), (4, STEPS, 4, 15)],
    ),
    (
        "(\\x : Int & (Int & Int) . {1 = x} ,, ({2 = x} ,, {3 = x}) : {1 : Int}) 1",
        &[(0, STEPS, 0, 18), (1, STEPS, 1, 23), (2, VALUE, 2, 23), (DESK, VALUE, 2, 23)],
    ),
    // It grows, shrinks, and has no room for four copies of a function.
    (
        "(\\x : {1 : Int} & {2 : Int} & {3 : Int} . {4 = x} ,, {5 = x} ,, {6 = x} : {4 : {1 : Int}})
           ({1 = 1} ,, {2 = 2} ,, {3 = 3})
         ,, (\\r : Int -> Int . {1 = r} ,, {2 = r} ,, {3 = r} ,, {5 = r} : {1 : Int -> Int})
           (\\n : Int . let a = n + n in let b = a + a in let c = b + b in let d = c + c in let e = d + d in
              let f = e + e in let g = f + f in let h = g + g in h + h : Int)",
        &[(0, STEPS, 0, 1_076), (1, STEPS, 1, 1_080), (2, STEPS, 2, 1_080), (3, ROOM, 2, 1_080), (DESK, ROOM, 2, 1_080)],
    ),
];

#[test]
fn every_stop_shows_the_largest_term() {
    for (text, runs) in RUNS {
        for &(limit, stop, steps, largest) in runs {
            let (printed, status) = answered(&["run", "--limit", &limit.to_string()], text.as_bytes());
            let after = format!("{stop} after {steps} step{}", if steps == 1 { "" } else { "s" });
            assert!(printed.starts_with(&after), "{text} {limit}: {printed}");
            assert_eq!((shown(&printed), status), (&*line(largest), 0), "{text} {limit}");
        }
    }
}

/// A book whose largest term comes after 2 steps, and is inside the second part of a watched run: that goes from 1 step to 3.
const INSIDE: &str = "((\\x : Int & (Int & Int) . {1 = x} ,, ({2 = x} ,, {3 = x}) : {1 : Int}) (0 + 1)).1 + 1 + 1 + 1 + 1";

/// The parts of a watched run, as long as none takes long.
fn doubled(book: &[u8], limit: u32) -> (Vec<(u32, usize, u32)>, tool::ask::Ran) {
    let (mut part, mut ends) = (1, Vec::new());
    let ran = in_parts(book, limit, part, |so_far| {
        ends.push((so_far.steps, so_far.cells(), so_far.mark));
        part *= 2;
        part
    });
    (ends, ran.expect("a run"))
}

/// The largest term of an earlier part counts, though none at an end of a part is as large, and the last part's are all smaller.
#[test]
fn a_largest_term_inside_a_part_is_kept() {
    let book = made(INSIDE);
    let sizes = sizes(&book, DESK).expect("sizes");
    let largest = *sizes.iter().max().expect("a first term");
    let is_largest = |place: &usize| sizes[*place] == largest;
    assert_eq!((0..sizes.len()).filter(is_largest).collect::<Vec<_>>(), [2], "{sizes:?}");
    assert_eq!(sizes.len(), 9, "{sizes:?}");
    let (ends, ran) = doubled(&book, DESK);
    assert_eq!(ends, [(1, sizes[1], sizes[0] as u32), (3, sizes[3], largest as u32), (7, sizes[7], largest as u32)]);
    assert_eq!((ran.stop, ran.steps, ran.mark as usize), (Stop::Value, 8, largest));
    assert_eq!(Ok(&ran), run(&book, DESK).as_ref());
    assert_eq!(Ok(&ran), watched(&book, DESK, |_| ()).as_ref());
    let file = scratch("inside.book", &book);
    let whole = answered(&["run", name(&file)], b"").0;
    assert_eq!(shown(&whole), line(largest));
    if let Some(printed) = on_terminal(&format!("run {}", name(&file)), "1") {
        assert_eq!(printed, whole);
    }
}

/// A run in parts of any length is the whole run: its stop, its steps, its largest term and the term reached.
#[test]
fn a_run_in_parts_is_the_whole_run() {
    let ran = deep(|| {
        let samples = files("books", ".book").iter().map(|path| bytes(path)).collect::<Vec<_>>();
        let made = [made(INSIDE)].into_iter().chain(RUNS.map(|(text, _)| made(text)));
        let mut ran = 0;
        for book in samples.into_iter().chain(made).chain(generated(8, 5)) {
            for limit in [0, 2, 3, 9, 40] {
                let whole = run(&book, limit);
                for length in [1, 2, 3, 5] {
                    assert_eq!(in_parts(&book, limit, length, |_| length), whole, "{limit} {length}");
                }
                let told = watched(&book, limit, |so_far| {
                    assert_eq!((so_far.stop, so_far.mark >= so_far.cells() as u32), (Stop::Spent, true));
                });
                assert_eq!(told, whole, "{limit}");
                ran += usize::from(whole.is_ok_and(|ran| ran.mark as usize > ran.cells()));
            }
        }
        ran
    });
    assert!(ran.is_some_and(|ran| ran > 200), "{ran:?}");
}

/// What is printed is the same where someone watches.
#[test]
fn a_terminal_shows_the_same() {
    for path in ["three_copies", "four_copies", "revision_counter", "growing_loop", "unequal_numbers"] {
        let path = format!("books/{path}.book");
        for limit in ["0", "1", "3", "30"] {
            let printed = answered(&["run", &path, "--limit", limit], b"").0;
            let Some(seen) = on_terminal(&format!("run {path} --limit {limit}"), "1") else { return };
            assert_eq!(seen, printed, "{path} {limit}");
        }
    }
}

/// A trace ends with the stop and the largest term that the run alone shows first, and the term below them.
#[test]
fn a_trace_ends_with_the_largest_term() {
    for (text, runs) in RUNS {
        for (limit, ..) in runs.iter().filter(|(limit, ..)| *limit < 40) {
            let limit = limit.to_string();
            let ran = answered(&["run", "--limit", &limit], text.as_bytes()).0;
            let traced = answered(&["run", "--trace", "--limit", &limit], text.as_bytes()).0;
            let ends: Vec<&str> = traced.lines().rev().take(2).collect();
            assert_eq!(ends.into_iter().rev().collect::<Vec<_>>(), ran.lines().take(2).collect::<Vec<_>>(), "{traced}");
            assert_eq!(shown(&traced), shown(&ran));
        }
    }
}

/// A file has the bytes of the term reached, and no word of how large others were; `--quiet` says nothing.
#[test]
fn files_are_as_they_were() {
    let file = scratch("reached.book", b"");
    for (text, runs) in RUNS {
        for (limit, ..) in runs {
            let call = ["run", "--limit", &limit.to_string(), "-o", name(&file)];
            assert!(answered(&call, text.as_bytes()).0.contains("\nlargest term: "));
            let written = std::fs::read(&file).expect("the book");
            assert_eq!(written, run(&made(text), *limit).expect("a run").left);
            assert_eq!(answered(&[&call[..], &["--quiet"]].concat(), text.as_bytes()), (String::new(), 0));
            assert_eq!(std::fs::read(&file).expect("the book"), written);
        }
    }
}

/// The program says what `run` shows.
#[test]
fn help_names_it() {
    for call in [&["help"][..], &["run", "--help"]] {
        assert!(answered(call, b"").0.contains("how large its terms became"), "{call:?}");
    }
}
