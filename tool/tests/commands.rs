//! The program as it is called: its exit status, its input, and that nothing makes it panic.

mod common;

use common::{answered, at, bytes, called, files, generated, on_terminal, text};
use compare::deepest::deepest;
use std::fs;
use std::process::{Command, Stdio};
use std::time::Duration;
use tool::assemble::assemble;
use tool::book::Book;

fn status(arguments: &[&str], input: &[u8]) -> i32 {
    answered(arguments, input).1
}

const COMMANDS: [&str; 7] = ["make", "show", "check", "run", "sheet", "join", "explain"];

/// Calls that do nothing.
const WRONG: [&[&str]; 22] = [
    &[],
    &["nothing"],
    &["check", "no/such/file"],
    &["check", "books"],
    &["check", "--limit", "1"],
    &["sheet", "--limit", "1"],
    &["sheet", "a", "b"],
    &["run", "--limit"],
    &["run", "--limit", "x"],
    &["run", "--limit", "4294967296"],
    &["run", "--limit=-1"],
    &["check", "a", "b"],
    &["check", "--quiet=1"],
    &["check", "--preview", "books/first_number.book"],
    &["make", "--version", "3"],
    &["make", "books/first_number.book"],
    &["make", "-o", "no/such/folder/file", "books/first_number.txt"],
    &["check", "--notation", "books/first_number.book"],
    &["explain", "99"],
    &["show", "--cells", "--dot"],
    &["make", "--notation"],
    &["help", "nothing"],
];

#[test]
fn exit_status() {
    assert_eq!(status(&["check", "books/first_number.book"], b""), 0);
    assert_eq!(status(&["run", "books/spent_loop.book", "--limit", "5"], b""), 0);
    assert_eq!(status(&["run", "books/growing_loop.book"], b""), 0);
    assert_eq!(status(&["check", "books/unequal_numbers.book"], b""), 1);
    assert_eq!(status(&["sheet", "books/sheets/site_settings.book"], b""), 0);
    assert_eq!(status(&["sheet", "books/unequal_numbers.book"], b""), 1);
    assert_eq!(status(&["sheet", "books/sheets/17.book"], b""), 1);
    assert_eq!(status(&["run", "books/unequal_numbers.txt"], b""), 1);
    assert_eq!(status(&["show", "books/refusals/05.book"], b""), 1);
    assert_eq!(status(&["show", "books/refusals/05.book", "--cells"], b""), 0);
    assert_eq!(status(&["show", "books/refusals/14.book"], b""), 0);
    for wrong in WRONG {
        let (printed, status) = answered(wrong, b"1");
        assert_eq!(status, 2, "{wrong:?}: {printed}");
        assert!(!printed.is_empty(), "{wrong:?}");
    }
    for help in [&["help"][..], &["--help"], &["-h"], &["run", "--help"], &["make", "x", "--help"], &["--version"]] {
        assert_eq!(status(help, b""), 0, "{help:?}");
    }
    assert_eq!(answered(&["help", "run"], b""), answered(&["run", "--help"], b""));
    for command in COMMANDS {
        assert!(answered(&["help"], b"").0.contains(&format!("  cerealbank {command} ")));
    }
}

/// A book from a file, from standard input, as bytes or in the notation.
#[test]
fn books_from_anywhere() {
    let book = bytes("books/hidden_field.book");
    let notation = text("books/hidden_field.txt");
    let expected = ("value after 4 steps\nlargest term: 18 of 4,095 cells\n2\n".to_owned(), 0);
    assert_eq!(answered(&["run", "books/hidden_field.book"], b""), expected);
    assert_eq!(answered(&["run", "books/hidden_field.txt"], b""), expected);
    assert_eq!(answered(&["run"], &book), expected);
    assert_eq!(answered(&["run", "-"], notation.as_bytes()), expected);
    assert_eq!(answered(&["run", "--notation"], notation.as_bytes()), expected);
    assert_eq!(answered(&["run", "--book"], &book), expected);
    // Taken for bytes, a text is no book.
    assert_eq!(status(&["check", "--book", "books/hidden_field.txt"], b""), 1);
    // An empty file is a book cut short.
    assert!(answered(&["check"], b"").0.starts_with("refused 2: "));
    let made = called(&["make", "books/hidden_field.txt"], b"").stdout;
    assert_eq!(answered(&["run"], &made), expected);
    let marked = [b"\xEF\xBB\xBF", notation.as_bytes()].concat();
    assert_eq!(answered(&["run"], &marked), expected);
}

#[test]
fn files_are_written() {
    let file = at("target/made.book");
    fs::create_dir_all(at("target")).expect("a folder");
    let name = file.to_str().expect("a name");
    assert_eq!(answered(&["make", "books/drawing_register.txt", "-o", name], b""), (String::new(), 0));
    assert_eq!(called(&["make", "books/drawing_register.txt", "-o", "-"], b"").stdout, fs::read(&file).expect("the book"));
    assert_eq!(fs::read(&file).expect("the book"), called(&["make", "books/drawing_register.txt"], b"").stdout);
    assert_eq!(status(&["run", "books/spent_loop.book", "--limit=7", "-o", name], b""), 0);
    let seven = fs::read(&file).expect("the term reached");
    let on = answered(&["run", "--limit", "3"], &seven).0;
    let ten = answered(&["run", "books/spent_loop.book", "--limit", "10"], b"").0;
    assert_eq!(on.lines().skip(2).collect::<Vec<_>>(), ten.lines().skip(2).collect::<Vec<_>>());
    fs::remove_file(&file).expect("the file goes");
}

#[test]
fn quiet_says_nothing() {
    for (book, expected) in [("books/first_number.book", 0), ("books/refusals/14.book", 1), ("books/refusals/02.book", 1)] {
        for command in [&["check"][..], &["run"], &["run", "--trace"], &["sheet"]] {
            let arguments = [command, &["--quiet", book]].concat();
            assert_eq!(answered(&arguments, b""), (String::new(), expected), "{arguments:?}");
        }
    }
    assert_eq!(answered(&["show", "--quiet", "books/first_number.book"], b""), (String::new(), 0));
    assert_eq!(answered(&["show", "--quiet", "books/refusals/05.book"], b""), (String::new(), 1));
    assert_eq!(answered(&["explain", "--quiet", "14"], b""), (String::new(), 0));
    assert_eq!(called(&["make", "--quiet"], b"1").stdout, called(&["make"], b"1").stdout);
}

/// What is no terminal gets no escape character, whatever NO_COLOR says.
#[test]
fn plain_where_it_is_no_terminal() {
    for arguments in [
        &["check", "books/refusals/14.book"][..],
        &["run", "books/first_number.book", "--trace"],
        &["run", "books/spent_loop.book"],
    ] {
        let (printed, _) = answered(arguments, b"");
        assert!(!printed.contains('\x1b') && !printed.contains('\r'), "{printed}");
    }
}

/// A reader that goes away early is no error, a full disk is one.
#[test]
fn output_that_fails() {
    fs::create_dir_all(at("target")).expect("a folder");
    let file = at("target/endless.txt");
    fs::write(&file, "(fix f : Int -> Int . \\n : Int . if n then 1 else f (n + -1) + f (n + -1) : Int) 40").expect("a file");
    let endless = file.to_str().expect("a name");
    let mut child = Command::new(env!("CARGO_BIN_EXE_cerealbank"))
        .args(["run", "--trace", "--limit=4294967295", "--", endless])
        .current_dir(at("."))
        .stdout(Stdio::piped())
        .stderr(Stdio::piped())
        .spawn()
        .expect("the program");
    drop(child.stdout.take());
    let ended = (0..200).any(|_| {
        std::thread::sleep(Duration::from_millis(100));
        child.try_wait().expect("a status").is_some()
    });
    child.kill().ok();
    assert!(ended, "a trace that nobody reads goes on");
    let output = child.wait_with_output().expect("its output");
    assert_eq!((output.status.code(), output.stderr.len()), (Some(0), 0));
    if let Ok(full) = fs::OpenOptions::new().write(true).open("/dev/full") {
        let output = Command::new(env!("CARGO_BIN_EXE_cerealbank")).args(["help"]).stdout(full).output().expect("the program");
        assert_eq!(output.status.code(), Some(2));
    }
}

/// All that a command can do with an input.
const WAYS: [&[&str]; 14] = [
    &["make"],
    &["make", "--share", "--version", "2"],
    &["show"],
    &["show", "--exact"],
    &["show", "--cells"],
    &["show", "--dot"],
    &["check"],
    &["run", "--limit", "3", "--trace"],
    &["check", "--notation"],
    &["sheet"],
    &["join", "books/joining/office.book"],
    &["join", "-", "books/joining/register.txt"],
    &["join", "books/joining/office.book", "--preview"],
    &["join", "-", "books/joining/register.txt", "--preview"],
];

/// Every way ends with a status and without a panic.
fn survives(input: &[u8]) {
    for way in WAYS {
        let status = status(way, input);
        assert!((0..=2).contains(&status), "{way:?}");
    }
}

#[test]
fn garbage_gets_an_answer() {
    let mut random = compare::random::Random::of(17, "garbage", 0);
    for length in [1, 7, 8, 15, 16, 17, 24, 100, 800, 32_768, 32_776, 70_000] {
        let bytes: Vec<u8> = (0..length).map(|_| random.draw() as u8).collect();
        survives(&bytes);
        let signs = b"\\x:Int.,+{}()=#-0T let in type fix\n";
        let text: Vec<u8> = (0..length).map(|_| *random.pick(signs)).collect();
        survives(&text);
    }
    survives(&[0; 4_096]);
    assert_eq!(answered(&["show", "--cells"], &vec![0; 1 << 22]).0.lines().count(), 1 + (1 << 19));
    survives(&[0xF0; 4_096]);
    survives("\u{3bb}x. x \u{2192} \u{1F4D6}".as_bytes());
}

#[test]
fn cut_books_and_texts_get_an_answer() {
    let notation = text("books/drawing_register.txt");
    for end in (0..notation.len()).step_by(11) {
        survives(&notation.as_bytes()[..end]);
    }
    let book = bytes("books/hidden_field.book");
    for end in (0..book.len()).step_by(5) {
        survives(&book[..end]);
    }
    for place in (0..book.len()).step_by(3) {
        let mut changed = book.clone();
        changed[place] ^= 0x15;
        survives(&changed);
    }
}

#[test]
fn deep_texts_get_an_answer() {
    let nested = format!("{}1{}", "(".repeat(100_000), ")".repeat(100_000));
    let (printed, status) = answered(&["make"], nested.as_bytes());
    assert_eq!(status, 2);
    assert!(printed.starts_with("standard input:1:10001: this is nested more than 10000 deep\n"), "{printed}");
    assert!(printed.len() < 500, "{printed}");
    survives(nested.as_bytes());
    for sign in [
        "(",
        "{1 = ",
        "1 ,, (",
        "\\x : Int . ",
        "fix x : Int . ",
        "if ",
        "1 : (",
        "1 : {1 : ",
        "let x = ",
        "1 + ",
        "T ",
        "1 ,, ",
        "1 : Int -> ",
    ] {
        survives(sign.repeat(30_000).as_bytes());
    }
    // As deep as a book can be.
    for (sign, end) in [("{1 = ", "}"), ("T ,, (", ")"), ("(", " ,, T)"), ("\\x : Int . (", ") : Int"), ("fix x : Int . ", "")] {
        let most = 4_094
            / if sign.starts_with('\\') {
                3
            } else if sign.starts_with('{') {
                1
            } else {
                2
            };
        survives(format!("{}T{}", sign.repeat(most), end.repeat(most)).as_bytes());
    }
}

/// The deepest books of every shape, 4,094 deep, are shown, checked and run.
#[test]
fn deep_books_get_an_answer() {
    let books = evaluator::on_large_stack(deepest);
    let mut seen = std::collections::HashSet::new();
    for deep in books.iter().filter(|deep| seen.insert(deep.group)) {
        for way in [&["show"][..], &["show", "--exact"], &["check"], &["run", "--limit", "2", "--trace"], &["sheet"]] {
            let status = status(way, &deep.book);
            assert!(status <= 1, "{} {way:?}", deep.name);
        }
    }
    assert!(seen.len() > 5, "{}", seen.len());
}

/// Books that the typing rules refuse, of many shapes and sizes, are explained.
#[test]
fn refused_books_are_explained() {
    let explained = tool::deep(|| {
        let mut count = 0;
        for book in generated(21, 60) {
            let input = tool::input::Input::of_bytes(book);
            if let Err(refusal) = tool::ask::check(&input.bytes) {
                let printed = tool::explanation::printed(refusal, &tool::refusals::explained(&input, refusal));
                assert!(printed.starts_with(&format!("refused {}", refusal.number)) && printed.lines().count() < 80, "{printed}");
                assert_eq!(printed.contains('^'), refusal.number > 10, "{printed}");
                assert!(printed.lines().all(|line| line.len() < 160), "{printed}");
                count += 1;
            }
        }
        count
    });
    println!("{explained:?} refused books");
    assert!(explained.expect("no panic") > 500);
}

/// What a type looks like does not change what it is: every table of cells has its rows, and a graph its edges.
#[test]
fn cells_and_graphs() {
    for path in files("books", ".book") {
        let book = bytes(&path);
        let table = answered(&["show", "--cells", &path], b"").0;
        assert_eq!(table.lines().count(), 1 + book.len().div_ceil(8), "{path}");
        let (graph, status) = answered(&["show", "--dot", &path], b"");
        if status == 0 {
            let cells = book.len() / 8 - 1;
            assert_eq!(graph.lines().filter(|line| line.contains("[label=") && !line.contains("->")).count(), cells, "{path}");
            assert!(graph.starts_with("digraph book {\n") && graph.ends_with("}\n"));
        }
    }
}

fn book(text: &str) -> Book {
    assemble(text, None, false).expect("a text").book
}

/// Help names every command, a command's help its own flags, and no command takes another's.
#[test]
fn help_and_flags() {
    let usage = answered(&["help"], b"").0;
    for command in COMMANDS {
        assert!(usage.contains(&format!("\n  cerealbank {command} ")), "{usage}");
        let manual = answered(&[command, "--help"], b"").0;
        assert!(manual.starts_with(&format!("cerealbank {command} ")), "{manual}");
        assert_eq!(manual.contains("\n  --limit N "), command == "run", "{manual}");
        assert_eq!(manual.contains("\n  --share "), command == "make", "{manual}");
        assert_eq!(manual.contains("\n  --preview "), command == "join", "{manual}");
    }
    let own: [(&str, &[&str]); 7] = [
        ("make", &["-o", "--version", "--share"]),
        ("show", &["--exact", "--cells", "--dot", "--book", "--notation"]),
        ("check", &["--book", "--notation"]),
        ("run", &["--limit", "--trace", "-o", "--book", "--notation"]),
        ("sheet", &["--book", "--notation"]),
        ("join", &["-o", "--preview"]),
        ("explain", &[]),
    ];
    for (command, flags) in own {
        for flag in tool::options::FLAGS.iter().filter(|flag| !["--quiet", "--help"].contains(&flag.name)) {
            let said = answered(&[command, flag.name, "1", "2", "3"], b"").0;
            assert_eq!(
                said.starts_with(&format!("{}: this command has no such flag\n", flag.name)),
                !flags.contains(&flag.name),
                "{command} {said}"
            );
        }
    }
}

/// What is said of a wrong call; the hint only where help would help.
#[test]
fn calls_that_go_wrong_say_how() {
    assert_eq!(answered(&["nothing"], b"").0, "nothing: there is no such command\nTry: cerealbank help\n");
    assert!(!answered(&["make"], b"1 ,").0.contains("Try:"));
    assert_eq!(
        answered(&["make", "books/first_number.book"], b"").0,
        "books/first_number.book: this is no text in the notation; `cerealbank show` prints a book\n"
    );
    assert!(answered(&["explain", "--", "-1"], b"").0.starts_with("-1: the refusals have the numbers 1 to 17"));
    assert!(answered(&["check", "no\x1bfile"], b"").0.starts_with("no?file: "));
    let printed = answered(&["check", "--notation"], b"1 ,, \x1b[31m x").0;
    assert!(!printed.contains('\x1b') && printed.contains("  1 | 1 ,, ?[31m x\n"), "{printed}");
    let long = " ".repeat((1 << 22) - 1) + "1";
    assert_eq!(answered(&["make"], long.as_bytes()).0, "standard input: a text in the notation has fewer than 4194304 bytes\n");
}

/// Flags do what they say, and a text may have tabs and returns.
#[test]
fn flags_are_heeded() {
    let shared = assemble("1 ,, 1", None, true).expect("a text").book;
    assert_eq!(called(&["make", "--share"], b"1 ,, 1").stdout, shared.bytes());
    assert_eq!(called(&["make", "--version=2"], b"version 1 1").stdout, book("version 2 1").bytes());
    assert_eq!(answered(&["show", "books/refusals/09.book"], b"").1, 0);
    assert!(answered(&["run", "books/spent_loop.book"], b"").0.starts_with("stopped for steps after 10000 steps: "));
    assert_eq!(answered(&["check"], b"1\r\n\t,, T\r\n").0, "accepted: Int & Top\n");
}

/// The names of labels are shown by every command.
#[test]
fn labels_are_shown_by_name() {
    let text = b"label size = 7 {size = 1 + 2}";
    assert_eq!(answered(&["check"], text).0, "accepted: {size : Int}\n");
    assert_eq!(answered(&["run"], text).0, "value after 1 step\nlargest term: 4 of 4,095 cells\n{size = 3}\n");
    assert_eq!(answered(&["show"], text).0, "label size = 7\n{size = 1 + 2}\n");
    assert!(answered(&["run", "--trace"], text).0.starts_with("    0  {size = 1 + 2}\n               ^^^^^\n    1  {size = 3}\n"));
}

/// A book is bytes without a line end: it is flushed.
#[test]
fn a_full_disk_is_an_error_of_make() {
    if let Ok(full) = fs::OpenOptions::new().write(true).open("/dev/full") {
        let mut command = Command::new(env!("CARGO_BIN_EXE_cerealbank"));
        let output =
            command.args(["make", "books/first_number.txt"]).current_dir(at(".")).stdout(full).output().expect("the program");
        assert_eq!(output.status.code(), Some(2));
    }
}

const GRAPH: &str = "digraph book {
  ordering=out;
  c0 [label=\"0: number 5\"];
  c1 [label=\"1: number 9\", style=dashed];
  c2 [label=\"2: record, label 7\"];
  c2 -> c0 [label=\"content\"];
  c3 [label=\"3: Int\", shape=box];
  c4 [label=\"4: annotation\", style=bold];
  c4 -> c2 [label=\"term\"];
  c4 -> c3 [label=\"type\"];
}
";

/// The root, what is not reached, the version, and every edge.
#[test]
fn cells_and_graphs_word_for_word() {
    let table = answered(&["show", "--cells"], &book("let p = 1 in let q = 2 in p").bytes()).0;
    let lines: Vec<&str> = table.lines().collect();
    assert_eq!(lines[1], "    0  11 00 00 00 01 00 00 00  number 1, the root");
    assert_eq!(lines[2], "    1  11 00 00 00 02 00 00 00  number 2, not reached from the root");
    let made = called(&["make", "--version", "2"], b"4294967297").stdout;
    assert!(answered(&["show", "--cells"], &made).0.contains("  11 00 01 00 00 00 01 00  number 4294967297, the root\n"));
    let table = answered(&["show", "--cells", "books/refusals/07.book"], b"").0;
    assert!(!table.contains("the root"), "{table}");
    let made = book("let a = 5 in let b = 9 in {7 = a} : Int").bytes();
    assert_eq!(answered(&["show", "--dot"], &made), (GRAPH.into(), 0));
}

#[test]
fn colours_on_a_terminal() {
    let Some(printed) = on_terminal("check books/refusals/14.book", "") else { return };
    assert!(
        printed.contains("\x1b[1;31mrefused\x1b[0m 14, cell 2: ") && printed.contains("  \x1b[1;31m^^^^^^\x1b[0m\n"),
        "{printed:?}"
    );
    assert_eq!(on_terminal("check books/refusals/14.book", "1"), Some(answered(&["check", "books/refusals/14.book"], b"").0));
    assert!(on_terminal("check books/first_number.book", "").unwrap().starts_with("\x1b[1;32maccepted\x1b[0m: Int\n"));
    assert_eq!(on_terminal("run --quiet books/spent_loop.book --limit 1000000", ""), Some(String::new()));
    assert!(on_terminal("make books/first_number.txt", "").unwrap().contains("this is a terminal: name a file with -o FILE"));
}

#[test]
fn progress_on_a_terminal() {
    let long = "(fix f : Int -> Int . \\n : Int . if n then 1 else f (n + -1) + f (n + -1) : Int) 40";
    let file = at("target/long.txt");
    fs::create_dir_all(at("target")).expect("a folder");
    fs::write(&file, long).expect("a file");
    let Some(printed) = on_terminal("run target/long.txt --limit 16000000", "1") else { return };
    let told: Vec<&str> = printed.split('\r').collect();
    let [first, .., last] = &told[..] else { panic!("{printed:?}") };
    assert!(first.is_empty() && told[1].contains(" steps, ") && told[1].contains(" cells, largest "), "{printed:?}");
    assert!(told[told.len() - 2].trim().is_empty() && last.starts_with("stopped for steps after 16000000 steps: "), "{printed:?}");
    assert!(!printed.contains('\x1b'), "{printed:?}");
    // The largest term so far never shrinks, and the run's is no smaller.
    let largest = |told: &str| {
        let figure = told.split("largest ").nth(1)?.trim_start_matches("term: ").split_whitespace().next()?;
        figure.replace(',', "").parse().ok()
    };
    let marks: Vec<u32> = told.iter().filter_map(|told| largest(told)).collect();
    assert!(marks.len() == told.len() - 2 && marks.windows(2).all(|pair| pair[0] <= pair[1]), "{printed:?}");
    // What does not take long says nothing of how far it is.
    let quick = on_terminal("run books/spent_loop.book --limit 1000", "1").expect("a terminal");
    assert!(quick.starts_with("stopped for steps after 1000 steps: "), "{quick:?}");
}
