//! The notation means what docs/NOTATION.md says: every form beside the term that it is, what holds tighter, names, and errors.

mod common;

use common::text;
use evaluator::{decode, Term, Type, Version};
use tool::assemble::assemble;
use tool::book::Book;
use tool::deep;
use tool::lex::WORDS;
use tool::source::Source;

fn book(text: &str) -> Book {
    assemble(text, None, false).unwrap_or_else(|fault| panic!("{text}: {fault:?}")).book
}

/// The term that a text is, as the evaluator reads its book.
fn term(text: &str) -> Term {
    decode(&book(text).bytes()).unwrap_or_else(|refusal| panic!("{text}: {refusal:?}")).0
}

fn number(n: i64) -> Term {
    Term::number(n)
}

fn identity() -> Term {
    Term::function(Term::variable(0), Type::int(), Type::top())
}

#[test]
fn every_form_is_its_term() {
    let int_to_top = || Type::function(Type::int(), Type::top());
    let cases = [
        ("12", number(12)),
        ("-5", number(-5)),
        ("T", Term::top()),
        ("#2", Term::variable(2)),
        ("{7 = 5}", Term::record(7, number(5))),
        ("{7 = 5}.8", Term::projection(8, Term::record(7, number(5)))),
        ("(5).7", Term::projection(7, number(5))),
        ("1 2", Term::application(number(1), number(2))),
        ("1 + 2", Term::sum(number(1), number(2))),
        ("1 ,, 2", Term::merge(number(1), number(2))),
        ("if 1 then 2 else 3", Term::choice(number(1), number(2), number(3))),
        ("\\x : Int . x : Top", identity()),
        ("fix x : Int -> Top . x", Term::fixpoint(Term::variable(0), int_to_top())),
        ("1 : Int", Term::annotation(number(1), Type::int())),
        ("1 : Int & Top", Term::annotation(number(1), Type::intersection(Type::int(), Type::top()))),
        ("1 : {7 : Int}", Term::annotation(number(1), Type::record(7, Type::int()))),
        ("let p = 1 in p ,, p", Term::merge(number(1), number(1))),
        ("type N = Int in 1 : N", Term::annotation(number(1), Type::int())),
    ];
    for (text, expected) in cases {
        assert_eq!(term(text), expected, "{text}");
    }
}

/// Both texts are the same book, to the byte.
fn same(one: &str, other: &str) {
    assert_eq!(book(one), book(other), "{one} and {other}");
}

#[test]
fn what_holds_tighter() {
    same("1 ,, 2 ,, 3", "(1 ,, 2) ,, 3");
    same("1 + 2 + 3", "(1 + 2) + 3");
    same("1 2 3", "(1 2) 3");
    same("1 + 2 ,, 3 + 4", "(1 + 2) ,, (3 + 4)");
    same("1 2 + 3 4", "(1 2) + (3 4)");
    same("{1 = 2}.1 {1 = 2}.1", "({1 = 2}.1) ({1 = 2}.1)");
    same("{1 = 2}.1.3", "({1 = 2}.1).3");
    same("1 ,, {7 = 5} : Int", "(1 ,, {7 = 5}) : Int");
    same("1 : Int : Top", "(1 : Int) : Top");
    same("1 : Int -> Int -> Top", "1 : (Int -> (Int -> Top))");
    same("1 : Int & Top & Int", "1 : (Int & Top) & Int");
    same("1 : Int & Top -> Int", "1 : (Int & Top) -> Int");
    same("\\x : Int . x + 1 : Int", "\\x : Int . (x + 1) : Int");
    same("\\x : Int . x ,, 1 : Int : Top", "(\\x : Int . (x ,, 1) : Int) : Top");
    same("\\x : Int . \\y : Int . y : Int : Int -> Int", "\\x : Int . (\\y : Int . y : Int) : Int -> Int");
    same("fix x : Int . x ,, 1 : Top", "(fix x : Int . (x ,, 1)) : Top");
    same("if 1 ,, 2 then 3 ,, 4 else 5 ,, 6 : Int", "(if (1 ,, 2) then (3 ,, 4) else (5 ,, 6)) : Int");
    same("1 ,, \\x : Int . x : Int", "1 ,, (\\x : Int . x : Int)");
    same("1 + if 1 then 2 else 3 + 4", "1 + (if 1 then 2 else (3 + 4))");
    same("let p = 1 in p ,, p : Int", "let p = 1 in ((p ,, p) : Int)");
    same("\\x : Int . let p = x + 1 in p + p : Int", "\\x : Int . (let p = x + 1 in (p + p)) : Int");
    same("let p = 1 : Int in p", "let p = (1 : Int) in p");
    same("{7 = 1 : Int}", "{7 = (1 : Int)}");
}

#[test]
fn spaces_and_comments_mean_nothing() {
    same("1,,{7=5}:Int", "-- first\n 1\t,,\r\n{ 7 = 5 } -- é , (\n : Int --");
    same("\\x:Int.x:Int", "\\ x : Int . x : Int");
    same("{1=2}.1", "{1 = 2} . 1");
    same("1+-1", "1 + -1");
    same("1 -- one", "1");
}

#[test]
fn names_are_the_innermost() {
    same("\\x : Int . \\x : Top . x : Top : Top -> Top", "\\x : Int . \\y : Top . y : Top : Top -> Top");
    same("\\x : Int . \\y : Top . x : Int : Top -> Int", "\\x : Int . \\y : Top . #1 : Int : Top -> Int");
    same("fix f : Int . \\x : Int . f x : Int", "fix f : Int . \\x : Int . #1 #0 : Int");
    same("let x = 1 in \\x : Int . x : Int", "let y = 1 in \\x : Int . #0 : Int");
    same("let x = 1 in (let x = 2 in x) ,, {3 = x}", "let a = 1 in let b = 2 in b ,, {3 = a}");
    same("type x = Int in \\x : x . x : x", "type N = Int in \\y : N . y : N");
    same("type N = Int in type N = Top in 1 : N", "type M = Int in type N = Top in 1 : N");
    same("label x = 7 \\x : Int . {x = x}.x : Int", "\\x : Int . {7 = x}.7 : Int");
    same("label revision = 7 1 : {revision : Int}", "1 : {7 : Int}");
}

/// A part is laid down once, before what it is named in; where a variable of it must be counted anew, once more.
#[test]
fn parts_are_laid_once() {
    assert_eq!(book("let p = 1 ,, T in p 2 p").parts.len(), 3 + 1 + 2);
    assert_eq!(book("let p = 1 in 2").parts.len(), 2);
    assert_eq!(book("type N = Int & Int in 1 : N : N").parts.len(), 3 + 1 + 2);
    same("let p = {1 = 2} in let q = p in q ,, p", "let p = {1 = 2} in p ,, p");
    let under = "\\x : Int . let p = x + 1 in p + (\\y : Int . p : Int) p : Int";
    assert_eq!(term(under), term("\\x : Int . x + 1 + (\\y : Int . #1 + 1 : Int) (x + 1) : Int"));
    assert_eq!(book(under).parts.iter().filter(|part| part.kind as u8 == 26).count(), 2 + 1);
    same(
        "\\a : Int . \\b : Int . let p = a + b in p + (\\c : Int . p : Int) 1 : Int : Int -> Int",
        "\\a : Int . \\b : Int . let p = a + b in p + (\\c : Int . a + b : Int) 1 : Int : Int -> Int",
    );
    // What `#` skips is not counted anew.
    assert_eq!(term("let p = #0 + 1 in \\x : Int . p : Int"), term("\\x : Int . x + 1 : Int"));
}

#[test]
fn sharing_lays_equal_parts_once() {
    let shared = |text: &str| assemble(text, None, true).expect("a text").book;
    let three = shared("(1 ,, 1) ,, (1 ,, 1)");
    assert_eq!(three.parts.len(), 3);
    assert_eq!(three, book("share (1 ,, 1) ,, (1 ,, 1)"));
    assert_eq!(shared("let unused = 5 in 1 ,, 1").parts.len(), 2);
    assert_eq!(decode(&three.bytes()), Ok((term("(1 ,, 1) ,, (1 ,, 1)"), Version::of(1).expect("a version"))));
}

#[test]
fn the_version_asked_for_goes_before_the_texts() {
    assert_eq!(book("1").version, 1);
    assert_eq!(book("version 2 1").version, 2);
    assert_eq!(assemble("version 2 1", Some(1), false).expect("a text").book.version, 1);
    assert_eq!(assemble("4294967296", Some(2), false).expect("a text").book.parts[0].datum, 1 << 32);
}

#[test]
fn a_type_can_be_the_whole() {
    assert_eq!(book("type Int -> Top").parts.len(), 3);
    same("let number = 1 in type Int", "let other = 1 in type (Int)");
    assert_eq!(book("type N = Int & Int in type N -> N").parts.len(), 3 + 1);
}

/// Where a text is wrong: line, column, the line and the caret.
#[test]
fn errors_name_their_place() {
    let cases = [
        ("", "1:1", "the text ends here: a term is wanted"),
        ("-- nothing\n", "1:11", "the text ends here: a term is wanted"),
        (
            "1 , {7 = 5}",
            "1:3",
            "there is no single comma: a merge is a ,, b, two fields are {1 = 2} ,, {3 = 4}, two arguments f 1 2",
        ),
        ("1 ,,\n  ,, 2", "2:3", "this does not belong here: a term is wanted"),
        ("1 ,, x", "1:6", "nothing here has this name: no function, fixpoint or `let` around it binds it"),
        ("let a = 1\na + a", "2:1", "a `let` cannot use its own name: `in` is missing before it, or `fix` is meant"),
        ("(1", "1:3", "the text ends here: `)` is wanted"),
        ("1)", "1:2", "this does not belong here: the end is wanted"),
        ("{7 : Int}", "1:4", "this does not belong here: `=` and the field's content is wanted"),
        ("{revision = 1}", "1:2", "no label has this name: write `label revision = N` at the top"),
        ("{256 = 1}", "1:2", "a label goes from 0 to 255"),
        ("label a = 7 label b = 7 1", "1:19", "label 7 is named a already"),
        ("label a = 7 label a = 8 1", "1:19", "this label has its number already"),
        ("label let = 7 1", "1:7", "this word is the notation's own: the name of a label is wanted"),
        ("version 3 1", "1:9", "a version goes from 1 to 2"),
        ("version 1 version 2 1", "1:19", "the version is said already"),
        ("2147483648", "1:1", "a number of version 1 goes from -2147483648 to 2147483647; version 2 goes further"),
        ("140737488355328", "1:1", "a number goes from -140737488355328 to 140737488355327"),
        ("5.7", "1:2", "numbers are whole; to read a field of a number, put it in brackets"),
        ("12ab", "1:1", "a number ends with its digits"),
        ("#65536", "1:1", "what a variable skips goes from 0 to 65535"),
        ("#x", "1:1", "# wants a number: how many binders the variable skips"),
        ("1 - 1", "1:3", "- stands only before a number, in ->, and twice before a comment; to subtract 1, write + -1"),
        ("\\x : Int . x", "1:13", "the text ends here: `:` and the function's output type is wanted"),
        ("\\x . x : Int", "1:4", "this does not belong here: `:` and the variable's type is wanted"),
        ("\\x : int . x : Int", "1:6", "no type has this name: Int, Top and those that a `type` names"),
        ("1 : 2", "1:5", "this does not belong here: a type is wanted"),
        ("T \\x : Int . x : Int", "1:3", "behind a term this needs brackets, or a sign between them"),
        ("1 ,, \u{3bb}x", "1:6", "this sign is not ASCII, and outside a comment the notation is"),
        ("1 ; 2", "1:3", "this sign is none of the notation's"),
        ("if 1 then 2", "1:12", "the text ends here: `else` and what is taken for anything but zero is wanted"),
        ("(type Int)", "1:2", "this does not belong here: a term is wanted"),
        ("1 ,, 2 : Int ,, 3", "1:14", "an annotation holds loosest: before this it needs brackets"),
        ("if 1 : Int then 2 else 3", "1:6", "an annotation needs brackets here"),
        ("1 type A = Int in 3", "1:3", "behind a term this needs brackets, or a sign between them"),
        ("{-0 = 1}", "1:2", "a label goes from 0 to 255"),
        ("(type N = Int in 1 : N) : N", "1:27", "no type has this name: Int, Top and those that a `type` names"),
        ("\\x : Int . x : Int ,, x", "1:23", "nothing here has this name: no function, fixpoint or `let` around it binds it"),
        ("(let a = 1 in a) + a", "1:20", "nothing here has this name: no function, fixpoint or `let` around it binds it"),
        ("1 :", "1:4", "the text ends here: a type is wanted"),
        ("(1\n\n", "1:3", "the text ends here: `)` is wanted"),
    ];
    for (text, place, message) in cases {
        let fault = assemble(text, None, false).err().unwrap_or_else(|| panic!("{text:?} is assembled"));
        let source = Source { name: "a.txt".into(), text: text.into() };
        let complaint = source.complaint(&fault);
        let lines: Vec<&str> = complaint.lines().collect();
        assert_eq!(lines[0], format!("a.txt:{place}: {message}"), "{text}");
        let (line, column) = place.split_once(':').expect("line and column");
        let shown = text.lines().nth(line.parse::<usize>().expect("a number") - 1).unwrap_or("");
        assert_eq!(
            lines[1],
            format!("  {line} | {shown}").trim_end_matches(' ').to_owned() + if shown.is_empty() { " " } else { "" },
            "{text}"
        );
        let caret = lines[2].find('^').expect("a caret");
        assert_eq!(caret, "  1 | ".len() + column.parse::<usize>().expect("a number") - 1, "{text}");
    }
}

/// A caret stands below its place in a long line, and below a tab.
#[test]
fn carets_in_long_lines() {
    let long = format!("{} , 1", vec!["1"; 300].join(" ,, "));
    let source = Source { name: "a".into(), text: long.clone() };
    let complaint = source.complaint(&assemble(&long, None, false).err().expect("a fault"));
    let lines: Vec<&str> = complaint.lines().collect();
    assert!(lines[1].len() < 120, "{complaint}");
    let caret = lines[2].find('^').expect("a caret");
    assert_eq!(&lines[1][caret..=caret], ",", "{complaint}");
    // In the middle of a line, what stands on both sides is shown.
    let ones = vec!["1"; 100].join(" ,, ");
    let long = format!("{ones} , {ones}");
    let source = Source { name: "a".into(), text: long.clone() };
    let complaint = source.complaint(&assemble(&long, None, false).err().expect("a fault"));
    let lines: Vec<&str> = complaint.lines().collect();
    let caret = lines[2].find('^').expect("a caret");
    assert!(caret > 40 && lines[1].len() > caret + 40, "{complaint}");
    let source = Source { name: "a".into(), text: "\t1 , 2".into() };
    assert_eq!(source.complaint(&assemble("\t1 , 2", None, false).err().expect("a fault")).lines().nth(2), Some("    | \t  ^"));
}

/// A text may not be deeper, larger or longer than is said.
#[test]
fn bounds() {
    let nested = |depth: usize| format!("{}1{}", "(".repeat(depth), ")".repeat(depth));
    let read = |text: String| {
        deep(move || assemble(&text, None, false).map(|made| made.book.parts.len()).map_err(|fault| fault.message))
            .expect("no panic")
    };
    assert_eq!(read(nested(10_000)), Ok(1));
    assert_eq!(read(nested(10_001)), Err("this is nested more than 10000 deep".into()));
    let in_types = |depth: usize| format!("1 : {}Int{}", "(".repeat(depth), ")".repeat(depth));
    assert_eq!(read(in_types(10_000)), Ok(3));
    assert_eq!(read(in_types(10_001)), Err("this is nested more than 10000 deep".into()));
    let aliases = |count: usize| format!("let a = T in {}a", "let a = a in ".repeat(count));
    assert_eq!(read(aliases(9_999)), Ok(1));
    assert_eq!(read(aliases(300_000)), Err("there are more than 10000 names before this".into()));
    assert_eq!(read(nested(100_000)), Err("this is nested more than 10000 deep".into()));
    assert_eq!(read("(".repeat(100_000)), Err("this is nested more than 10000 deep".into()));
    assert_eq!(read(format!("1{}", " + 1".repeat(2_047))), Ok(4_095));
    assert_eq!(
        read(format!("1{}", " + 1".repeat(100_000))),
        Err("with this the text has more than 4095 cells, which `share` does not lower".into())
    );
    assert_eq!(read(format!("1 : {}Int", "Int -> ".repeat(2_046))), Ok(4_095));
    assert_eq!(read("{1 = ".repeat(20_000)), Err("this is nested more than 10000 deep".into()));
    assert_eq!(
        read("\\x : Int . ".repeat(20_000)),
        Err("with this the text has more than 4095 cells, which `share` does not lower".into())
    );
    assert_eq!(read("if ".repeat(20_000)), Err("this is nested more than 10000 deep".into()));
    assert_eq!(read("1 : ".to_owned() + &"{1 : ".repeat(20_000)), Err("this is nested more than 10000 deep".into()));
    // A part that uses an outer variable is laid down at every depth that it is used at.
    let part = vec!["x"; 100].join(" + ");
    let uses = "\\y : Int . p + ".repeat(40);
    assert_eq!(
        read(format!("\\x : Int . let p = {part} in {uses} p{} : Int", " : Int".repeat(40))),
        Err("with this the book has more than 4095 cells".into())
    );
    // Brackets, choices and names that stand side by side are not nested.
    assert_eq!(read(vec!["((((((1))))))"; 2_000].join(" + ")), Ok(3_999));
    let choice = "if let a = p in a then let a = p in a else let a = p in ";
    assert_eq!(read(format!("let p = 1 in {}p", choice.repeat(2_600))), Ok(2_601));
}

/// Every example of the page is assembled, its error is the one that it shows, and its words are the notation's.
#[test]
fn the_page_is_true() {
    let page = text("docs/NOTATION.md");
    let blocks = |kind: &str| {
        let start = format!("```{kind}\n");
        page.split(&start).skip(1).map(|rest| rest.split("```").next().expect("a block").to_owned()).collect::<Vec<_>>()
    };
    let notations = blocks("notation");
    assert!(!notations.is_empty());
    notations.iter().for_each(|text| drop(book(text)));
    for error in blocks("error") {
        let (wrong, complaint) = error.trim_end().rsplit_once('\n').expect("a text and a complaint");
        let source = Source { name: "a".into(), text: wrong.into() };
        let said = source.complaint(&assemble(wrong, None, false).err().expect("a fault"));
        assert_eq!(said.lines().next(), Some(format!("a:{complaint}").as_str()));
    }
    let words: Vec<&str> = WORDS.iter().map(|(word, _)| *word).collect();
    assert!(page.contains(&format!("`{}`", words.join(" "))), "the words of the notation");
}
