//! A digest is that of all that a side says and leaves in checks, runs, joins and previews: other sheets alone give the same, and anything else
//! another one. The stored digests are those of all families.

use compare::digests::{Digested, Digests, WithSheets};
use compare::engines::{Call, Engine, Evaluator, JoinReply, Reply};
use compare::families::families;
use compare::pairs::pair_families;
use evaluator::{on_large_stack, Answer, Fault, Joined, Which, PROJECT, WORK};
use std::fs;
use std::path::{Path, PathBuf};
use std::process::Command;

/// Says this of each call, and leaves this byte at this place.
#[derive(Clone)]
struct Fixed {
    reply: Reply,
    joined: JoinReply,
    work: (usize, u8),
    lent: (usize, u8),
}

impl Engine for Fixed {
    fn name(&self) -> String {
        "fixed".to_string()
    }

    fn call(&self, _: Call, _: &[u8], work: &mut [u8]) -> Reply {
        work[self.work.0] = self.work.1;
        self.reply.clone()
    }

    fn join(&self, lent: &mut [u8], _: usize, _: &[u8], work: &mut [u8]) -> JoinReply {
        lent[self.lent.0] = self.lent.1;
        work[self.work.0] = self.work.1;
        self.joined.clone()
    }

    fn preview(&self, lent: &mut [u8], length: usize, part: &[u8], work: &mut [u8]) -> JoinReply {
        self.join(lent, length, part, work)
    }
}

/// The digests of a run, a join and a preview, as this side answers them.
fn digests(side: &Fixed) -> [u64; 3] {
    [0, 1, 2].map(|call| {
        let digested = Digested::of(side);
        let (mut work, mut lent) = (vec![0; WORK], vec![0; PROJECT]);
        match call {
            0 => drop(digested.call(Call::Run { limit: 5 }, &[1, 2], &mut work)),
            1 => drop(digested.join(&mut lent, 16, &[1, 2], &mut work)),
            _ => drop(digested.preview(&mut lent, 16, &[1, 2], &mut work)),
        }
        digested.digest()
    })
}

fn fixed() -> Fixed {
    let answer = Answer::Accepted { size: 7 };
    let joined = Joined { which: Which::Joint, answer, bytes: 40 };
    Fixed { reply: Ok(Answer::Value { steps: 3, mark: 9 }), joined: Ok(joined), work: (0, 1), lent: (0, 1) }
}

/// How many different ones there are.
fn different<T: Ord>(list: &mut Vec<T>) -> usize {
    list.sort_unstable();
    list.dedup();
    list.len()
}

#[test]
fn every_part_of_an_answer_counts() {
    let refused = |number, cell| Answer::Refused { number, cell };
    let answers = [
        Answer::Value { steps: 3, mark: 9 },
        Answer::Value { steps: 4, mark: 9 },
        Answer::Value { steps: 3, mark: 8 },
        Answer::Spent { steps: 3, mark: 9 },
        Answer::Spent { steps: 3, mark: 8 },
        Answer::Room { steps: 3, mark: 9 },
        Answer::Room { steps: 3, mark: 8 },
        Answer::Accepted { size: 3 },
        Answer::Accepted { size: 4 },
        refused(14, 2),
        refused(13, 2),
        refused(14, 3),
    ];
    let replies = answers.map(Ok).into_iter().chain([Err("a panic".to_string()), Err("another".to_string())]);
    let mut seen: Vec<u64> = replies.map(|reply| digests(&Fixed { reply, ..fixed() })[0]).collect();
    assert_eq!(different(&mut seen), 14);
}

#[test]
fn every_part_of_a_join_counts() {
    let answer = Answer::Accepted { size: 7 };
    let refused = |number| Answer::Refused { number, cell: 0 };
    let joined = |which, answer, bytes| Ok(Joined { which, answer, bytes });
    let all: [JoinReply; 7] = [
        joined(Which::Joint, answer, 40),
        joined(Which::Part, answer, 40),
        joined(Which::Project, answer, 40),
        joined(Which::Joint, answer, 48),
        joined(Which::Joint, refused(16), 0),
        joined(Which::Joint, refused(14), 0),
        Err("a panic".to_string()),
    ];
    let mut seen: Vec<u64> = all.into_iter().flat_map(|joined| digests(&Fixed { joined, ..fixed() })[1..].to_vec()).collect();
    assert_eq!(different(&mut seen), 14);
}

/// Wherever a byte stands.
#[test]
fn every_byte_counts() {
    let places = |length: usize| (0..length).step_by(61).chain([1, 7, 8, 63, 64, length - 65, length - 64, length - 1]);
    let bytes = |place: usize| [1, 128, 255].map(|byte| (place, byte));
    let zeros = Fixed { work: (0, 0), lent: (0, 0), ..fixed() };
    let works = places(WORK).flat_map(bytes).map(|work| Fixed { work, ..zeros.clone() });
    let lents = places(PROJECT).flat_map(bytes).map(|lent| Fixed { lent, ..zeros.clone() });
    for (sides, length, call) in [(works.collect::<Vec<_>>(), WORK, 0), (lents.collect(), PROJECT, 1)] {
        let mut seen: Vec<u64> = sides.iter().chain([&zeros]).map(|side| digests(side)[call]).collect();
        assert_eq!(different(&mut seen), different(&mut places(length).collect::<Vec<_>>()) * 3 + 1);
    }
}

/// The call, its limit, the book and the length of the work buffer.
#[test]
fn what_a_call_is_about_counts() {
    let side = fixed();
    let of = |call: Call, book: &[u8], length: usize| {
        let digested = Digested::of(&side);
        drop(digested.call(call, book, &mut vec![0; length]));
        digested.digest()
    };
    let run = |limit| Call::Run { limit };
    let mut seen = vec![
        of(run(5), &[1], WORK),
        of(run(6), &[1], WORK),
        of(Call::Check, &[1], WORK),
        of(run(5), &[2], WORK),
        of(run(5), &[1, 0], WORK),
        of(run(5), &[1], WORK + 1),
    ];
    assert_eq!(different(&mut seen), 6);
}

/// The digest of some books' calls, as the evaluator answers them with this fault or none, and with the evaluator's sheets in place of its own.
fn of_books(fault: Option<Fault>) -> [u64; 2] {
    let families = families();
    let names = ["sheets", "rising and falling", "nearly sheets", "widened"];
    let asked = families.iter().filter(|family| names.contains(&family.name));
    let books: Vec<Vec<u8>> = asked.flat_map(|family| family.in_both_versions(1, 60).take(60)).collect();
    let sides: [Box<dyn Engine>; 2] = [Box::new(Evaluator(fault)), Box::new(WithSheets(Box::new(Evaluator(fault))))];
    sides.map(|side| {
        let digested = Digested::of(side.as_ref());
        for (book, call) in
            books.iter().flat_map(|book| [Call::Check, Call::Sheet, Call::Run { limit: 50 }].map(|call| (book, call)))
        {
            let _ = digested.call(call, book, &mut vec![3; WORK]);
        }
        digested.digest()
    })
}

#[test]
fn sheets_alone_do_not_count() {
    on_large_stack(|| {
        let [right, with_sheets] = of_books(None);
        assert_eq!(right, with_sheets);
        for fault in Fault::ALL.into_iter().filter(|fault| fault.is_of_sheets()) {
            assert_eq!(of_books(Some(fault)), [right; 2], "{fault:?}");
        }
        for fault in [Fault::MarkOfLast, Fault::MarkAsSteps, Fault::OutputKept, Fault::DescentCounted, Fault::HalfNamed] {
            assert!(of_books(Some(fault)).iter().all(|other| *other != right), "{fault:?}");
        }
    });
}

/// A side whose sheets alone are wrong says and leaves all that the evaluator does with the evaluator's; one that is wrong elsewhere does not.
#[test]
fn the_evaluators_sheets_are_put_in() {
    on_large_stack(|| {
        let book = compare::samples::desk_example();
        let same = |fault: Fault, call: Call| {
            let [mut one, mut other] = [vec![1; WORK], vec![1; WORK]];
            let right = Evaluator(None).call(call, &book, &mut one);
            let reply = WithSheets(Box::new(Evaluator(Some(fault)))).call(call, &book, &mut other);
            right.is_ok() && reply == right && one == other
        };
        let calls = [Call::Check, Call::Sheet, Call::Run { limit: 0 }, Call::Run { limit: 9 }];
        for fault in [Fault::NothingCounted, Fault::SheetLeavesValue, Fault::ValuesNoSheet] {
            assert_eq!(calls.map(|call| same(fault, call)), [true; 4], "{fault:?}");
        }
        assert_eq!(calls.map(|call| same(Fault::MarkNothing, call)), [true, true, false, false]);
    });
}

#[test]
fn a_file_says_what_was_entered() {
    let mut digests = Digests::new(1, 500);
    digests.enter("two words", 0xAB);
    digests.enter("one", u64::MAX);
    assert_eq!(digests.text(), "seed 1 count 500\none ffffffffffffffff\ntwo words 00000000000000ab\n");
    assert_eq!(Digests::of(&digests.text()), Ok(digests));
    for broken in
        ["", "seed 1\n", "seed 1 count x\n", "seed 1 count 5\none\n", "seed 1 count 5\none xyz\n", "seed 1 count 5\none 12\n"]
    {
        assert!(Digests::of(broken).is_err(), "{broken}");
    }
}

#[test]
fn families_that_differ_or_are_missing_are_named() {
    let of = |families: &[(&str, u64)]| {
        let mut digests = Digests::new(1, 500);
        families.iter().for_each(|(family, digest)| digests.enter(family, *digest));
        digests
    };
    let stored = of(&[("one", 1), ("two", 2)]);
    let named = |families: &[(&str, u64)], all| -> Vec<String> { of(families).differences(&stored, all) };
    assert!(named(&[("one", 1), ("two", 2)], true).is_empty() && named(&[("two", 2)], false).is_empty());
    assert!(matches!(&named(&[("one", 1), ("two", 3)], true)[..], [words] if words.starts_with("two: other")));
    assert!(matches!(&named(&[("one", 1), ("two", 2), ("three", 3)], true)[..], [words] if words.starts_with("three: no digest")));
    assert!(matches!(&named(&[("one", 1)], true)[..], [words] if words.starts_with("two: stored")));
    assert!(matches!(&named(&[("two", 1)], false)[..], [words] if words.starts_with("two: other")));
}

fn stored_path() -> PathBuf {
    Path::new(env!("CARGO_MANIFEST_DIR")).join("before_sheets.txt")
}

/// The exit status of the program, and all that it prints.
fn compared(options: &[&str]) -> (Option<i32>, String) {
    let output = Command::new(env!("CARGO_BIN_EXE_compare")).args(options).output().expect("the program");
    let text = [output.stdout, output.stderr].concat();
    (output.status.code(), String::from_utf8(text).expect("words"))
}

/// The evaluator, compared with itself, says and leaves what the library did before it had sheets, in a family; not with another digest.
#[test]
fn the_program_compares_with_the_stored_digests() {
    let path = stored_path();
    let asked = |path: &Path| compared(&["--family", "samples", "--digests", path.to_str().expect("a path")]);
    let (code, text) = asked(&path);
    assert!(code == Some(0) && text.contains("checks, runs, joins and previews as stored, in 1 digests"), "{text}");
    let stored = fs::read_to_string(path).expect("the file");
    let other = Path::new(env!("CARGO_TARGET_TMPDIR")).join("other.txt");
    for (from, words) in [("samples ", "samples: other"), ("\nsamples ", "samples: no digest")] {
        let to = if from == "samples " { "samples 0123456789abcdef\nanother " } else { "\nno samples " };
        fs::write(&other, stored.replacen(from, to, 1)).expect("written");
        let (code, text) = asked(&other);
        assert!(code == Some(1) && text.contains(words), "{text}");
    }
}

/// Digests of other books are of no use, nor those of a part of them.
#[test]
fn other_books_have_no_stored_digests() {
    let path = stored_path();
    let path = path.to_str().expect("a path");
    for (options, words) in [
        (&["--seed", "2", "--digests", path][..], "has the digests of seed 1"),
        (&["--count", "5", "--digests", path], "has the digests of seed 1"),
        (&["--version", "1", "--digests", path], "neither"),
        (&["--self-test", "--digests", path], "neither"),
        (&["--write-digests", "nowhere.txt", "--digests", path], "not both"),
        (&["--write-digests", "nowhere.txt", "--family", "samples"], "of all families"),
        (&["--digests", "nowhere.txt"], "nowhere.txt: "),
        (&["--digests"], "needs a value"),
    ] {
        let (code, text) = compared(options);
        assert!(code == Some(2) && text.contains(words), "{options:?}: {text}");
    }
}

/// Of seed 1 and no other families than are compared.
#[test]
fn the_stored_digests_are_those_of_all_families() {
    let stored = Digests::of(&fs::read_to_string(stored_path()).expect("the file")).expect("digests");
    let mut names: Vec<&str> = families().iter().map(|family| family.name).collect();
    names.extend(pair_families().iter().map(|family| family.name));
    let mut same = Digests::new(1, stored.count);
    names.iter().for_each(|name| same.enter(name, 0));
    let differences = same.differences(&stored, true);
    assert!(stored.seed == 1 && differences.len() == names.len());
    assert!(differences.iter().all(|words| words.contains(": other")), "{differences:?}");
}
