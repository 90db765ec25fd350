//! Compares the engine with the evaluator on many books, and on many pairs of books that are previewed and then joined.
//!
//! `compare [--seed N] [--count N] [--family NAME] [--version N] [--digests FILE] [--write-digests FILE] [--self-test]`
//!
//! With `--version 2`, only the books whose trailer has version 2 are compared, and the pairs with such a book; with `--version 1`, only the others.
//! With `--digests`, all that the engine says and leaves in checks, runs, joins and previews must have the digests in this file, a family each; with
//! `--write-digests`, such a file is written, and the engine's sheets are not compared: it may have none. Built with the feature `engine`, the engine of the static library is compared; without it, the evaluator with itself. With `--self-test`, the
//! evaluator is compared with faulty copies of itself, and each fault must be found: those of joins in pairs, planted in the joins and again in the
//! previews, all others in books. The exit status is 0, and the last line starts with what passed - families, or faults found - only if nothing
//! failed.

use compare::comparing::{Comparison, Question};
use compare::digests::{Digested, Digests, WithSheets};
use compare::engines::{Engine, Evaluator, FaultyPreviews};
use compare::families::{families, Family};
use compare::joining::{as_stated, Asked};
use compare::pairs::{pair_families, stated, Pair, PairFamily, Pool};
use compare::random::Random;
use compare::reporting::{described, described_pair, Figures, PairFigures};
use compare::restamping::is_version_2;
use compare::{samples, shrinking};
use evaluator::{decode, on_large_stack, Fault, WORK};
use std::fmt::Write;
use std::fs;
use std::process::ExitCode;
use std::sync::atomic::{AtomicUsize, Ordering::Relaxed};
use std::sync::Mutex;
use std::thread;
use std::time::Instant;

/// The random books of a comparison, and of each fault's search, unless asked for otherwise.
const COUNT: usize = 125_617;
const SELF_TEST_COUNT: usize = 7_540;
/// A fault is not searched in books of so many bytes, but for random ones.
const LARGE: usize = 8_192;
/// A fault that so many families have found is searched no further.
const ENOUGH: usize = 2;
/// A fault of marks is searched first in the families that are made for them, and so is one of sheets.
const OF_MARKS: [&str; 2] = ["rising and falling", "heavy"];
const OF_SHEETS: [&str; 3] = ["sheets", "typed sheets", "nearly sheets"];
/// The random pairs are so many times fewer than the random books, and are taken from so many books of each family.
const FEWER: usize = 5;
const EACH: usize = 100;
const SELF_TEST_EACH: usize = 20;
/// A comparison stops after so many failed books.
const FAILURES: usize = 3;
/// Families, and faults, are taken side by side by so many.
const THREADS: usize = 2;

struct Options {
    seed: u64,
    count: Option<usize>,
    family: Option<String>,
    version: Option<u8>,
    digests: Option<String>,
    write_digests: Option<String>,
    self_test: bool,
}

impl Options {
    /// So many random books are compared.
    fn compared(&self) -> usize {
        self.count.unwrap_or(COUNT)
    }
}

const USAGE: &str =
    "usage: compare [--seed N] [--count N] [--family NAME] [--version N] [--digests FILE] [--write-digests FILE] [--self-test]";

fn options() -> Result<Options, String> {
    let (digests, write_digests) = (None, None);
    let mut options = Options { seed: 1, count: None, family: None, version: None, digests, write_digests, self_test: false };
    let mut words = std::env::args().skip(1);
    while let Some(word) = words.next() {
        let mut value = || words.next().ok_or(format!("{word} needs a value"));
        match word.as_str() {
            "--seed" => options.seed = value()?.parse().map_err(|_| "--seed needs a number")?,
            "--count" => options.count = Some(value()?.parse().map_err(|_| "--count needs a number")?),
            "--family" => options.family = Some(value()?),
            "--version" => options.version = Some(value()?.parse().map_err(|_| "--version needs a number")?),
            "--digests" => options.digests = Some(value()?),
            "--write-digests" => options.write_digests = Some(value()?),
            "--self-test" => options.self_test = true,
            _ => return Err(format!("{word} is unknown; {USAGE}")),
        }
    }
    known_family(&options)?;
    digests_possible(&options)?;
    Ok(options)
}

fn known_family(options: &Options) -> Result<(), String> {
    if let Some(name) = &options.family {
        let mut names = families().into_iter().map(|family| family.name).collect::<Vec<_>>();
        names.extend(pair_families().iter().map(|family| family.name));
        if !names.contains(&name.as_str()) {
            return Err(format!("no family {name}; there are: {}", names.join(", ")));
        }
    }
    Ok(())
}

/// Digests are those of whole families, and all of them are written.
fn digests_possible(options: &Options) -> Result<(), String> {
    let Options { digests, write_digests, version, family, self_test, .. } = options;
    let asked = digests.is_some() || write_digests.is_some();
    match () {
        () if asked && (*self_test || version.is_some()) => Err("digests go with neither --version nor --self-test".to_string()),
        () if digests.is_some() && write_digests.is_some() => Err("digests are compared or written, not both".to_string()),
        () if write_digests.is_some() && family.is_some() => Err("digests are written of all families".to_string()),
        () => Ok(()),
    }
}

/// The digests that are stored, if some are asked for: those of other books are of no use.
fn stored_digests(options: &Options) -> Result<Option<Digests>, String> {
    let Some(path) = &options.digests else { return Ok(None) };
    let text = fs::read_to_string(path).map_err(|error| format!("{path}: {error}"))?;
    let stored = Digests::of(&text).map_err(|words| format!("{path}: {words}"))?;
    if (stored.seed, stored.count) != (options.seed, options.compared()) {
        return Err(format!("{path} has the digests of seed {}, {} random books", stored.seed, stored.count));
    }
    Ok(Some(stored))
}

fn main() -> ExitCode {
    let asked = options().and_then(|options| Ok((stored_digests(&options)?, options)));
    let (stored, options) = match asked {
        Ok(asked) => asked,
        Err(words) => {
            eprintln!("{words}");
            return ExitCode::from(2);
        }
    };
    // Panics of either side are caught and reported as answers.
    std::panic::set_hook(Box::new(|_| {}));
    if if options.self_test { self_test(&options) } else { compare(&options, stored) } {
        ExitCode::SUCCESS
    } else {
        ExitCode::FAILURE
    }
}

/// The engine that is compared with the evaluator: with the evaluator's sheets where digests are written.
fn engine(options: &Options) -> Box<dyn Engine> {
    #[cfg(feature = "engine")]
    let engine = Box::new(compare::engines::Library);
    #[cfg(not(feature = "engine"))]
    let engine = Box::new(Evaluator(None));
    match options.write_digests {
        Some(_) => Box::new(WithSheets(engine)),
        None => engine,
    }
}

/// How many random books of the whole count fall to a family.
fn share(of: u32, count: usize) -> usize {
    let all: u32 = families().iter().map(|family| family.share).sum();
    count * of as usize / all as usize
}

/// Does `work` on each item, several side by side, each on a large stack.
fn side_by_side<T: Send>(items: Vec<T>, work: impl Fn(T) + Sync) {
    let waiting = Mutex::new(items.into_iter());
    let next = || waiting.lock().expect("no panic holds it").next();
    let worker = || on_large_stack(|| std::iter::from_fn(next).for_each(&work));
    thread::scope(|scope| (0..THREADS).for_each(|_| drop(scope.spawn(worker))));
}

/// What has been compared, and what has failed.
struct Tally {
    families: AtomicUsize,
    books: AtomicUsize,
    sheets: AtomicUsize,
    pairs: AtomicUsize,
    previews: AtomicUsize,
    failed: AtomicUsize,
    digests: Mutex<Digests>,
}

impl Tally {
    fn of(options: &Options) -> Tally {
        let [families, books, sheets, pairs, previews, failed] = [(); 6].map(|()| AtomicUsize::new(0));
        let digests = Mutex::new(Digests::new(options.seed, options.compared()));
        Tally { families, books, sheets, pairs, previews, failed, digests }
    }

    /// So much has failed that no more is compared.
    fn ended(&self) -> bool {
        self.failed.load(Relaxed) >= FAILURES
    }

    fn fail(&self, count: usize) {
        self.failed.fetch_add(count, Relaxed);
    }

    /// A family has been compared.
    fn enter(&self, family: &str, digest: u64) {
        self.families.fetch_add(1, Relaxed);
        self.digests.lock().expect("no panic holds it").enter(family, digest);
    }
}

fn compare(options: &Options, stored: Option<Digests>) -> bool {
    println!("evaluator against {}, seed {}, {} random books", engine(options).name(), options.seed, options.compared());
    let tally = Tally::of(options);
    tally.fail(on_large_stack(|| stated_samples(options) + stated_joins(options)));
    println!("{}", Figures::HEAD);
    let asked = |family: &Family| options.family.as_ref().is_none_or(|name| name == family.name);
    side_by_side(families().into_iter().filter(asked).collect(), |family| {
        if !tally.ended() {
            one_family(&family, options, &tally);
        }
    });
    compare_pairs(options, &tally);
    let Tally { families, books, sheets, pairs, previews, failed, digests } = tally;
    let digests = digests.into_inner().expect("no panic has held it");
    let failed = failed.into_inner() + digested(options, &digests, stored);
    let [families, books, sheets, pairs, previews] = [families, books, sheets, pairs, previews].map(AtomicUsize::into_inner);
    match failed {
        0 => {
            print!("{families} families of {books} books, {sheets} of them sheets, and {pairs} pairs compared, ");
            println!("{previews} of them previewed, no difference");
        }
        _ => println!("FAILED: {failed} differences, after {books} books and {pairs} pairs without one"),
    }
    failed == 0 && written(options, &digests)
}

/// How many digests are not as they are stored.
fn digested(options: &Options, digests: &Digests, stored: Option<Digests>) -> usize {
    let Some(stored) = stored else { return 0 };
    let differences = digests.differences(&stored, options.family.is_none());
    differences.iter().for_each(|words| println!("FAILED: digest of {words}"));
    if differences.is_empty() {
        println!("checks, runs, joins and previews as stored, in {} digests", digests.text().lines().skip(1).count());
    }
    differences.len()
}

/// Writes the digests, if that is asked for. No if they cannot be written.
fn written(options: &Options, digests: &Digests) -> bool {
    let Some(path) = &options.write_digests else { return true };
    match fs::write(path, digests.text()) {
        Ok(()) => true,
        Err(error) => {
            println!("FAILED: {path}: {error}");
            false
        }
    }
}

/// Compares the families of pairs.
fn compare_pairs(options: &Options, tally: &Tally) {
    let asked = |family: &PairFamily| options.family.as_ref().is_none_or(|name| name == family.name);
    let families: Vec<PairFamily> = pair_families().into_iter().filter(asked).collect();
    if families.is_empty() || tally.ended() {
        return;
    }
    println!("{}", PairFigures::HEAD);
    let pool = on_large_stack(|| Pool::of(options.seed, EACH));
    side_by_side(families, |family| {
        if !tally.ended() {
            one_pair_family(&family, options, &pool, tally);
        }
    });
}

/// The book has this version, for 1 whatever is not version 2; or none is asked for.
fn of_version(book: &[u8], version: Option<u8>) -> bool {
    version.is_none_or(|version| (version == 2) == is_version_2(book))
}

/// Compares a family's books, until too many have failed in all families.
fn one_family(family: &Family, options: &Options, tally: &Tally) {
    let (seed, start) = (options.seed, Instant::now());
    let engine = engine(options);
    let digested = Digested::of(engine.as_ref());
    let comparison = Comparison::new(&digested, true);
    let mut figures = Figures::default();
    let books = family.in_both_versions(seed, share(family.share, options.compared()));
    for (place, book) in books.enumerate().filter(|(_, book)| of_version(book, options.version)) {
        if tally.ended() {
            break;
        }
        let mut random = Random::of(seed, "limits", place as u64);
        match comparison.book(&book, &mut random) {
            Ok(seen) => figures.enter(seen, is_version_2(&book)),
            Err((question, difference)) => {
                tally.fail(1);
                let mut text = format!("FAILED: {}, book {place}\n", family.name);
                text += &described(&book, question, &difference, engine.as_ref());
                println!("{text}{}", smaller(&comparison, book, question));
            }
        }
    }
    (figures.calls, figures.pairs, figures.orders) = (comparison.calls.get(), comparison.pairs.get(), comparison.orders.get());
    println!("{}", figures.line(family.name, start.elapsed().as_secs_f64()));
    tally.enter(family.name, digested.digest());
    tally.books.fetch_add(figures.books, Relaxed);
    tally.sheets.fetch_add(figures.sheets, Relaxed);
}

/// A smaller book on which the sides still differ, described.
fn smaller(comparison: &Comparison, book: Vec<u8>, question: Question) -> String {
    let (book, question) = shrinking::shrink(comparison, book, question);
    let Some(difference) = comparison.ask(&book, question) else { return "not seen again".to_string() };
    format!("made smaller:\n{}", described(&book, question, &difference, comparison.engine))
}

/// Whether a pair has a book of version 2, if a version is asked for.
fn pair_of_version(pair: &Pair, version: Option<u8>) -> bool {
    version.is_none_or(|version| (version == 2) == (is_version_2(&pair.project) || is_version_2(&pair.part)))
}

/// How many random pairs of the whole count fall to a family.
fn share_of_pairs(of: u32, count: usize) -> usize {
    let all: u32 = pair_families().iter().map(|family| family.share).sum();
    count * of as usize / all as usize
}

/// Compares a family's pairs, until too many have failed in all families.
fn one_pair_family(family: &PairFamily, options: &Options, pool: &Pool, tally: &Tally) {
    let engine = engine(options);
    let digested = Digested::of(engine.as_ref());
    let comparison = Comparison::new(&digested, true);
    let (start, mut figures) = (Instant::now(), PairFigures::default());
    let pairs = family.pairs(pool, options.seed, share_of_pairs(family.share, options.compared() / FEWER));
    for (place, pair) in pairs.enumerate().filter(|(_, pair)| pair_of_version(pair, options.version)) {
        if tally.ended() {
            break;
        }
        let random = &mut Random::of(options.seed, "joints", place as u64);
        let failure = match comparison.pair(&pair) {
            Ok(joined) => {
                figures.enter(&pair, joined);
                joint_of(&comparison, &pair, random)
            }
            Err((asked, difference)) => {
                let text = described_pair(&pair, asked, &difference, engine.as_ref());
                Some(text + &smaller_pair(&comparison, pair, asked))
            }
        };
        if let Some(text) = failure {
            tally.fail(1);
            println!("FAILED: {}, pair {place}\n{text}", family.name);
        }
    }
    figures.previews = comparison.previews.get();
    println!("{}", figures.line(family.name, start.elapsed().as_secs_f64()));
    tally.enter(family.name, digested.digest());
    tally.pairs.fetch_add(figures.pairs, Relaxed);
    tally.previews.fetch_add(figures.previews, Relaxed);
}

/// All about the joint as a book, at times; the difference described, if there is one.
fn joint_of(comparison: &Comparison, pair: &Pair, random: &mut Random) -> Option<String> {
    let (joint, question, difference) = comparison.joint(pair, random)?;
    let text = described(&joint, question, &difference, comparison.engine);
    Some(text + &smaller(comparison, joint, question))
}

/// A smaller pair on which the sides still differ, described.
fn smaller_pair(comparison: &Comparison, pair: Pair, asked: Asked) -> String {
    let pair = shrinking::shrink_pair(comparison, pair, asked);
    let Err((asked, difference)) = comparison.pair(&pair) else { return "not seen again".to_string() };
    format!("made smaller:\n{}", described_pair(&pair, asked, &difference, comparison.engine))
}

/// Both sides on the joins of which the documents' words give the answer and the joint, and on their previews. How many failed.
fn stated_joins(options: &Options) -> usize {
    let mut failed = 0;
    for stated in stated() {
        for side in [&Evaluator(None) as &dyn Engine, engine(options).as_ref()] {
            if let Err(words) = as_stated(side, &stated, &[0xAA; 2 * WORK]) {
                failed += 1;
                println!("FAILED: {}: {words}", stated.name);
            }
        }
    }
    failed
}

/// Both sides on the samples and the refused parts, against what the documents state of them. How many failed.
fn stated_samples(options: &Options) -> usize {
    let mut failed = 0;
    for sample in samples::stated().into_iter().filter(|sample| of_version(&sample.book, options.version)) {
        for side in [&Evaluator(None) as &dyn Engine, engine(options).as_ref()] {
            let mut work = vec![0xA5; WORK];
            let reply = side.call(sample.call, &sample.book, &mut work);
            let other_bytes = sample.left().is_some_and(|left| !work.starts_with(&left));
            if reply != Ok(sample.answer) || other_bytes {
                failed += 1;
                let bytes = if other_bytes { ", other bytes" } else { "" };
                println!("FAILED: {}: {} says {reply:?}{bytes}, the document says {:?}", sample.name, side.name(), sample.answer);
            }
        }
    }
    failed
}

/// The name of a family, and the books of it that a fault is searched in.
type Searched = (&'static str, Vec<Vec<u8>>);

/// The families with the fewest cells first.
fn searched(seed: u64, count: usize) -> Vec<Searched> {
    let of = |family: Family| {
        let count = share(family.share.max(1), count);
        let asked = family.books(seed, count).filter(|book| family.share > 0 || book.len() < LARGE);
        (family.name, asked.take(count.max(500)).collect())
    };
    let cells = |(_, books): &Searched| books.iter().map(|book| decode(book).map_or(0, |(root, _)| root.size())).sum::<u64>();
    let mut all: Vec<Searched> = families().into_iter().map(of).collect();
    all.sort_by_cached_key(cells);
    all
}

/// A fault, and whether it is planted in the previews alone.
type Planted = (Fault, bool);

/// Every fault that is planted, those of joins twice: in the joins, and in the previews where they show there.
fn planted() -> Vec<Planted> {
    let anywhere = Fault::ALL.into_iter().filter(|fault| !fault.is_of_previews());
    let in_previews = Fault::ALL.into_iter().filter(|fault| fault.shows_in_previews());
    anywhere.map(|fault| (fault, false)).chain(in_previews.map(|fault| (fault, true))).collect()
}

/// Compares the evaluator with each faulty copy of itself. Yes if every fault was found.
fn self_test(options: &Options) -> bool {
    let count = options.count.unwrap_or(SELF_TEST_COUNT);
    let (books, pairs) = on_large_stack(|| (searched(options.seed, count), searched_pairs(options.seed, count / FEWER)));
    let found = AtomicUsize::new(0);
    let search = |(fault, in_previews): Planted| match in_previews {
        true => found_in_pairs(&FaultyPreviews(fault), Asked::Preview, &pairs),
        false if fault.is_of_joins() => found_in_pairs(&Evaluator(Some(fault)), Asked::Join, &pairs),
        false => found_in(fault, options.seed, &books),
    };
    let planted = planted();
    let all = planted.len();
    side_by_side(planted, |planted| {
        let name = format!("{:?}{}", planted.0, if planted.1 { " in previews" } else { "" });
        match search(planted) {
            Some(text) => {
                found.fetch_add(1, Relaxed);
                print!("{name}: {text}");
            }
            None => println!("FAILED: {name} was not found"),
        }
    });
    let found = found.into_inner();
    match all - found {
        0 => println!("{found} planted faults, each found"),
        missed => println!("FAILED: {missed} of {all} planted faults not found"),
    }
    found == all
}

/// The first families that find a fault, with the place of the first book in each, and the smallest of these books made smaller.
fn found_in(fault: Fault, seed: u64, searched: &[Searched]) -> Option<String> {
    let start = Instant::now();
    let faulty = Evaluator(Some(fault));
    let comparison = Comparison::new(&faulty, false);
    let (mut finders, mut found) = (String::new(), 0);
    let mut smallest: Option<(&Vec<u8>, Question)> = None;
    let made =
        |(name, _): &&Searched| fault.is_of_marks() && OF_MARKS.contains(name) || fault.is_of_sheets() && OF_SHEETS.contains(name);
    for (name, books) in searched.iter().filter(made).chain(searched.iter().filter(|family| !made(family))) {
        for (place, book) in books.iter().enumerate() {
            let mut random = Random::of(seed, "limits", place as u64);
            let Err((question, _)) = comparison.book(book, &mut random) else { continue };
            let _ = write!(finders, " {name} ({place})");
            if smallest.as_ref().is_none_or(|(smallest, _)| book.len() < smallest.len()) {
                smallest = Some((book, question));
            }
            found += 1;
            break;
        }
        if found == ENOUGH {
            break;
        }
    }
    let (book, question) = smallest?;
    let small = smaller(&comparison, book.clone(), question);
    Some(format!("found in {:.1} s by{finders}, {small}", start.elapsed().as_secs_f64()))
}

/// The name of a family, and the pairs of it that a fault of joins is searched in.
type SearchedPairs = (&'static str, Vec<Pair>);

/// The families with the fewest bytes first.
fn searched_pairs(seed: u64, count: usize) -> Vec<SearchedPairs> {
    let pool = Pool::of(seed, SELF_TEST_EACH);
    let of = |family: PairFamily| (family.name, family.pairs(&pool, seed, share_of_pairs(family.share, count)).collect());
    let bytes = |(_, pairs): &SearchedPairs| pairs.iter().map(|pair| pair.project.len() + pair.part.len()).sum::<usize>();
    let mut all: Vec<SearchedPairs> = pair_families().into_iter().map(of).collect();
    all.sort_by_cached_key(bytes);
    all
}

/// The same as `found_in` for a fault of joins or previews, which is to be seen where this is asked.
fn found_in_pairs(faulty: &dyn Engine, asked: Asked, searched: &[SearchedPairs]) -> Option<String> {
    let start = Instant::now();
    let comparison = Comparison::new(faulty, false);
    let differs = |pair: &Pair| comparison.pair(pair).is_err_and(|(other, _)| other == asked);
    let first = |(name, pairs): &'_ SearchedPairs| {
        let place = pairs.iter().position(differs)?;
        Some((*name, place, pairs[place].clone()))
    };
    let found: Vec<_> = searched.iter().filter_map(first).take(ENOUGH).collect();
    let finders: String = found.iter().map(|(name, place, _)| format!(" {name} ({place})")).collect();
    let (.., pair) = found.into_iter().min_by_key(|(.., pair)| pair.project.len() + pair.part.len())?;
    let small = smaller_pair(&comparison, pair, asked);
    Some(format!("found in {:.1} s by{finders}, {small}", start.elapsed().as_secs_f64()))
}
