//! The families of pairs have enough of each, are answered as the documents say, keep what is promised of joins and previews, and show every
//! planted fault of joins, in the joins and in the previews, which no check and no run shows.

use compare::cells::Cells;
use compare::comparing::Comparison;
use compare::engines::{Call, Engine, Evaluator, FaultyPreviews};
use compare::families::families;
use compare::joining::{agree, as_stated, joined as join_of, previewed, Asked, Difference, Left};
use compare::pairs::{pair_families, stated, Pair, Pool};
use compare::random::Random;
use compare::reporting::described_pair;
use compare::shrinking::shrink_pair;
use evaluator::{
    check, encode_term, joint, kind, on_large_stack, Answer, Fault, Joined, Term, Version, Which, CELL, CELLS, PROJECT, WORK,
};
use std::collections::BTreeSet;
use std::sync::OnceLock;

const SEED: u64 = 1;
/// As many pairs of a family as a self-test asks about, and the books of each family that they are taken from.
const SEARCHED: usize = 200;
const EACH: usize = 20;

fn pool() -> &'static Pool {
    static POOL: OnceLock<Pool> = OnceLock::new();
    POOL.get_or_init(|| on_large_stack(|| Pool::of(SEED, EACH)))
}

fn pairs(name: &str, count: usize) -> Vec<Pair> {
    let family = pair_families().into_iter().find(|family| family.name == name).expect("the family");
    family.pairs(pool(), SEED, count).collect()
}

/// The pairs of all families but the stated ones, those with the fewest bytes first.
fn all_pairs(count: usize) -> Vec<(&'static str, Vec<Pair>)> {
    let bytes = |pairs: &[Pair]| pairs.iter().map(|pair| pair.project.len() + pair.part.len()).sum::<usize>();
    let names = pair_families().into_iter().skip(1).map(|family| family.name);
    let mut all: Vec<(&str, Vec<Pair>)> = names.map(|name| (name, pairs(name, count))).collect();
    all.sort_by_cached_key(|(_, pairs)| bytes(pairs));
    all
}

fn joined(pair: &Pair) -> Joined {
    Comparison::new(&Evaluator(None), false).pair(pair).unwrap_or_else(|_| panic!("no answer"))
}

#[test]
fn the_stated_answers_are_given() {
    for stated in stated() {
        assert_eq!(as_stated(&Evaluator(None), &stated, &[0xAA; 2 * WORK]), Ok(()), "{}", stated.name);
        if let Answer::Accepted { .. } = stated.joined.answer {
            assert_eq!(check(&stated.joint, &mut vec![0; WORK]), stated.joined.answer, "{}", stated.name);
        }
    }
}

/// What the pairs of a family came to.
#[derive(Default, Debug)]
struct Shares {
    accepted: usize,
    of_project: usize,
    of_part: usize,
    /// By 10, 14 and 16, of the joint, and by 1.
    large: usize,
    clashing: usize,
    full: usize,
    work: usize,
    /// With books of both versions.
    mixed: usize,
    /// Accepted, with a number in the book of version 1 and the other of version 2.
    extended: usize,
    /// Accepted, with a cell in either book that its root does not reach.
    unreached: usize,
}

fn cells(book: &[u8]) -> Option<Cells> {
    Cells::of(book)
}

fn has_number(cells: &Cells) -> bool {
    cells.cells.iter().any(|cell| cell.kind == kind::NUMBER)
}

/// A cell beyond the root: it is not reached.
fn has_more(cells: &Cells) -> bool {
    usize::from(cells.root) + 1 < cells.cells.len()
}

impl Shares {
    fn enter(&mut self, pair: &Pair) {
        let Joined { which, answer, .. } = joined(pair);
        match (which, answer) {
            (Which::Project, _) => self.of_project += 1,
            (Which::Part, _) => self.of_part += 1,
            (_, Answer::Refused { number: 1, .. }) => self.work += 1,
            (_, Answer::Refused { number: 10, .. }) => self.large += 1,
            (_, Answer::Refused { number: 14, .. }) => self.clashing += 1,
            (_, Answer::Refused { number: 16, .. }) => self.full += 1,
            _ => self.accepted += 1,
        }
        let (Some(project), Some(part)) = (cells(&pair.project), cells(&pair.part)) else { return };
        let mixed = project.version != part.version;
        self.mixed += usize::from(mixed);
        let accepted = matches!(answer, Answer::Accepted { .. });
        let older = if project.version == Version::One { &project } else { &part };
        self.extended += usize::from(accepted && mixed && has_number(older));
        self.unreached += usize::from(accepted && (has_more(&project) || has_more(&part)));
    }
}

fn shares(name: &str, count: usize) -> (Shares, usize) {
    on_large_stack(|| {
        let (mut shares, pairs) = (Shares::default(), pairs(name, count));
        pairs.iter().for_each(|pair| shares.enter(pair));
        println!("{name}, {} pairs: {shares:?}", pairs.len());
        (shares, pairs.len())
    })
}

#[test]
fn the_whole_families_have_enough_of_each() {
    let (shares, pairs) = shares("lent and told", 0);
    assert!(shares.of_project * 4 >= pairs && shares.work * 4 >= pairs && shares.accepted >= 6 && shares.clashing > 0);
    assert!(shares.of_part > 0 && shares.full > 0);
    let (Shares { accepted, of_project, of_part, large, clashing, full, mixed, unreached, .. }, pairs) =
        self::shares("full projects", 0);
    assert!(accepted * 8 >= pairs && of_project * 8 >= pairs && of_part * 8 >= pairs && full * 10 >= pairs);
    assert!(large >= 3 && clashing >= 2 && mixed * 8 >= pairs && unreached * 8 >= pairs);
}

#[test]
fn the_random_families_have_enough_of_each() {
    for name in ["pairs of values", "cells not reached"] {
        let (Shares { accepted, clashing, mixed, extended, .. }, pairs) = shares(name, 1_000);
        assert!(accepted * 2 >= pairs && clashing * 50 >= pairs && mixed * 3 >= pairs && extended * 8 >= pairs);
    }
    assert!(shares("cells not reached", 1_000).0.unreached >= 200);
    for name in ["neighbours", "two families", "fields of two"] {
        let (Shares { accepted, of_project, of_part, clashing, full, mixed, .. }, pairs) = shares(name, 1_000);
        assert!(accepted * 5 >= pairs && of_project * 5 >= pairs && of_part * 20 >= pairs && mixed * 5 >= pairs);
        assert!(clashing * 60 >= pairs && full * 50 >= pairs);
    }
    let (Shares { accepted, of_project, of_part, work, .. }, pairs) = shares("broken pairs", 1_000);
    assert!(accepted * 40 >= pairs && of_project * 3 >= pairs && of_part * 10 >= pairs && work * 40 >= pairs);
}

/// The number of cells in the joint of two books with a trailer.
fn joint_cells(pair: &Pair) -> usize {
    (pair.project.len() + pair.part.len()) / CELL - 1
}

#[test]
fn every_count_and_length_about_the_ends_is_asked() {
    let full: BTreeSet<usize> = pairs("full projects", 0).iter().map(joint_cells).collect();
    assert!([CELLS - 1, CELLS, CELLS + 1, CELLS + 2].iter().all(|cells| full.contains(cells)));
    let asked = pairs("lent and told", 0);
    let all = |of: fn(&Pair) -> usize| asked.iter().map(of).collect::<BTreeSet<usize>>();
    let (lent, told, work) = (all(|pair| pair.lent), all(|pair| pair.told), all(|pair| pair.work));
    assert!([0, 100, 32_760, PROJECT, 32_776, 65_536].iter().all(|length| lent.contains(length)));
    assert!([0, 8, 16, 17, 24, 32, 32_768, 32_769, 32_776, usize::MAX].iter().all(|length| told.contains(length)));
    assert!([0, 5, WORK - 1, WORK, WORK + 1, 2 * WORK].iter().all(|length| work.contains(length)));
}

/// What the side itself says of the books that its joins mean, the joint among them.
#[test]
fn what_is_promised_holds() {
    on_large_stack(|| {
        let comparison = Comparison::new(&Evaluator(None), true);
        for (name, pairs) in all_pairs(SEARCHED) {
            for (place, pair) in pairs.iter().enumerate() {
                assert!(comparison.pair(pair).is_ok(), "{name}, {place}");
                assert!(comparison.joint(pair, &mut Random::of(SEED, "", place as u64)).is_none(), "{name}, {place}");
            }
        }
    });
}

fn of_joins() -> Vec<Fault> {
    Fault::ALL.into_iter().filter(|fault| fault.is_of_joins()).collect()
}

fn in_previews() -> Vec<Fault> {
    Fault::ALL.into_iter().filter(|fault| fault.shows_in_previews()).collect()
}

/// The faulty copies of the evaluator, and where each has to differ.
fn faulty_copies() -> Vec<(Box<dyn Engine>, Asked)> {
    let joins = of_joins().into_iter().map(|fault| (Box::new(Evaluator(Some(fault))) as Box<dyn Engine>, Asked::Join));
    let previews = in_previews().into_iter().map(|fault| (Box::new(FaultyPreviews(fault)) as Box<dyn Engine>, Asked::Preview));
    joins.chain(previews).collect()
}

/// Where the side differs from the evaluator, if it does.
fn difference(side: &dyn Engine, pair: &Pair) -> Option<Asked> {
    Comparison::new(side, false).pair(pair).err().map(|(asked, _)| asked)
}

/// Each by a family beside the stated joins, in the joins or in the previews alone.
#[test]
fn every_fault_of_joins_and_previews_is_found() {
    on_large_stack(|| {
        let families = all_pairs(SEARCHED);
        for (side, asked) in faulty_copies() {
            let comparison = Comparison::new(side.as_ref(), false);
            // A difference in what is said or left, and no panic.
            let differs = |pair: &Pair| match comparison.pair(pair) {
                Err((asked, Difference::Outcomes(both))) if both[1].reply.is_ok() => Some(asked),
                _ => None,
            };
            let found = families.iter().flat_map(|(_, pairs)| pairs).find_map(differs);
            assert_eq!(found, Some(asked), "{}", side.name());
        }
    });
}

/// All that a preview can be wrong in: each fault of joins, but the two in what is written alone, and four of its own.
#[test]
fn the_faults_of_joins_are_planted_in_previews_too() {
    let (joins, previews) = (of_joins(), in_previews());
    let unseen: Vec<&Fault> = joins.iter().filter(|fault| !previews.contains(fault)).collect();
    assert_eq!(unseen, [&Fault::ReachedExtended, &Fault::RestNotZeroed]);
    let own: Vec<Fault> = previews.into_iter().filter(|fault| !joins.contains(fault)).collect();
    assert!(own.len() == 4 && own.iter().all(|fault| fault.is_of_previews()));
    on_large_stack(|| {
        let pairs = some_pairs();
        let unseen = |fault: &Fault| pairs.iter().all(|pair| difference(&FaultyPreviews(*fault), pair).is_none());
        assert!([Fault::ReachedExtended, Fault::RestNotZeroed].iter().all(unseen));
    });
}

/// Some pairs of each family, none of them large.
fn some_pairs() -> Vec<Pair> {
    let small = |pair: &Pair| pair.project.len() + pair.part.len() < 2_048;
    all_pairs(40).into_iter().flat_map(|(_, pairs)| pairs.into_iter().filter(small).take(40)).collect()
}

/// Each is right about many pairs, wherever its own rule is not met; and faults that only a run meets are right about all.
#[test]
fn faults_are_right_where_their_rule_is_not_met() {
    on_large_stack(|| {
        let pairs = some_pairs();
        let right = |side: &dyn Engine| {
            let comparison = Comparison::new(side, false);
            pairs.iter().filter(|pair| comparison.pair(pair).is_ok()).count()
        };
        for (side, _) in faulty_copies() {
            let right = right(side.as_ref());
            assert!(right * 5 >= pairs.len(), "{}, {right} of {}", side.name(), pairs.len());
        }
        for fault in [Fault::RoomOneEarly, Fault::SpentBeforeValue, Fault::SumWraps] {
            assert_eq!(right(&Evaluator(Some(fault))), pairs.len(), "{fault:?}");
        }
    });
}

/// A check and a run are as ever with each of them.
#[test]
fn no_fault_of_joins_is_seen_in_a_call_about_one_book() {
    on_large_stack(|| {
        let books: Vec<Vec<u8>> =
            families().iter().filter(|family| family.share > 0).flat_map(|family| family.books(SEED, 3)).collect();
        let calls = |side: &dyn Engine, book: &[u8]| {
            [Call::Check, Call::Run { limit: 5 }].map(|call| {
                let mut work = vec![0; WORK];
                (side.call(call, book, &mut work), work)
            })
        };
        for book in &books {
            let right = calls(&Evaluator(None), book);
            assert!(faulty_copies().iter().all(|(side, _)| calls(side.as_ref(), book) == right));
        }
    });
}

/// Two fields of these labels and numbers.
fn fields(labels: [u8; 2], numbers: [i64; 2]) -> Pair {
    let field = |at: usize| encode_term(&Term::record(labels[at], Term::number(numbers[at])), Version::One);
    Pair::of(field(0), field(1))
}

/// What is planted in a check is planted in the checks of a preview and of a join.
#[test]
fn a_preview_and_a_join_check_as_a_check_does() {
    let [clash, small] = [fields([1, 1], [1, 2]), fields([1, 2], [1, 1])];
    let differs = |fault: Fault, pair: &Pair| {
        let before = pair.buffers(&[0xAA; 2 * WORK], &[0xAA; 2 * WORK]);
        let sides = [Evaluator(None), Evaluator(Some(fault))];
        let [one, other] = sides.each_ref().map(|side| previewed(side, pair, before.clone()));
        let [first, second] = sides.each_ref().map(|side| join_of(side, pair, before.clone()));
        [one != other, first != second]
    };
    assert_eq!(differs(Fault::HalfNamed, &clash), [true; 2]);
    assert_eq!(differs(Fault::HalfNamed, &small), [false; 2]);
    assert_eq!(differs(Fault::WrongLengthZeroed, &Pair { work: 5, ..small }), [true; 2]);
}

/// A pair of this family on which the side differs, made smaller; and what is printed of it.
fn made_smaller(side: &dyn Engine, asked: Asked, family: &str) -> (Pair, String) {
    let comparison = Comparison::new(side, false);
    let found = pairs(family, SEARCHED).into_iter().find(|pair| comparison.pair(pair).is_err());
    let small = shrink_pair(&comparison, found.expect("a pair"), asked);
    let Err((seen, difference)) = comparison.pair(&small) else { panic!("{small:?}") };
    assert_eq!(seen, asked);
    let text = described_pair(&small, seen, &difference, side);
    (small, text)
}

#[test]
fn pairs_are_made_smaller() {
    on_large_stack(|| {
        let fault = Fault::ExtendedWithZeros;
        let sides: [(&dyn Engine, Asked, &str); 2] = [
            (&Evaluator(Some(fault)), Asked::Join, "asked: join, 32768 bytes lent"),
            (&FaultyPreviews(fault), Asked::Preview, "asked: preview, 32768 bytes lent"),
        ];
        for (side, asked, words) in sides {
            let family = if asked == Asked::Join { "cells not reached" } else { "pairs of values" };
            let (small, text) = made_smaller(side, asked, family);
            // A negative number and something beside it.
            assert!(small.project.len() + small.part.len() <= 6 * CELL && !small.after, "{small:?}");
            assert!(text.contains(words) && text.contains(&side.name()), "{text}");
        }
        let (_, text) = made_smaller(&FaultyPreviews(Fault::PreviewAltersLast), Asked::Preview, "two families");
        assert!(text.contains("first differing lent byte 32767"), "{text}");
    });
}

/// A change to the lent bytes, to the work buffer, or to the answer.
type Change = fn(&mut [u8], &mut [u8], &mut Joined);

/// A side that differs in that alone, in the preview or in the join.
struct Other(Asked, Change);

impl Other {
    fn changed(&self, asked: Asked, lent: &mut [u8], work: &mut [u8], mut joined: Joined) -> Joined {
        if asked == self.0 {
            (self.1)(lent, work, &mut joined);
        }
        joined
    }
}

impl Engine for Other {
    fn name(&self) -> String {
        "other".to_string()
    }

    fn call(&self, call: Call, book: &[u8], work: &mut [u8]) -> Result<Answer, String> {
        Evaluator(None).call(call, book, work)
    }

    fn join(&self, lent: &mut [u8], length: usize, part: &[u8], work: &mut [u8]) -> Result<Joined, String> {
        let joined = Evaluator(None).join(lent, length, part, work)?;
        Ok(self.changed(Asked::Join, lent, work, joined))
    }

    fn preview(&self, lent: &mut [u8], length: usize, part: &[u8], work: &mut [u8]) -> Result<Joined, String> {
        let joined = Evaluator(None).preview(lent, length, part, work)?;
        Ok(self.changed(Asked::Preview, lent, work, joined))
    }
}

const CHANGES: [Change; 6] = [
    |lent, _, _| lent[PROJECT - 1] ^= 1,
    |lent, _, _| lent[0] ^= 1,
    |_, work, _| work[WORK - 1] ^= 1,
    |_, _, joined| joined.bytes ^= 1,
    |_, _, joined| joined.which = Which::Part,
    |_, _, joined| joined.answer = Answer::Accepted { size: 9 },
];

/// An accepted pair and one that clashes.
fn accepted_and_refused() -> [Pair; 2] {
    let [accepted, refused] = [fields([1, 2], [0, 0]), fields([1, 1], [0, 9])];
    assert!(joint(&refused.project, &refused.part).is_some() && joined(&refused).bytes == 0 && joined(&accepted).bytes > 0);
    [accepted, refused]
}

/// Of the preview, of the join on a copy, and of the join with what the preview leaves.
#[test]
fn every_byte_and_the_whole_answer_are_compared() {
    for pair in accepted_and_refused() {
        for (asked, change) in [Asked::Preview, Asked::Join].into_iter().flat_map(|asked| CHANGES.map(|change| (asked, change))) {
            for after in [false, true] {
                let side = Other(asked, change);
                let failed = Comparison::new(&side, false).pair(&Pair { after, ..pair.clone() });
                assert!(matches!(failed, Err((seen, Difference::Outcomes(_))) if seen == asked));
            }
        }
    }
}

/// What a side says and leaves of a preview is held against what it says and leaves of the join, whatever the evaluator says.
#[test]
fn a_preview_that_does_not_agree_is_seen() {
    for pair in accepted_and_refused() {
        let before = pair.buffers(&[0xAA; 2 * WORK], &[0xAA; 2 * WORK]);
        let left =
            |side: &dyn Engine| -> [Left; 2] { [previewed(side, &pair, before.clone()), join_of(side, &pair, before.clone())] };
        let [preview, join] = left(&Evaluator(None));
        assert_eq!(agree(&before.lent, &preview, &join), Ok(()));
        for change in CHANGES {
            let [preview, join] = left(&Other(Asked::Preview, change));
            assert!(agree(&before.lent, &preview, &join).is_err());
        }
    }
}

/// The join is asked on a copy for every answer, and with what the preview leaves in every family, for most answers and for all of a joint.
#[test]
fn every_pair_is_previewed_and_some_are_joined_after_it() {
    on_large_stack(|| {
        let comparison = Comparison::new(&Evaluator(None), false);
        let mut answers = [BTreeSet::new(), BTreeSet::new()];
        for (name, pairs) in all_pairs(2 * SEARCHED) {
            let after = pairs.iter().filter(|pair| pair.after).count();
            assert!(after * 8 >= pairs.len() && after * 2 <= pairs.len(), "{name}, {after} of {}", pairs.len());
            let before = comparison.previews.get();
            for pair in &pairs {
                let Ok(Joined { which, answer, .. }) = comparison.pair(pair) else { panic!("{name}") };
                let number = if let Answer::Refused { number, .. } = answer { number } else { 0 };
                answers[usize::from(pair.after)].insert((format!("{which:?}"), number));
            }
            assert_eq!(comparison.previews.get() - before, pairs.len());
        }
        let [on_copy, after] = answers;
        // 2 to 15 of either book; of the joint 1, 10, 14, 16 and an acceptance.
        assert!(on_copy.len() == 2 * 14 + 5 && after.len() >= 25, "{on_copy:?}, {after:?}");
        assert_eq!(after.iter().filter(|(which, _)| which == "Joint").count(), 5);
    });
}
