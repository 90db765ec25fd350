//! Joins through the wrapper, byte for byte: the answer, the book that it means, the byte count, every lent byte of the project and every byte
//! of the work buffer. Each is previewed first.

#![cfg(not(library_missing))]

mod previewing;

use cerealbank::{check, preview, Answer, Joined, Which, PROJECT, WORK};
use previewing::{join_as_previewed, ReadOnly};
use std::env;
use std::ops::Range;
use std::process::{Command, Stdio};

/// What the lent bytes past the project, and the work buffer, hold before the call.
const PAST: u8 = 0xAA;

/// A cell: kind, label and the fields a, b and c.
type Cell = [u16; 5];

const TOP_VALUE: Cell = [18, 0, 0, 0, 0];

fn row([kind, label, fields @ ..]: Cell) -> Vec<u8> {
    [kind as u8, label as u8].into_iter().chain(fields.into_iter().flat_map(u16::to_le_bytes)).collect()
}

/// A book of these cells; the root is the last, unless another is named.
fn rooted(version: u8, cells: &[Cell], root: usize) -> Vec<u8> {
    let [count, root] = [cells.len(), root].map(|n| (n as u16).to_le_bytes());
    let trailer = [0xF0, version, count[0], count[1], root[0], root[1], 0, 0];
    cells.iter().copied().flat_map(row).chain(trailer).collect()
}

fn book(version: u8, cells: &[Cell]) -> Vec<u8> {
    rooted(version, cells, cells.len() - 1)
}

/// A record of a number, both small.
fn record(label: u16, number: u16) -> Vec<u8> {
    book(1, &[[17, 0, 0, number, 0], [24, label, 0, 0, 0]])
}

fn one() -> Vec<u8> {
    book(1, &[[17, 0, 0, 1, 0]])
}

/// `1 ,, 2`, which is refused 14, and 1 applied to 1, which is refused 12.
fn unequal() -> Vec<u8> {
    book(1, &[[17, 0, 0, 1, 0], [17, 0, 0, 2, 0], [22, 0, 0, 1, 0]])
}

fn applied() -> Vec<u8> {
    book(1, &[[17, 0, 0, 1, 0], [17, 0, 0, 1, 0], [20, 0, 0, 1, 0]])
}

/// The record, label 2, of 2 to the 40th, and the numbers -5 of version 1 and of version 2.
const WIDE: [Cell; 2] = [[17, 0, 0, 0, 256], [24, 2, 0, 0, 0]];
const NARROW: Cell = [17, 0, 0, 65_531, 65_535];
const EXTENDED: Cell = [17, 0, 65_531, 65_535, 65_535];

/// So many top values, the last for a root.
fn tops(count: usize) -> Vec<u8> {
    book(1, &vec![TOP_VALUE; count])
}

/// The top value merged with itself so many times over by sharing.
fn doubled(times: u16) -> Vec<u8> {
    let merges = (0..times).map(|n| [22, 0, n, n, 0]);
    book(1, &[TOP_VALUE].into_iter().chain(merges).collect::<Vec<_>>())
}

/// A book at the start of so many lent bytes; a longer one is cut.
fn lent(book: &[u8], length: usize) -> Vec<u8> {
    let mut lent = book.to_vec();
    lent.resize(length, PAST);
    lent
}

/// The same lent bytes, and with others past the project: zeros, trailers, and all of them over again.
fn refilled(lent: &[u8], told: usize) -> Vec<Vec<u8>> {
    let (project, past) = lent.split_at(told.min(lent.len()));
    let [zeros, trailers] = [0, 0xF0].map(|byte| vec![byte; past.len()]);
    let copies = lent.iter().copied().cycle().take(past.len()).collect();
    [past.to_vec(), zeros, trailers, copies].map(|past| [project, &past].concat()).to_vec()
}

fn refused(which: Which, number: u8, cell: u32) -> Joined {
    Joined { which, answer: Answer::Refused { number, cell }, bytes: 0 }
}

/// Joins, and sees that it is answered so: a refusal leaves every lent byte, and the work buffer as a check does.
fn is_refused(project: &[u8], told: usize, part: &[u8], work: usize, which: Which, number: u8, cell: u32) {
    for project in refilled(project, told) {
        let (mut after, mut left) = (project.clone(), vec![PAST; work]);
        let joined = join_as_previewed(&mut after, told, part, &mut left);
        assert_eq!(joined, refused(which, number, cell));
        assert!(after == project, "a lent byte has changed: {joined:?}");
        let kept = if number == 1 { PAST } else { 0 };
        assert!(left.iter().all(|&byte| byte == kept), "the work buffer: {joined:?}");
    }
}

fn accepted(size: u32, bytes: usize) -> Joined {
    Joined { which: Which::Joint, answer: Answer::Accepted { size }, bytes }
}

fn pair_is_refused(project: &[u8], part: &[u8], which: Which, number: u8, cell: u32) {
    is_refused(&lent(project, PROJECT), project.len(), part, WORK, which, number, cell);
}

/// Joins two books to this one; the work buffer is left as a check of it leaves it, with the same answer.
fn is_joined(project: &[u8], part: &[u8], size: u32, joint: &[u8]) {
    for mut after in refilled(&lent(project, PROJECT), project.len()) {
        let mut left = vec![PAST; WORK];
        let joined = join_as_previewed(&mut after, project.len(), part, &mut left);
        assert_eq!(joined, accepted(size, joint.len()));
        assert_eq!(&after[..joint.len()], joint);
        assert!(after[joint.len()..].iter().all(|&byte| byte == 0), "the rest is not zero");
        let mut checked = vec![1; WORK];
        assert_eq!(check(joint, &mut checked), joined.answer);
        assert!(left == checked, "the work buffer is not that of a check");
        let trailer = left.chunks(8).find(|row| row[0] == 0xF0).expect("a type");
        assert_eq!(trailer[1], joint[joint.len() - 7], "the version of the type");
    }
}

#[test]
fn books_of_version_1_are_joined() {
    let cells = [[17, 0, 0, 7, 0], [24, 1, 0, 0, 0], [17, 0, 0, 1, 0], [22, 0, 1, 2, 0]];
    is_joined(&record(1, 7), &one(), 4, &book(1, &cells));
    let cells = [[17, 0, 0, 7, 0], [24, 1, 0, 0, 0], [17, 0, 0, 7, 0], [24, 1, 2, 0, 0], [22, 0, 1, 3, 0]];
    is_joined(&record(1, 7), &record(1, 7), 5, &book(1, &cells));
}

/// The joint has the higher version, and the numbers of the other book are extended by their sign.
#[test]
fn versions_are_joined() {
    let cells = [EXTENDED, [17, 0, 0, 0, 256], [24, 2, 1, 0, 0], [22, 0, 0, 2, 0]];
    is_joined(&book(1, &[NARROW]), &book(2, &WIDE), 4, &book(2, &cells));
    let cells = [WIDE[0], WIDE[1], EXTENDED, [22, 0, 1, 2, 0]];
    is_joined(&book(2, &WIDE), &book(1, &[NARROW]), 4, &book(2, &cells));
    let cells = [WIDE[0], WIDE[1], EXTENDED, [22, 0, 1, 2, 0]];
    is_joined(&book(2, &WIDE), &book(2, &[EXTENDED]), 4, &book(2, &cells));
}

/// Cells that no root reaches are carried along; skips, labels and numbers are no references.
#[test]
fn unreached_cells_are_joined() {
    let project = book(1, &[[17, 0, 0, 1, 0], [16, 0, 5, 0, 0], [17, 0, 0, 65_535, 65_535], [24, 4, 0, 0, 0]]);
    let part = book(2, &[[17, 0, 9, 0, 0], [16, 0, 3, 0, 0], [24, 5, 0, 0, 0]]);
    let cells = [
        [17, 0, 1, 0, 0],
        [16, 0, 5, 0, 0],
        [17, 0, 65_535, 65_535, 65_535],
        [24, 4, 0, 0, 0],
        [17, 0, 9, 0, 0],
        [16, 0, 3, 0, 0],
        [24, 5, 4, 0, 0],
        [22, 0, 3, 6, 0],
    ];
    is_joined(&project, &part, 5, &book(2, &cells));
}

/// A reference of every field of every kind is raised by the project's cells, and the merge goes to the roots wherever they stand.
#[test]
fn every_reference_is_raised() {
    let part = |n: u16| -> Vec<Cell> {
        vec![
            [1, 0, 0, 0, 0],
            [2, 0, 0, 0, 0],
            [3, 0, n, n + 1, 0],
            [4, 0, n + 2, n, 0],
            [5, 9, n + 3, 0, 0],
            [16, 0, 0, 0, 0],
            [17, 0, 0, 3, 0],
            [18, 0, 0, 0, 0],
            [19, 0, n + 6, n, 0],
            [21, 0, n + 5, n, n],
            [20, 0, n + 9, n + 6, 0],
            [22, 0, n + 6, n + 7, 0],
            [23, 0, n + 5, n, 0],
            [24, 8, n + 10, 0, 0],
            [25, 8, n + 13, 0, 0],
            [26, 0, n + 6, n + 14, 0],
            [27, 0, n + 15, n + 6, n + 8],
            [18, 0, 0, 0, 0],
        ]
    };
    let project = rooted(1, &[[17, 0, 0, 7, 0], [24, 1, 0, 0, 0], [18, 0, 0, 0, 0]], 1);
    let cells = [&[[17, 0, 0, 7, 0], [24, 1, 0, 0, 0], [18, 0, 0, 0, 0]], &part(3)[..], &[[22, 0, 1, 19, 0]]].concat();
    is_joined(&project, &rooted(1, &part(0), 16), 4, &book(1, &cells));
}

#[test]
fn refusal_1_comes_first_and_touches_nothing() {
    for work in [0, 5, WORK - 1, WORK + 1] {
        for length in [0, 100, PROJECT, PROJECT + 8] {
            for (project, told, part) in
                [(record(1, 7), 24, one()), (unequal(), 32, one()), (record(1, 7), 24, applied()), (vec![], usize::MAX, vec![])]
            {
                is_refused(&lent(&project, length), told, &part, work, Which::Joint, 1, 0);
            }
        }
    }
}

#[test]
fn lengths_that_are_no_projects() {
    for length in [0, 24, 100, PROJECT - 1, PROJECT + 1, PROJECT + 8] {
        for told in [0, 24, PROJECT, PROJECT + 8, usize::MAX] {
            is_refused(&lent(&record(1, 7), length), told, &applied(), WORK, Which::Project, 2, 0);
        }
    }
    let whole = lent(&record(1, 7), PROJECT);
    // Of the long ones, some are the project's own length in their low bits.
    for told in [0, 8, 17, 23, PROJECT + 1, PROJECT + 8, (1 << 16) + 24, (1 << 32) + 24, (1 << 63) + 24, usize::MAX - 7, usize::MAX]
    {
        is_refused(&whole, told, &applied(), WORK, Which::Project, 2, 0);
    }
    is_refused(&vec![PAST; PROJECT], PROJECT, &one(), WORK, Which::Project, 3, 0);
    is_refused(&whole, 16, &one(), WORK, Which::Project, 3, 0);
}

#[test]
fn the_project_is_refused_before_the_part() {
    pair_is_refused(&unequal(), &applied(), Which::Project, 14, 2);
    pair_is_refused(&unequal(), &[], Which::Project, 14, 2);
    pair_is_refused(&record(1, 7), &applied(), Which::Part, 12, 2);
    pair_is_refused(&record(1, 7), &book(1, &[[1, 0, 0, 0, 0]]), Which::Part, 9, 0);
    for part in [vec![], vec![PAST; 17], vec![PAST; PROJECT + 8]] {
        pair_is_refused(&record(1, 7), &part, Which::Part, 2, 0);
    }
}

#[test]
fn the_joint_is_refused_at_its_last_cell() {
    pair_is_refused(&record(1, 7), &record(1, 2), Which::Joint, 14, 4);
    pair_is_refused(&doubled(11), &tops(1), Which::Joint, 10, 13);
    pair_is_refused(&tops(1), &doubled(11), Which::Joint, 10, 13);
}

#[test]
fn the_cells_of_both_and_the_merge_are_at_most_4095() {
    for (project, part) in [(4_000, 95), (95, 4_000), (4_094, 1), (1, 4_094), (4_095, 1), (4_095, 4_095)] {
        pair_is_refused(&tops(project), &tops(part), Which::Joint, 16, 0);
    }
    for (project, part) in [(4_000, 94), (94, 4_000), (4_093, 1), (1, 4_093)] {
        let cells: Vec<Cell> = vec![TOP_VALUE; project + part];
        let merge = [22, 0, project as u16 - 1, (project + part) as u16 - 1, 0];
        let joint = book(1, &[&cells[..], &[merge]].concat());
        assert_eq!(joint.len(), PROJECT);
        is_joined(&tops(project), &tops(part), 3, &joint);
    }
    // Both books are looked at before their cells are counted.
    pair_is_refused(&tops(4_095), &unequal(), Which::Part, 14, 2);
    pair_is_refused(&record(1, 7), &[tops(4_095), vec![0; 8]].concat(), Which::Part, 2, 0);
    // The count goes before the size.
    let large: Vec<Cell> = vec![TOP_VALUE; 4_082];
    let doubles = (0..11).map(|n| [22, 0, 4_081 + n, 4_081 + n, 0]);
    let large = book(1, &large.into_iter().chain(doubles).collect::<Vec<_>>());
    pair_is_refused(&large, &tops(1), Which::Joint, 10, 4_094);
    pair_is_refused(&large, &tops(2), Which::Joint, 16, 0);
}

/// A joint is a project: the next part is joined to it, and every join adds the part's cells and one.
#[test]
fn parts_are_joined_one_after_another() {
    let (mut project, mut work) = (lent(&record(0, 0), PROJECT), vec![0; WORK]);
    let mut length = 24;
    for label in 1..=255 {
        let joined = join_as_previewed(&mut project, length, &record(label, label), &mut work);
        assert_eq!(joined.answer, Answer::Accepted { size: 3 * u32::from(label) + 2 });
        assert_eq!(joined.bytes, length + 24);
        length = joined.bytes;
    }
    let mut checked = vec![0; WORK];
    assert_eq!(check(&project[..length], &mut checked), Answer::Accepted { size: 767 });
    assert!(checked == work);
}

/// Previews with a part that is some of the project's lent bytes: as with a copy of it.
fn overlaps(books: &[Vec<u8>], part: Range<usize>, said: Joined) {
    let (whole, told) = (lent(&books.concat(), PROJECT), books[0].len());
    let (mut work, mut left) = (vec![PAST; WORK], vec![1; WORK]);
    assert_eq!(join_as_previewed(&mut whole.clone(), told, &whole[part.clone()], &mut work), said);
    let whole = ReadOnly::of(&whole);
    assert_eq!(preview(&whole, told, &whole[part], &mut left), said);
    assert!(left == work, "the work buffer: {said:?}");
}

/// A preview reads both only, so a project may be its own part, and a part may stand past the project.
#[test]
fn a_previews_project_and_part_may_overlap() {
    overlaps(&[record(1, 7)], 0..24, accepted(5, 48));
    overlaps(&[book(2, &WIDE)], 0..24, accepted(5, 48));
    overlaps(&[record(1, 7), one()], 24..40, accepted(4, 40));
    overlaps(&[tops(2_047)], 0..16_384, accepted(3, PROJECT));
    overlaps(&[tops(2_048)], 0..16_392, refused(Which::Joint, 16, 0));
    overlaps(&[doubled(11)], 0..104, refused(Which::Joint, 10, 24));
    overlaps(&[unequal()], 0..32, refused(Which::Project, 14, 2));
    overlaps(&[record(1, 7)], 8..24, refused(Which::Part, 4, 0));
    overlaps(&[record(1, 7)], 0..PROJECT, refused(Which::Part, 3, 0));
    overlaps(&[record(1, 7)], 24..24, refused(Which::Part, 2, 0));
}

/// In a program of its own, for it ends there.
#[test]
fn a_write_ends_the_program_where_bytes_are_read_only() {
    const WRITES: &str = "CEREALBANK_TEST_WRITES";
    let bytes = ReadOnly::of(&one());
    if env::var_os(WRITES).is_some() {
        // SAFETY: none, for it is what the program ends at.
        unsafe { bytes.as_ptr().cast_mut().write_volatile(bytes[0]) };
        return;
    }
    let mut program = Command::new(env::current_exe().expect("this program"));
    program.args(["--exact", "a_write_ends_the_program_where_bytes_are_read_only"]).env(WRITES, "");
    let status = program.stdout(Stdio::null()).stderr(Stdio::null()).status().expect("a program");
    assert_eq!(status.code(), None, "a signal ends it");
}
