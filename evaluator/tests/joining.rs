//! Document 02, (vi): "Two books become one." Stated joins byte for byte, the order of the tests, what is left, and what is promised of a joint
//! on every two of many books. Its (vii): each of these joins is previewed.

use evaluator::{
    check, decode, encode_term, join, joint, kind, on_large_stack, preview, run, Answer, Cell, Joined, Term, TermShape, Type,
    Version, Which, CELLS, PROJECT, WORK,
};
use Version::{One, Two};
use Which::{Joint, Part, Project};

/// What the lent bytes past the project and the work buffer hold before a join.
const LENT: u8 = 0xAA;
const WORKED: u8 = 0x55;
const MOST_32: i64 = (1 << 31) - 1;

/// A row of a book: kind, label, a, b, c.
type Line = [u16; 5];

/// These cells and a trailer with this version and root.
fn book(version: u8, cells: &[Line], root: u16) -> Vec<u8> {
    let cell = |&[kind, label, a, b, c]: &Line| Cell::new(kind as u8, label as u8, [a, b, c]);
    let trailer = Cell::new(0xF0, version, [cells.len() as u16, root, 0]);
    cells.iter().map(cell).chain([trailer]).flat_map(Cell::bytes).collect()
}

/// What a join or a preview answers and leaves.
#[derive(PartialEq, Eq)]
struct Left {
    joined: Joined,
    lent: Vec<u8>,
    work: Vec<u8>,
}

/// The project in so many lent bytes.
fn lent(project: &[u8], length: usize) -> Vec<u8> {
    [project, &vec![LENT; length.saturating_sub(project.len())]].concat()[..length].to_vec()
}

fn join_left(mut lent: Vec<u8>, told: usize, part: &[u8], mut work: Vec<u8>) -> Left {
    let joined = join(&mut lent, told, part, &mut work);
    Left { joined, lent, work }
}

fn preview_left(lent: Vec<u8>, told: usize, part: &[u8], mut work: Vec<u8>) -> Left {
    let joined = preview(&lent, told, part, &mut work);
    Left { joined, lent, work }
}

/// The project in so many lent bytes, of which so many are told. "Preview and join on a copy agree": on a copy of what the preview is lent, and
/// on what it leaves.
fn asked(project: &[u8], length: usize, told: usize, part: &[u8], work: usize) -> Left {
    let (lent, work) = (lent(project, length), vec![WORKED; work]);
    let foreseen = preview_left(lent.clone(), told, part, work.clone());
    let left = join_left(lent.clone(), told, part, work);
    assert!(foreseen.joined == left.joined && foreseen.work == left.work, "{:?}, {:?}", foreseen.joined, left.joined);
    assert!(foreseen.lent == lent);
    assert!(join_left(foreseen.lent, told, part, foreseen.work) == left);
    left
}

fn joined(project: &[u8], part: &[u8]) -> Left {
    asked(project, PROJECT, project.len(), part, WORK)
}

/// What a check answers and leaves.
fn checked(book: &[u8]) -> (Answer, Vec<u8>) {
    let mut work = vec![WORKED; WORK];
    (check(book, &mut work), work)
}

/// The join is accepted with this size of the type, and these bytes are the joint; the rest, and the work buffer, are as they must be.
fn accepted(project: &[u8], part: &[u8], size: usize, expected: &[u8]) {
    let Left { joined, lent, work } = joined(project, part);
    assert_eq!(joined, Joined { which: Joint, answer: Answer::Accepted { size }, bytes: expected.len() });
    assert_eq!(lent[..expected.len()], *expected);
    assert!(lent[expected.len()..].iter().all(|&byte| byte == 0) && lent.len() == PROJECT);
    assert_eq!(checked(expected), (Answer::Accepted { size }, work));
}

/// The join is refused: no bytes, every lent byte as it was, the work buffer zero.
fn turned_back(left: Left, project: &[u8], which: Which, number: u8, cell: usize) {
    let Left { joined, lent, work } = left;
    assert_eq!(joined, Joined { which, answer: Answer::Refused { number, cell }, bytes: 0 });
    let known = lent.len().min(project.len());
    assert_eq!(lent[..known], project[..known]);
    assert!(lent[known..].iter().all(|&byte| byte == LENT));
    assert!(work.len() == WORK && work.iter().all(|&byte| byte == 0));
}

fn refused(project: &[u8], part: &[u8], which: Which, number: u8, cell: usize) {
    turned_back(joined(project, part), project, which, number, cell);
}

fn number(n: i64) -> Term {
    Term::number(n)
}

fn field(label: u8, n: i64) -> Term {
    Term::record(label, number(n))
}

/// So many top values, the last for a root.
fn tops(count: usize) -> Vec<u8> {
    book(1, &vec![[18, 0, 0, 0, 0]; count], count as u16 - 1)
}

fn one_and_two() -> Vec<u8> {
    book(1, &[[17, 0, 0, 1, 0], [17, 0, 0, 2, 0], [22, 0, 0, 1, 0]], 2)
}

/// 1 applied to 1.
fn applied() -> Vec<u8> {
    book(1, &[[17, 0, 0, 1, 0], [17, 0, 0, 1, 0], [20, 0, 0, 1, 0]], 2)
}

fn seven() -> Vec<u8> {
    encode_term(&field(1, 7), One)
}

#[test]
fn a_field_and_a_number() {
    let expected = book(1, &[[17, 0, 0, 7, 0], [24, 1, 0, 0, 0], [17, 0, 0, 1, 0], [22, 0, 1, 2, 0]], 3);
    accepted(&seven(), &encode_term(&number(1), One), 4, &expected);
    assert_eq!(expected.len(), 40);
}

#[test]
fn the_higher_version_either_way_about() {
    let (narrow, wide) = (encode_term(&number(-5), One), encode_term(&field(2, 1 << 40), Two));
    let minus_five = [17, 0, 65_531, 65_535, 65_535];
    let part_wide = [minus_five, [17, 0, 0, 0, 256], [24, 2, 1, 0, 0], [22, 0, 0, 2, 0]];
    accepted(&narrow, &wide, 4, &book(2, &part_wide, 3));
    let project_wide = [[17, 0, 0, 0, 256], [24, 2, 0, 0, 0], minus_five, [22, 0, 1, 2, 0]];
    accepted(&wide, &narrow, 4, &book(2, &project_wide, 3));
}

/// Every number is extended, those that no root reaches too; skips, labels and numbers are no references.
#[test]
fn cells_that_no_root_reaches() {
    let project = book(1, &[[17, 0, 0, 1, 0], [16, 0, 5, 0, 0], [17, 0, 0, 65_535, 65_535], [24, 4, 0, 0, 0]], 3);
    let part = book(2, &[[17, 0, 9, 0, 0], [16, 0, 3, 0, 0], [24, 5, 0, 0, 0]], 2);
    let cells = [
        [17, 0, 1, 0, 0],
        [16, 0, 5, 0, 0],
        [17, 0, 65_535, 65_535, 65_535],
        [24, 4, 0, 0, 0],
        [17, 0, 9, 0, 0],
        [16, 0, 3, 0, 0],
        [24, 5, 4, 0, 0],
        [22, 0, 3, 6, 0],
    ];
    accepted(&project, &part, 5, &book(2, &cells, 7));
}

/// The roots stand first; behind them is a cell of every kind, all of the part's raised by 2 where the table has a reference.
#[test]
fn references_of_every_kind_are_raised() {
    let project = book(1, &[[18, 0, 0, 0, 0], [1, 0, 0, 0, 0]], 0);
    let mut cells: Vec<Line> = vec![[18, 0, 0, 0, 0], [1, 0, 0, 0, 0], [2, 0, 0, 0, 0]];
    cells.extend([[3, 0, 1, 2, 0], [4, 0, 2, 1, 0], [5, 255, 1, 0, 0], [16, 0, 65_535, 0, 0], [17, 0, 0, 65_535, 1]]);
    cells.extend([[19, 0, 0, 1, 0], [20, 0, 0, 0, 0], [21, 0, 0, 1, 2], [22, 0, 0, 7, 0], [23, 0, 0, 2, 0], [24, 9, 7, 0, 0]]);
    cells.extend([[25, 9, 7, 0, 0], [26, 0, 7, 7, 0], [27, 0, 7, 0, 6]]);
    let raised: Vec<Line> = [[18, 0, 0, 0, 0], [1, 0, 0, 0, 0], [18, 0, 0, 0, 0], [1, 0, 0, 0, 0], [2, 0, 0, 0, 0]]
        .into_iter()
        .chain([[3, 0, 3, 4, 0], [4, 0, 4, 3, 0], [5, 255, 3, 0, 0], [16, 0, 65_535, 0, 0], [17, 0, 0, 65_535, 1]])
        .chain([[19, 0, 2, 3, 0], [20, 0, 2, 2, 0], [21, 0, 2, 3, 4], [22, 0, 2, 9, 0], [23, 0, 2, 4, 0], [24, 9, 9, 0, 0]])
        .chain([[25, 9, 9, 0, 0], [26, 0, 9, 9, 0], [27, 0, 9, 2, 8], [22, 0, 0, 2, 0]])
        .collect();
    accepted(&project, &book(1, &cells, 0), 3, &book(1, &raised, raised.len() as u16 - 1));
}

#[test]
fn a_work_buffer_of_another_length_touches_nothing() {
    let (project, part) = (seven(), seven());
    for work in [0, 5, WORK - 1, WORK + 1, 2 * WORK] {
        for (lent, told) in [(PROJECT, project.len()), (100, project.len()), (PROJECT, 17), (PROJECT, usize::MAX), (0, 0)] {
            let left = asked(&project, lent, told, &part, work);
            assert_eq!(left.joined, Joined { which: Joint, answer: Answer::Refused { number: 1, cell: 0 }, bytes: 0 });
            assert!(left.work.iter().all(|&byte| byte == WORKED) && left.work.len() == work);
            let known = lent.min(project.len());
            assert_eq!(left.lent[..known], project[..known]);
            assert!(left.lent[known..].iter().all(|&byte| byte == LENT));
        }
    }
}

#[test]
fn lent_and_told_lengths() {
    let (project, part) = (seven(), seven());
    for lent in [0, 16, 24, 100, PROJECT - 8, PROJECT + 8, 2 * PROJECT] {
        for told in [24, 0, PROJECT, usize::MAX] {
            turned_back(asked(&project, lent, told, &part, WORK), &project, Project, 2, 0);
        }
    }
    for told in [0, 8, 15, 17, 23, PROJECT - 1, PROJECT + 1, PROJECT + 8, usize::MAX] {
        turned_back(asked(&project, PROJECT, told, &part, WORK), &project, Project, 2, 0);
    }
    // One cell short, one long, and all of them: no trailer stands there.
    for told in [16, 32, PROJECT] {
        turned_back(asked(&project, PROJECT, told, &part, WORK), &project, Project, 3, 0);
    }
}

#[test]
fn the_project_before_the_part_and_the_part_before_the_joint() {
    let int = book(1, &[[1, 0, 0, 0, 0]], 0);
    refused(&one_and_two(), &applied(), Project, 14, 2);
    refused(&applied(), &one_and_two(), Project, 12, 2);
    refused(&int, &[], Project, 9, 0);
    refused(&seven(), &applied(), Part, 12, 2);
    refused(&seven(), &int, Part, 9, 0);
    refused(&seven(), &[], Part, 2, 0);
    refused(&seven(), &seven()[..16], Part, 3, 0);
    refused(&seven(), &tops(CELLS + 1), Part, 2, 0);
}

#[test]
fn the_joint_clashes_or_is_consistent() {
    refused(&seven(), &encode_term(&field(1, 2), One), Joint, 14, 4);
    refused(&encode_term(&field(1, 1 << 32), Two), &encode_term(&field(1, 0), One), Joint, 14, 4);
    let twice: [Line; 5] = [[17, 0, 0, 7, 0], [24, 1, 0, 0, 0], [17, 0, 0, 7, 0], [24, 1, 2, 0, 0], [22, 0, 1, 3, 0]];
    accepted(&seven(), &seven(), 5, &book(1, &twice, 4));
    assert_eq!(joined(&seven(), &seven()).joined.bytes, 48);
}

#[test]
fn full_joints() {
    refused(&tops(4_000), &tops(95), Joint, 16, 0);
    let mut whole = vec![[18, 0, 0, 0, 0]; 4_094];
    whole.push([22, 0, 3_999, 4_093, 0]);
    accepted(&tops(4_000), &tops(94), 3, &book(1, &whole, 4_094));
    assert_eq!(joined(&tops(4_000), &tops(94)).lent, book(1, &whole, 4_094));
    refused(&tops(4_094), &tops(1), Joint, 16, 0);
    refused(&tops(CELLS), &tops(1), Joint, 16, 0);
    refused(&tops(1), &tops(CELLS), Joint, 16, 0);
    // "Tested after both books were accepted on their own and before the joint is."
    refused(&tops(CELLS), &one_and_two(), Part, 14, 2);
    let mut clash = vec![[17, 0, 0, 1, 0]; CELLS];
    clash[CELLS - 1] = [22, 0, 0, 0, 0];
    refused(&book(1, &clash, CELLS as u16 - 1), &book(1, &[[17, 0, 0, 2, 0]], 0), Joint, 16, 0);
    clash[CELLS - 2] = [17, 0, 0, 2, 0];
    clash[CELLS - 1] = [22, 0, 0, 4_093, 0];
    refused(&book(1, &clash, CELLS as u16 - 1), &tops(1), Project, 14, CELLS - 1);
}

#[test]
fn a_joint_that_is_too_large() {
    let doubled = |times: u16| {
        let merges = (0..times).map(|n| [22, 0, n, n, 0]);
        book(1, &[[18, 0, 0, 0, 0]].into_iter().chain(merges).collect::<Vec<Line>>(), times)
    };
    refused(&doubled(11), &tops(1), Joint, 10, 13);
    refused(&tops(1), &doubled(11), Joint, 10, 13);
    accepted(&doubled(10), &doubled(10), 4_095, &joint(&doubled(10), &doubled(10)).expect("a joint"));
}

fn sum(m: i64, n: i64) -> Term {
    Term::sum(number(m), number(n))
}

/// A sum of a version 1 book is held to the ends of 48 bits once the joint has version 2, and to those of 32 otherwise.
#[test]
fn sums_are_held_to_the_ends_of_the_joint() {
    let project = encode_term(&Term::record(1, sum(MOST_32, 1)), One);
    for (version, expected) in [(One, MOST_32), (Two, MOST_32 + 1)] {
        let part = encode_term(&field(2, 3), version);
        for [one, other] in [[&project, &part], [&part, &project]] {
            let Left { joined, lent, .. } = joined(one, other);
            let mut work = vec![0; WORK];
            assert_eq!(run(&lent[..joined.bytes], &mut work, 9), Answer::Value { steps: 1, mark: 7 });
            let halves = if one == &project { [field(1, expected), field(2, 3)] } else { [field(2, 3), field(1, expected)] };
            let [a, b] = halves;
            assert!(work.starts_with(&encode_term(&Term::merge(a, b), version)));
        }
    }
}

/// Terms of every kind: accepted alone, refused alone, values and others.
fn terms() -> Vec<Term> {
    let int = Type::int;
    let function = |body: Term| Term::function(body, int(), int());
    let both = || Term::merge(number(1), field(2, -1));
    vec![
        number(1),
        number(-1),
        Term::top(),
        field(1, 1),
        field(1, -1),
        field(2, 1),
        Term::record(1, Term::top()),
        both(),
        Term::merge(number(1), number(1)),
        Term::merge(number(1), number(2)),
        Term::annotation(both(), int()),
        Term::projection(2, both()),
        function(Term::variable(0)),
        function(number(-1)),
        Term::function(Term::variable(0), int(), Type::top()),
        Term::application(function(Term::variable(0)), number(7)),
        Term::application(number(1), number(1)),
        Term::fixpoint(Term::variable(0), Type::record(3, int())),
        sum(MOST_32, 1),
        sum(-MOST_32, -5),
        Term::choice(sum(1, -1), number(-2), Term::projection(2, field(2, 5))),
        Term::variable(0),
        function(Term::choice(Term::variable(0), number(-65_536), Term::function(Term::variable(1), int(), int()))),
    ]
}

/// The book with cells that its root does not reach, before it, behind it and after the root.
fn with_unreached(term: &Term, version: Version) -> Vec<u8> {
    let before: [Cell; 3] = [Cell::new(kind::INT, 0, [0; 3]), Cell::number(-3, version), Cell::new(kind::FUNCTION, 0, [1, 0, 0])];
    let bytes = encode_term(term, version);
    let cells: Vec<Cell> = bytes.chunks(8).map(|bytes| Cell::of(bytes).redirected(|to| to + 3)).collect();
    let (trailer, own) = cells.split_last().expect("a trailer");
    let root = trailer.fields[1] + 3;
    let behind = [Cell::new(kind::VARIABLE, 0, [2, 0, 0]), Cell::new(kind::CHOICE, 0, [1, root, 2])];
    let all: Vec<Cell> = before.into_iter().chain(own.iter().copied()).chain(behind).collect();
    let trailer = Cell::trailer(all.len() as u16, root, version);
    all.into_iter().chain([trailer]).flat_map(Cell::bytes).collect()
}

fn books() -> Vec<Vec<u8>> {
    let of = |term: &Term| {
        let plain = Version::ALL.map(|version| encode_term(term, version));
        let unreached = Version::ALL.map(|version| with_unreached(term, version));
        plain.into_iter().chain(unreached).collect::<Vec<_>>()
    };
    let mut books: Vec<Vec<u8>> = terms().iter().flat_map(of).collect();
    books.extend([vec![], book(1, &[[1, 0, 0, 0, 0]], 0), book(3, &[[18, 0, 0, 0, 0]], 0)]);
    books
}

/// The first refusal is the answer: of the project, of the part, then of the joint.
fn first_refusal(project: &[u8], part: &[u8]) -> Option<(Which, Answer)> {
    let refusal = |which, book: &[u8]| match checked(book).0 {
        answer @ Answer::Refused { .. } => Some((which, answer)),
        _ => None,
    };
    refusal(Project, project).or_else(|| refusal(Part, part)).or_else(|| refusal(Joint, &joint(project, part)?))
}

/// What is promised of an accepted joint: it is a book that a check answers alike, its root is the merge of both roots, and the cells before are
/// those of the two books.
fn promised(project: &[u8], part: &[u8], left: &Left) {
    let bytes = &left.lent[..left.joined.bytes];
    assert_eq!(checked(bytes), (left.joined.answer, left.work.clone()));
    let [(one, first), (two, second), (both, version)] = [project, part, bytes].map(|book| decode(book).expect("a term"));
    assert_eq!((both.clone(), version), (Term::merge(one, two), first.max(second)));
    assert!(matches!(both.shape(), TermShape::Merge(..)));
    assert_eq!(bytes.len(), project.len() + part.len());
    let kinds = |book: &[u8]| book.chunks(8).map(|cell| [cell[0], cell[1]]).collect::<Vec<_>>();
    let [mut expected, second] = [kinds(project), kinds(part)];
    expected.pop();
    expected.extend(&second[..second.len() - 1]);
    expected.extend([[kind::MERGE, 0], [0xF0, version.byte()]]);
    assert_eq!(kinds(bytes), expected);
}

#[test]
fn every_two_books() {
    on_large_stack(|| {
        let books = books();
        let mut counts = [0; 17];
        for (project, part) in books.iter().flat_map(|one| books.iter().map(move |other| (one, other))) {
            let left = joined(project, part);
            match first_refusal(project, part) {
                Some((which, answer @ Answer::Refused { number, cell })) => {
                    assert_eq!(left.joined, Joined { which, answer, bytes: 0 });
                    // "A joint book has all that an accepted book is owed": only its merge can be wrong, or its size.
                    assert!(which != Joint || [10, 14].contains(&number));
                    counts[usize::from(number)] += 1;
                    turned_back(left, project, which, number, cell);
                }
                _ => {
                    counts[0] += 1;
                    promised(project, part, &left);
                }
            }
        }
        assert!(
            counts[0] > 2_000 && counts[14] > 1_000 && [2, 3, 9, 11, 12, 15].iter().all(|&number| counts[number] > 0),
            "{counts:?}"
        );
    });
}

/// 14 at a joint names its merge, which is its last cell.
#[test]
fn a_clash_names_the_last_cell() {
    let books = books();
    for (project, part) in books.iter().flat_map(|one| books.iter().map(move |other| (one, other))).step_by(7) {
        let joined = joined(project, part).joined;
        if let (Joint, Answer::Refused { cell, .. }) = (joined.which, joined.answer) {
            assert_eq!(cell, (project.len() + part.len()) / 8 - 2);
        }
    }
}

/// None of what is no book.
#[test]
fn only_books_have_a_joint() {
    assert_eq!(joint(&seven(), &[]), None);
    assert_eq!(joint(&book(1, &[[1, 0, 0, 0, 0]], 0), &seven()), None);
    assert!(joint(&one_and_two(), &applied()).is_some());
}

/// "It gives the answer and byte count that the join would give on a copy, with the type's size if accepted."
#[test]
fn previews_of_stated_joins() {
    let accepted = |size, bytes| (Joint, Answer::Accepted { size }, bytes);
    let refused = |which, number, cell| (which, Answer::Refused { number, cell }, 0);
    let [one, two] = [number(1), field(1, 2)].map(|term| encode_term(&term, One));
    let (narrow, wide) = (encode_term(&number(-5), One), encode_term(&field(2, 1 << 40), Two));
    let stated = [
        (seven(), one.clone(), accepted(4, 40)),
        (seven(), seven(), accepted(5, 48)),
        (narrow.clone(), wide.clone(), accepted(4, 40)),
        (wide, narrow, accepted(4, 40)),
        (tops(4_000), tops(94), accepted(3, PROJECT)),
        (tops(4_000), tops(95), refused(Joint, 16, 0)),
        (tops(CELLS), one_and_two(), refused(Part, 14, 2)),
        (seven(), two, refused(Joint, 14, 4)),
        (one_and_two(), applied(), refused(Project, 14, 2)),
        (seven(), applied(), refused(Part, 12, 2)),
    ];
    for (project, part, (which, answer, bytes)) in stated {
        let left = preview_left(lent(&project, PROJECT), project.len(), &part, vec![WORKED; WORK]);
        assert_eq!(left.joined, Joined { which, answer, bytes });
        assert!(left.lent == lent(&project, PROJECT));
        let book = joint(&project, &part).filter(|_| bytes > 0).unwrap_or_default();
        assert_eq!((book.len(), left.work), (bytes, checked(&book).1));
    }
}

#[test]
fn previews_lent_and_told_wrongly() {
    let project = seven();
    let asked = |length, told, work| preview_left(lent(&project, length), told, &project, vec![WORKED; work]);
    let refused = |which, number| Joined { which, answer: Answer::Refused { number, cell: 0 }, bytes: 0 };
    for (length, told) in [(PROJECT, 24), (100, 24), (PROJECT, PROJECT + 8)] {
        let left = asked(length, told, 5);
        assert_eq!(left.joined, refused(Joint, 1));
        assert_eq!(left.work, [WORKED; 5]);
    }
    for (length, told) in [(100, 24), (PROJECT + 8, 24), (PROJECT, 0), (PROJECT, 17), (PROJECT, PROJECT + 8), (PROJECT, usize::MAX)]
    {
        let left = asked(length, told, WORK);
        assert_eq!(left.joined, refused(Project, 2));
        assert!(left.work.iter().all(|&byte| byte == 0));
    }
    assert_eq!(asked(PROJECT, PROJECT, WORK).joined, refused(Project, 3));
}

/// Previews of several parts, one after the other in one work buffer, and then the join of one of them: the joint that was foreseen.
#[test]
fn the_joint_that_was_foreseen() {
    let project = seven();
    let parts = [field(1, 2), field(2, 3), number(1), field(1, 7), Term::application(number(1), number(1))];
    let parts = parts.map(|term| encode_term(&term, Two));
    for chosen in &parts {
        let mut work = vec![WORKED; WORK];
        let mut kept = lent(&project, PROJECT);
        let foreseen = preview(&kept, project.len(), chosen, &mut work);
        let shown = work.clone();
        for other in &parts {
            let said = preview(&kept, project.len(), other, &mut work);
            assert!(kept == lent(&project, PROJECT) && (said == foreseen || other != chosen));
        }
        assert_eq!(join(&mut kept, project.len(), chosen, &mut work), foreseen);
        assert!(work == shown);
        if foreseen.bytes > 0 {
            assert_eq!(Some(&kept[..foreseen.bytes]), joint(&project, chosen).as_deref());
            assert_eq!(checked(&kept[..foreseen.bytes]), (foreseen.answer, shown));
        }
    }
}
