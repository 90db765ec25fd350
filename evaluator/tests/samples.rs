//! Every sample book of document 01, the desk example, and a book for each refusal and each reading that has one.

mod sizes;

use evaluator::{check, desk, on_large_stack, run, Answer, Sort, Term, Type, Version, TABLE, WORK};
use sizes::greatest;

/// The version 1 book of a term.
fn encode_term(term: &Term) -> Vec<u8> {
    evaluator::encode_term(term, Version::One)
}

/// Sums held to the range of version 1.
fn successors(term: &Term) -> Vec<Term> {
    evaluator::successors(term, Version::One)
}

/// Cells as in document 01's table: kind, label, a, b, c; the root is given.
fn book(cells: &[[u16; 5]], root: u16) -> Vec<u8> {
    let mut bytes = Vec::new();
    for [kind, label, a, b, c] in cells {
        bytes.extend([*kind as u8, *label as u8]);
        for field in [a, b, c] {
            bytes.extend(field.to_le_bytes());
        }
    }
    bytes.extend([0xF0, 1]);
    for field in [cells.len() as u16, root, 0] {
        bytes.extend(field.to_le_bytes());
    }
    bytes
}

fn noise() -> Vec<u8> {
    (0..WORK).map(|i| (i * 31 + 7) as u8).collect()
}

/// The answer of a check, after testing what it leaves: the type's book, or zeros.
fn checked(book: &[u8]) -> Answer {
    let mut work = noise();
    let answer = check(book, &mut work);
    let end = match answer {
        Answer::Accepted { size } => size * 8 + 8,
        _ => 0,
    };
    assert!(work[end..].iter().all(|&byte| byte == 0), "bytes past the type are zero");
    answer
}

/// The answer of a run and the book that it leaves.
fn ran(book: &[u8], limit: u32) -> (Answer, Vec<u8>) {
    let mut work = noise();
    let answer = run(book, &mut work, limit);
    let end = work.chunks(8).position(|cell| cell[0] == 0xF0).map_or(0, |at| at * 8 + 8);
    assert!(work[end..].iter().all(|&byte| byte == 0), "bytes past the term are zero");
    work.truncate(end);
    (answer, work)
}

fn refused(number: u8, cell: usize) -> Answer {
    Answer::Refused { number, cell }
}

/// The book is accepted and comes to this value after so many steps.
fn comes_to(term: Term, value: Term, steps: u32) {
    let book = encode_term(&term);
    assert!(matches!(checked(&book), Answer::Accepted { .. }));
    let mark = |steps: u32| greatest(&term, Version::One, steps);
    let came = (Answer::Value { steps, mark: mark(steps) }, encode_term(&value));
    assert_eq!(ran(&book, 10_000), came, "{term}");
    assert_eq!(ran(&book, steps), came, "{term}");
    if let Some(steps) = steps.checked_sub(1) {
        assert_eq!(ran(&book, steps).0, Answer::Spent { steps, mark: mark(steps) }, "{term}");
    }
}

fn number(n: i32) -> Term {
    Term::number(n)
}

fn int() -> Type {
    Type::int()
}

fn identity() -> Term {
    Term::function(Term::variable(0), int(), int())
}

#[test]
fn one_merged_with_one_and_with_two() {
    comes_to(Term::merge(number(1), number(1)), Term::merge(number(1), number(1)), 0);
    assert_eq!(checked(&encode_term(&Term::merge(number(1), number(2)))), refused(14, 2));
}

#[test]
fn a_variable_is_no_closed_value() {
    let body = Term::merge(Term::variable(0), Term::variable(0));
    let function = Term::function(body, int(), int());
    assert_eq!(checked(&encode_term(&function)), refused(14, 2));
}

#[test]
fn annotated_with_an_intersection_then_with_int() {
    let inside = Term::annotation(number(1), Type::intersection(int(), int()));
    comes_to(Term::annotation(inside, int()), number(1), 2);
}

#[test]
fn the_identity_applied_to_a_merge() {
    let merge = Term::merge(number(1), Term::record(7, number(5)));
    comes_to(Term::application(identity(), merge), number(1), 2);
}

#[test]
fn the_identity_annotated_int_to_top() {
    comes_to(Term::annotation(identity(), Type::function(int(), Type::top())), Term::top(), 1);
}

#[test]
fn applications_of_the_top_value_and_of_a_number() {
    comes_to(Term::application(Term::top(), number(3)), Term::top(), 1);
    assert_eq!(checked(&encode_term(&Term::application(number(3), number(4)))), refused(12, 2));
}

#[test]
fn the_hidden_field() {
    let merge = Term::merge(Term::record(1, number(2)), Term::variable(0));
    let body = Term::projection(1, Term::annotation(merge, Type::record(1, int())));
    let function = Term::function(body, Type::record(2, int()), int());
    let argument = Term::merge(Term::record(1, number(1)), Term::record(2, number(9)));
    comes_to(Term::application(function, argument), number(2), 4);
}

/// A run keeps its place in the term; following the successors one by one gives the same terms.
#[test]
fn a_run_reaches_the_successors_one_by_one() {
    let body = Term::merge(Term::record(1, Term::variable(0)), Term::application(Term::top(), Term::variable(0)));
    let function = Term::function(Term::projection(1, Term::annotation(body, Type::record(1, int()))), int(), int());
    let argument = Term::merge(Term::record(4, Term::annotation(number(3), Type::top())), Term::annotation(number(8), int()));
    let root = Term::record(9, Term::application(function, Term::merge(Term::top(), argument)));
    let (mut term, mut steps) = (root.clone(), 0);
    while !term.is_value() {
        let mark = greatest(&root, Version::One, steps);
        assert_eq!(ran(&encode_term(&root), steps), (Answer::Spent { steps, mark }, encode_term(&term)));
        let next = successors(&term);
        assert_eq!(next.len(), 1);
        (term, steps) = (next[0].clone(), steps + 1);
    }
    comes_to(root, Term::record(9, number(8)), steps);
    assert_eq!(steps, 7);
}

#[test]
fn the_fixpoint_at_int() {
    let book = encode_term(&Term::fixpoint(Term::variable(0), int()));
    assert_eq!(ran(&book, 0), (Answer::Spent { steps: 0, mark: 3 }, book.clone()));
    let (answer, left) = ran(&book, 2_046);
    assert_eq!((answer, left.len()), (Answer::Spent { steps: 2_046, mark: 4_095 }, 4_095 * 8 + 8));
    assert_eq!(ran(&book, 2_047), (Answer::Room { steps: 2_046, mark: 4_095 }, left.clone()));
    assert_eq!(ran(&book, u32::MAX), (Answer::Room { steps: 2_046, mark: 4_095 }, left));
}

#[test]
fn the_top_value_merged_with_itself_by_sharing() {
    let times = |n: u16| {
        let mut cells = vec![[18, 0, 0, 0, 0]];
        cells.extend((0..n).map(|i| [22, 0, i, i, 0]));
        book(&cells, n)
    };
    assert_eq!(checked(&times(11)), Answer::Accepted { size: 4_095 });
    assert_eq!(ran(&times(11), 0).0, Answer::Value { steps: 0, mark: 4_095 });
    assert_eq!(checked(&times(12)), refused(10, 12));
    assert_eq!(checked(&times(4_000)), refused(10, 4_000));
}

#[test]
fn records_round_a_number() {
    on_large_stack(|| {
        let nested = |n: u16| (0..n).fold(number(5), |content, i| Term::record(i as u8, content));
        assert_eq!(checked(&encode_term(&nested(4_094))), Answer::Accepted { size: 4_095 });
        comes_to(nested(4_094), nested(4_094), 0);
    });
}

#[test]
fn the_desk_example() {
    let cells = [[1, 0, 0, 0, 0], [17, 0, 0, 1, 0], [17, 0, 0, 5, 0], [24, 7, 2, 0, 0], [22, 0, 1, 3, 0], [19, 0, 4, 0, 0]];
    assert_eq!(desk(&book(&cells, 5)), "accepted 1\nvalue 1\n0 17 0 0 1 0\n");
    assert_eq!(desk(&encode_term(&Term::merge(number(1), number(2)))), "refused 14 2\n");
    assert_eq!(desk(&[]), "refused 2 0\n");
    assert_eq!(desk(&vec![0; 40_000]), "refused 2 0\n");
    assert_eq!(desk(&encode_term(&number(-2))), "accepted 1\nvalue 0\n0 17 0 0 65534 65535\n");
}

#[test]
fn refusal_1_touches_nothing() {
    let book = encode_term(&number(1));
    for length in [0, 65_535, 65_537] {
        let mut work = vec![9; length];
        assert_eq!(check(&book, &mut work), refused(1, 0));
        assert_eq!(run(&[], &mut work, 5), refused(1, 0));
        assert!(work.iter().all(|&byte| byte == 9));
    }
}

#[test]
fn refusals_of_length_and_trailer() {
    let good = encode_term(&number(1));
    assert_eq!(checked(&good), Answer::Accepted { size: 1 });
    for length in [0, 8, 15, 17, 23] {
        let mut bytes = good.clone();
        bytes.resize(length, 0);
        assert_eq!(checked(&bytes), refused(2, 0));
    }
    assert_eq!(checked(&vec![0; 32_776]), refused(2, 0));
    for (byte, number) in [(0, 3), (1, 3), (2, 4), (3, 4), (4, 4), (5, 4), (6, 3), (7, 3)] {
        let mut bytes = good.clone();
        bytes[8 + byte] ^= 2;
        assert_eq!(checked(&bytes), refused(number, 0), "trailer byte {byte}");
    }
}

#[test]
fn refusals_of_cells() {
    let number = [17, 0, 0, 1, 0];
    let int = [1, 0, 0, 0, 0];
    // 5, also in a cell that the root does not reach; kinds just past the ranges.
    for kind in [0, 6, 15, 28, 255] {
        assert_eq!(checked(&book(&[number, [kind, 0, 0, 0, 0]], 0)), refused(5, 1));
    }
    // 6: a label or a field where none is named.
    for cell in [[1, 1, 0, 0, 0], [17, 0, 1, 0, 0], [18, 0, 0, 0, 1], [16, 0, 0, 1, 0], [24, 3, 0, 0, 9], [22, 3, 0, 0, 0]] {
        assert_eq!(checked(&book(&[number, cell], 0)), refused(6, 1), "{cell:?}");
    }
    // 7 before 8, and cell by cell.
    assert_eq!(checked(&book(&[int, [22, 0, 0, 1, 0]], 1)), refused(7, 1));
    assert_eq!(checked(&book(&[int, [22, 0, 0, 0, 0], [0, 0, 0, 0, 0]], 1)), refused(8, 1));
    assert_eq!(checked(&book(&[number, [3, 0, 0, 0, 0]], 0)), refused(8, 1));
    // A variable's a is no reference.
    assert_eq!(checked(&book(&[number, [16, 0, 500, 0, 0]], 0)), Answer::Accepted { size: 1 });
    // 9.
    assert_eq!(checked(&book(&[number, int], 1)), refused(9, 1));
}

/// Document 01: types are the kinds 1 to 5, terms 16 to 25; "Kinds 21 and 23 bind one variable in a." Document 02 (ii) adds 26 and 27.
#[test]
fn the_table_has_the_kinds_of_the_documents() {
    assert_eq!(TABLE.iter().map(|row| row.kind).collect::<Vec<_>>(), (1..=5).chain(16..=27).collect::<Vec<_>>());
    for (row, kind) in TABLE.iter().zip((1..=5).chain(16..)) {
        assert_eq!((evaluator::row(kind), row.sort == Sort::Type), (Some(row), kind <= 5));
        assert_eq!(row.binders, u32::from([21, 23].contains(&kind)), "{}", row.meaning);
    }
}

#[test]
fn refusals_of_typing() {
    let at = |term: Term| checked(&encode_term(&term));
    assert_eq!(at(Term::variable(0)), refused(11, 0));
    assert_eq!(at(Term::function(Term::variable(1), int(), int())), refused(11, 0));
    // 12 before the right side is walked.
    assert_eq!(at(Term::application(number(1), Term::variable(0))), refused(12, 2));
    // 12 knows exactly Top.
    let tops = Term::merge(Term::top(), Term::top());
    assert_eq!(at(Term::application(tops, number(1))), refused(12, 4));
    assert_eq!(at(Term::projection(1, number(1))), refused(13, 1));
    assert_eq!(at(Term::projection(2, Term::record(1, Term::top()))), refused(13, 2));
    comes_to(Term::projection(2, Term::top()), Term::top(), 1);
    // 15 names the checked term.
    assert_eq!(at(Term::annotation(number(1), Type::record(1, int()))), refused(15, 0));
    assert_eq!(at(Term::function(Term::top(), int(), int())), refused(15, 0));
    assert_eq!(at(Term::application(identity(), Term::top())), refused(15, 4));
    // Variables of an outer binder make the inner functions open.
    let inner = Term::function(Term::variable(1), int(), int());
    assert_eq!(at(Term::function(Term::merge(inner.clone(), inner), int(), Type::top())), refused(14, 8));
}

#[test]
fn under_a_top_like_intersection_both_casts_are_merged() {
    let tops = Type::intersection(Type::top(), Type::top());
    comes_to(Term::annotation(number(1), tops), Term::merge(Term::top(), Term::top()), 1);
}

#[test]
fn functions_with_one_body_and_input_are_consistent() {
    let body = Term::merge(Term::variable(0), Term::record(1, number(2)));
    let one = Term::function(body.clone(), int(), int());
    let other = Term::function(body, int(), Type::record(1, int()));
    let both = Term::merge(Term::merge(one.clone(), other), one.clone());
    let as_int = Term::annotation(both, Type::function(int(), int()));
    comes_to(as_int, one, 1);
}

#[test]
fn an_untyped_merge_has_two_successors() {
    let both = Term::annotation(Term::merge(number(1), number(2)), int());
    assert_eq!(successors(&both), vec![number(1), number(2)]);
    let twice = Term::annotation(Term::merge(number(1), number(2)), Type::intersection(int(), int()));
    assert_eq!(successors(&twice).len(), 4);
    assert!(successors(&Term::merge(number(1), number(2))).is_empty());
}

#[test]
fn only_the_successors_size_decides_room() {
    // The argument's cast has more than 4,095 cells, for it repeats a large body nine times; the function does not use it.
    let large = (0..1_000).fold(Term::variable(0), |content, i| Term::projection(i as u8, content));
    let argument = Term::function(large, Type::top(), Type::top());
    let argument = Term::function(Term::application(argument, Term::top()), int(), Type::top());
    let argument = Term::function(Term::merge(number(7), argument), int(), int());
    let input = (0..8).fold(Type::function(int(), int()), |t, _| Type::intersection(t, Type::function(int(), int())));
    let used = Term::function(Term::variable(0), input.clone(), input.clone());
    let ignored = Term::function(number(7), input, int());
    comes_to(Term::application(ignored, argument.clone()), number(7), 2);
    let used = Term::application(used, argument);
    assert_eq!(ran(&encode_term(&used), 5).0, Answer::Room { steps: 0, mark: used.size() });
}
