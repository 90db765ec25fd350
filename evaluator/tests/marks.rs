//! Document 02, (viii): "The state of a run carries the greatest size of any term so far, the first included, and each run answer reports it.
//! The mark equals the maximum over the terms that the run reaches in the calculus, not over the buffer; a successor that found no room is not
//! counted."

mod sizes;

use evaluator::{check, desk, encode_term, on_large_stack, run, Answer, Cell, Term, Type, Version, CELL, TRAILER, WORK};
use sizes::greatest;
use Version::{One, Two};

fn number(n: i64) -> Term {
    Term::number(n)
}

fn variable(skipped: u16) -> Term {
    Term::variable(skipped)
}

fn int() -> Type {
    Type::int()
}

fn identity() -> Term {
    Term::function(variable(0), int(), int())
}

fn to_int() -> Type {
    Type::function(int(), int())
}

/// What a run says, and how many cells the term has that it leaves.
fn ran(book: &[u8], limit: u32) -> (Answer, u64) {
    let mut work = vec![7; WORK];
    let answer = run(book, &mut work, limit);
    let size = work.chunks(CELL).take_while(|cell| cell[0] != TRAILER).count();
    (answer, size as u64)
}

fn says(term: &Term, limit: u32) -> Answer {
    ran(&encode_term(term, One), limit).0
}

fn value(steps: u32, mark: u64) -> Answer {
    Answer::Value { steps, mark }
}

fn spent(steps: u32, mark: u64) -> Answer {
    Answer::Spent { steps, mark }
}

fn room(steps: u32, mark: u64) -> Answer {
    Answer::Room { steps, mark }
}

fn mark(answer: Answer) -> u64 {
    answer.ran().expect("a run that is not refused").1
}

fn own_fixpoint() -> Term {
    Term::fixpoint(variable(0), int())
}

/// The fixpoint of a choice: it grows by a step of it and shrinks by the next.
fn chosen_fixpoint() -> Term {
    Term::fixpoint(Term::choice(number(0), variable(0), number(1)), int())
}

/// A function that puts its argument in three fields, of which its output shows one, applied to 1.
fn three_fields() -> Term {
    let field = |label| Term::record(label, variable(0));
    let body = Term::merge(field(1), Term::merge(field(2), field(3)));
    let input = Type::intersection(int(), Type::intersection(int(), int()));
    Term::application(Term::function(body, input, Type::record(1, int())), number(1))
}

/// All numbers from this one down to zero added up.
fn triangular(of: i64) -> Term {
    let rest = Term::application(variable(1), Term::sum(variable(0), number(-1)));
    let body = Term::choice(variable(0), number(0), Term::sum(variable(0), rest));
    Term::application(Term::fixpoint(Term::function(body, int(), int()), to_int()), number(of))
}

fn hidden_field() -> Term {
    let merge = Term::merge(Term::record(1, number(2)), variable(0));
    let body = Term::projection(1, Term::annotation(merge, Type::record(1, int())));
    let function = Term::function(body, Type::record(2, int()), int());
    Term::application(function, Term::merge(Term::record(1, number(1)), Term::record(2, number(9))))
}

/// A function from Int to Int of so many cells, at least 6.
fn weight(cells: u64) -> Term {
    let long = (6..cells).fold(Term::top(), |of, _| Term::projection(3, of));
    Term::function(Term::merge(number(1), long), int(), int())
}

/// A function of so many cells read as two: first 8 cells more, then one more than twice as many.
fn read_twice(cells: u64) -> Term {
    Term::annotation(weight(cells), Type::intersection(to_int(), to_int()))
}

#[test]
fn the_fixpoint_at_int() {
    for (limit, answer) in [
        (0, spent(0, 3)),
        (1, spent(1, 5)),
        (5, spent(5, 13)),
        (2_045, spent(2_045, 4_093)),
        (2_046, spent(2_046, 4_095)),
        (2_047, room(2_046, 4_095)),
        (u32::MAX, room(2_046, 4_095)),
    ] {
        assert_eq!(says(&own_fixpoint(), limit), answer, "limit {limit}");
    }
}

/// "So far": the term of limit 2 has 10 cells, the one before it 11.
#[test]
fn a_term_that_shrinks_keeps_its_mark() {
    let book = encode_term(&chosen_fixpoint(), One);
    let expected = [(6, 6), (11, 11), (10, 11), (15, 15), (14, 15)];
    for (limit, (size, mark)) in (0..).zip(expected) {
        assert_eq!(ran(&book, limit), (spent(limit, mark), size), "limit {limit}");
    }
}

/// The largest term is neither the first nor the last.
#[test]
fn the_largest_term_in_the_middle() {
    for (limit, answer) in [(0, spent(0, 18)), (1, spent(1, 23)), (2, value(2, 23)), (3, value(2, 23)), (u32::MAX, value(2, 23))] {
        assert_eq!(says(&three_fields(), limit), answer, "limit {limit}");
    }
    assert_eq!(ran(&encode_term(&three_fields(), One), 2).1, 2);
}

#[test]
fn the_triangular_number_of_4() {
    assert_eq!(says(&triangular(4), u32::MAX), value(38, 61));
    assert_eq!(says(&triangular(4), 38), value(38, 61));
}

#[test]
fn the_samples() {
    let both = Type::intersection(int(), int());
    for (term, answer) in [
        (Term::merge(number(1), number(1)), value(0, 3)),
        (Term::annotation(Term::annotation(number(1), both), int()), value(2, 7)),
        (Term::application(identity(), Term::merge(number(1), Term::record(7, number(5)))), value(2, 9)),
        (Term::annotation(identity(), Type::function(int(), Type::top())), value(1, 8)),
        (Term::application(Term::top(), number(3)), value(1, 3)),
        (hidden_field(), value(4, 18)),
    ] {
        assert_eq!(says(&term, 10_000), answer, "{term}");
    }
    assert_eq!([0, 1].map(|limit| says(&own_fixpoint(), limit)), [spent(0, 3), spent(1, 5)]);
}

/// A refused book has no mark, whatever the limit: a run says of it what a check says.
#[test]
fn refused_books() {
    let refused = |number, cell| Answer::Refused { number, cell };
    let one = encode_term(&number(1), One);
    for (book, answer) in [
        (one[..8].to_vec(), refused(2, 0)),
        (encode_term(&Term::merge(number(1), number(2)), One), refused(14, 2)),
        (encode_term(&Term::application(number(3), number(4)), Two), refused(12, 2)),
        (doubled(12), refused(10, 12)),
    ] {
        assert_eq!(check(&book, &mut vec![7; WORK]), answer);
        for limit in [0, 1, u32::MAX] {
            assert_eq!(ran(&book, limit).0, answer);
        }
    }
    for limit in [0, 9] {
        assert_eq!(run(&one, &mut [7; 5], limit), refused(1, 0));
    }
}

const TOP: Cell = Cell::new(18, 0, [0; 3]);

/// Cells with this root.
fn book(cells: &[Cell], root: u16) -> Vec<u8> {
    cells.iter().chain([&Cell::trailer(cells.len() as u16, root, One)]).flat_map(|cell| cell.bytes()).collect()
}

/// The top value merged with itself so many times over by sharing.
fn doubled(times: u16) -> Vec<u8> {
    let merges = (0..times).map(|n| Cell::new(22, 0, [n, n, 0]));
    book(&[TOP].into_iter().chain(merges).collect::<Vec<_>>(), times)
}

/// "The first included", with sharing opened, and no cell counted that the root does not reach.
#[test]
fn limit_0_has_the_size_of_the_root() {
    assert_eq!(ran(&doubled(11), 0), (value(0, 4_095), 4_095));
    assert_eq!(ran(&doubled(3), 0), (value(0, 15), 15));
    assert_eq!(ran(&book(&[TOP; 4_095], 4_094), 0), (value(0, 1), 1));
    // A type that is shared, in a term with one step to take.
    let types = [Cell::new(1, 0, [0; 3]), Cell::new(4, 0, [0, 0, 0]), Cell::new(4, 0, [1, 1, 0])];
    let cells = [&types[..], &[Cell::number(1, One), Cell::new(19, 0, [3, 2, 0]), TOP]].concat();
    assert_eq!([0, 1].map(|limit| ran(&book(&cells, 4), limit)), [(spent(0, 9), 9), (value(1, 9), 7)]);
    for term in [own_fixpoint(), chosen_fixpoint(), three_fields(), triangular(9), hidden_field(), weight(4_095)] {
        assert_eq!(mark(says(&term, 0)), term.size(), "{term}");
    }
}

/// Terms that grow and shrink, of both versions and of all stops.
fn terms() -> Vec<Term> {
    let copied = |e: Term| {
        let both = Term::merge(Term::record(1, variable(0)), Term::record(2, variable(0)));
        let read = Term::projection(1, both);
        Term::application(Term::function(read, to_int(), to_int()), e)
    };
    vec![
        own_fixpoint(),
        chosen_fixpoint(),
        three_fields(),
        triangular(3),
        hidden_field(),
        read_twice(20),
        Term::record(1, copied(copied(copied(weight(30))))),
        Term::merge(Term::top(), Term::sum(number(4), Term::annotation(number(3), int()))),
        Term::choice(number(1), Term::application(weight(90), number(1)), Term::sum(number(2), number(3))),
        Term::application(copied(weight(12)), Term::annotation(Term::merge(number(3), Term::record(1, number(1))), int())),
    ]
}

/// The mark under a limit is the greatest count of cells that any limit up to it leaves.
#[test]
fn the_mark_is_the_maximum_over_the_limits() {
    for (term, version) in terms().into_iter().flat_map(|term| [(term.clone(), One), (term, Two)]) {
        let book = encode_term(&term, version);
        let mut so_far = 0;
        for limit in 0..60 {
            let (answer, size) = ran(&book, limit);
            so_far = size.max(so_far);
            assert_eq!((mark(answer), greatest(&term, version, limit)), (so_far, so_far), "{term}, limit {limit}");
        }
    }
}

/// The term at the limit counts, the next one does not.
#[test]
fn one_step_before_and_beyond() {
    let term = Term::annotation(Term::annotation(read_twice(20), to_int()), to_int());
    assert_eq!((term.size(), read_twice(20).size()), (36, 28));
    // The first step makes two functions of 20 cells each, within two annotations.
    let answers = [0, 1, 2, 3].map(|limit| says(&term, limit));
    assert_eq!(answers, [spent(0, 36), spent(1, 49), spent(2, 49), value(3, 49)]);
    // The largest is the value itself.
    assert_eq!([0, 1].map(|limit| says(&read_twice(20), limit)), [spent(0, 28), value(1, 41)]);
}

/// "A successor that found no room is not counted": of 4,096 cells, of one more, of very many. One of 4,095 is.
#[test]
fn no_room_at_every_size() {
    on_large_stack(|| {
        let in_field = |cells: u64| Term::record(9, read_twice(cells));
        for (term, answer) in [
            (in_field(2_046), value(1, 4_094)),
            (read_twice(2_047), value(1, 4_095)),
            (in_field(2_047), room(0, 2_056)),
            (read_twice(2_048), room(0, 2_056)),
            (Term::record(9, in_field(2_047)), room(0, 2_057)),
            (read_twice(4_087), room(0, 4_095)),
        ] {
            assert_eq!(says(&term, 7), answer, "{}", term.size());
            assert_eq!(says(&term, 0), spent(0, term.size()), "{}", term.size());
        }
        // Larger before than where there is no room: the first part becomes the top value, then the other has no room.
        let shrinking = Term::merge(Term::annotation(weight(900), Type::top()), read_twice(2_100));
        assert_eq!(ran(&encode_term(&shrinking, One), u32::MAX), (room(1, 3_011), 2_110));
    });
}

/// What a spent run leaves, run further, has the rest of the mark: the larger of the two is that of the whole.
#[test]
fn a_run_in_two_parts() {
    for term in terms() {
        let bytes = encode_term(&term, One);
        for (lower, higher) in (0..8).flat_map(|lower| (lower..12).map(move |higher| (lower, higher))) {
            let mut work = vec![0; WORK];
            let Answer::Spent { mark: before, .. } = run(&bytes, &mut work, lower) else { continue };
            let cells = work.chunks(CELL).take_while(|cell| cell[0] != TRAILER).count();
            let (rest, _) = ran(&work[..(cells + 1) * CELL], higher - lower);
            assert_eq!(mark(ran(&bytes, higher).0), before.max(mark(rest)), "{term}, limits {lower} and {higher}");
        }
    }
}

/// "The desk program's lines are compared as before": there is no mark in them.
#[test]
fn the_desk_prints_no_mark() {
    assert_eq!(desk(&encode_term(&three_fields(), One)), "accepted 2\nvalue 2\n0 17 0 0 1 0\n1 24 1 0 0 0\n");
    assert_eq!(desk(&encode_term(&triangular(4), One)), "accepted 1\nvalue 38\n0 17 0 0 10 0\n");
    assert!(desk(&encode_term(&own_fixpoint(), One)).starts_with("accepted 1\nroom 2046\n0 16 0 0 0 0\n1 1 0 0 0 0\n"));
}
