//! Document 02, (ix): "A sheet is a book whose opened root has no variable, function, fixpoint or choice. Without running it, say how many steps
//! it takes: its count of annotations, applications, field reads and sums, with sharing opened."

use evaluator::{
    check, encode_term, kind, on_large_stack, run, sheet, successors, Answer, Cell, Term, Type, Version, CELL, TABLE, WORK,
};
use Version::{One, Two};

/// What the work buffer holds before a call.
const WORKED: u8 = 0x55;

fn number(n: i64) -> Term {
    Term::number(n)
}

fn int() -> Type {
    Type::int()
}

fn top() -> Term {
    Term::top()
}

fn as_int(e: Term) -> Term {
    Term::annotation(e, int())
}

fn to_top() -> Type {
    Type::function(int(), Type::top())
}

fn function(body: Term) -> Term {
    Term::function(body, int(), int())
}

/// What the sheet call says, and leaves.
fn asked(book: &[u8]) -> (Answer, Vec<u8>) {
    let mut work = vec![WORKED; WORK];
    (sheet(book, &mut work), work)
}

fn says(book: &[u8]) -> Answer {
    asked(book).0
}

/// The same of the term's book in both versions.
fn said(term: &Term) -> Answer {
    let [one, two] = Version::ALL.map(|version| says(&encode_term(term, version)));
    assert_eq!(one, two, "{term}");
    one
}

fn accepted(size: usize, steps: u32) -> Answer {
    Answer::Sheet { size, steps }
}

fn refused(number: u8, cell: usize) -> Answer {
    Answer::Refused { number, cell }
}

/// Cells with this root.
fn book_in(version: Version, cells: &[Cell], root: u16) -> Vec<u8> {
    cells.iter().chain([&Cell::trailer(cells.len() as u16, root, version)]).flat_map(|cell| cell.bytes()).collect()
}

fn book(cells: &[Cell], root: u16) -> Vec<u8> {
    book_in(One, cells, root)
}

const INT: Cell = Cell::new(kind::INT, 0, [0; 3]);
const TOP: Cell = Cell::new(kind::TOP_VALUE, 0, [0; 3]);
const VARIABLE: Cell = Cell::new(kind::VARIABLE, 0, [0; 3]);

/// The last of these cells, then so many cells of this kind, each of the one before with itself.
fn doubled(version: Version, first: &[Cell], kind: u8, times: u16) -> Vec<u8> {
    let from = first.len() as u16 - 1;
    let doubles = (from..from + times).map(|n| Cell::new(kind, 0, [n, n, 0]));
    book_in(version, &first.iter().copied().chain(doubles).collect::<Vec<_>>(), from + times)
}

/// The number 1 annotated with Int, then so many sums of a cell with itself.
fn doubled_sums(version: Version, times: u16) -> Vec<u8> {
    doubled(version, &[INT, Cell::number(1, version), Cell::new(kind::ANNOTATION, 0, [1, 0, 0])], kind::SUM, times)
}

fn field(label: u8, content: Term) -> Term {
    Term::record(label, content)
}

/// Sheets, with the size of the type and the count.
fn sheets() -> Vec<(Term, usize, u32)> {
    let read = |label, one, other| Term::projection(label, Term::merge(one, other));
    let both = Type::intersection(int(), int());
    let shown = Type::intersection(int(), Type::record(1, to_top()));
    let many = Term::merge(as_int(number(1)), field(1, Term::annotation(top(), to_top())));
    vec![
        (number(1), 1, 0),
        (as_int(number(1)), 1, 1),
        (as_int(Term::annotation(number(1), both.clone())), 1, 2),
        (Term::annotation(number(1), both), 3, 1),
        (Term::application(top(), number(3)), 1, 1),
        (Term::application(Term::annotation(top(), to_top()), as_int(number(3))), 1, 3),
        (Term::sum(number(1), Term::sum(number(2), number(3))), 1, 2),
        (read(1, field(1, as_int(number(1))), field(2, number(2))), 1, 2),
        // Values, and what is none within them.
        (top(), 1, 0),
        (field(7, Term::merge(number(1), number(1))), 4, 0),
        (field(7, Term::sum(number(1), number(1))), 2, 1),
        // What is thrown away takes its steps first.
        (Term::annotation(field(7, Term::sum(as_int(number(1)), number(1))), Type::top()), 1, 3),
        (Term::application(Term::application(top(), as_int(number(1))), as_int(number(2))), 1, 4),
        (read(9, Term::projection(3, top()), as_int(number(1))), 1, 3),
        // The reading of a merge in a sum is no step of its own; one record of the label stands deeper.
        (Term::sum(Term::merge(number(1), field(7, number(5))), Term::merge(field(7, top()), number(2))), 1, 1),
        (read(1, Term::merge(number(3), field(1, number(4))), Term::merge(top(), field(2, number(5)))), 1, 1),
        (Term::annotation(many.clone(), shown), 6, 3),
        (Term::projection(1, Term::projection(2, field(2, Term::merge(field(1, many), top())))), 6, 4),
    ]
}

/// What is no sheet: plain, hidden under Top, and in an argument.
fn others() -> Vec<Term> {
    let variable = Term::variable;
    let plain = [
        function(variable(0)),
        function(number(1)),
        Term::application(number(1), function(variable(3))),
        Term::choice(number(1), number(1), number(1)),
        variable(0),
        Term::fixpoint(number(1), int()),
        Term::fixpoint(variable(0), int()),
    ];
    let hidden = plain.clone().map(|e| Term::annotation(Term::merge(top(), field(3, e)), Type::top()));
    let argument = plain.clone().map(|e| Term::application(top(), Term::sum(number(1), e)));
    [plain, hidden, argument].concat()
}

#[test]
fn sheets_are_accepted_with_their_count() {
    for (term, size, steps) in sheets() {
        assert_eq!(said(&term), accepted(size, steps), "{term}");
    }
}

/// "It names the root", which is the last cell here, whatever typing would say.
#[test]
fn other_books_are_no_sheets() {
    for term in others() {
        assert_eq!(said(&term), refused(17, term.size() as usize - 1), "{term}");
    }
    let cells = [VARIABLE, TOP, Cell::new(kind::MERGE, 0, [0, 1, 0]), TOP, INT];
    assert_eq!(
        [0, 1, 2, 3, 4].map(|root| says(&book(&cells, root))),
        [refused(17, 0), accepted(1, 0), refused(17, 2), accepted(1, 0), refused(9, 4)]
    );
}

#[test]
fn ill_typed_sheets_get_their_own_refusal() {
    for (term, answer) in [
        (Term::application(number(1), number(1)), refused(12, 2)),
        (Term::merge(number(1), number(2)), refused(14, 2)),
        (Term::projection(1, number(1)), refused(13, 1)),
        (Term::sum(number(1), top()), refused(15, 1)),
        (Term::annotation(as_int(top()), Type::top()), refused(15, 0)),
    ] {
        assert_eq!(said(&term), answer, "{term}");
        assert_eq!(check(&encode_term(&term, One), &mut vec![0; WORK]), answer, "{term}");
    }
}

/// "With sharing opened": 512 annotations and 511 sums in 12 cells.
#[test]
fn a_shared_cell_counts_at_each_place() {
    for version in Version::ALL {
        let book = doubled_sums(version, 9);
        assert_eq!((book.len() / CELL - 1, says(&book)), (12, accepted(1, 1_023)));
        let steps = |limit| run(&book, &mut vec![0; WORK], limit).ran().map(|(steps, _)| steps);
        assert_eq!([1_022, 1_023, 1_024].map(steps), [Some(1_022), Some(1_023), Some(1_023)]);
        // Applications, of the top value to itself; and the most sums that have room.
        assert_eq!(says(&doubled(version, &[TOP], kind::APPLICATION, 11)), accepted(1, 2_047));
        assert_eq!(says(&doubled(version, &[Cell::number(1, version)], kind::SUM, 11)), accepted(1, 2_047));
        assert_eq!(says(&doubled(version, &[TOP], kind::MERGE, 11)), accepted(4_095, 0));
    }
}

/// "Tested after 10": also of what is no sheet, and however large it is.
#[test]
fn what_is_too_large_gets_10() {
    for (first, kind) in [(TOP, kind::MERGE), (VARIABLE, kind::MERGE), (VARIABLE, kind::SUM), (TOP, kind::APPLICATION)] {
        for times in [12, 40, 4_000] {
            assert_eq!(says(&doubled(One, &[first], kind, times)), refused(10, usize::from(times)));
        }
    }
    assert_eq!(says(&doubled(One, &[VARIABLE], kind::MERGE, 11)), refused(17, 11));
}

/// Cells that the root does not reach do not matter, before it and behind it; types are no terms.
#[test]
fn only_terms_that_the_root_reaches_matter() {
    let unreached = [
        VARIABLE,
        Cell::new(kind::FUNCTION, 0, [1, 0, 0]),
        Cell::new(kind::FIXPOINT, 0, [1, 0, 0]),
        Cell::new(kind::CHOICE, 0, [1; 3]),
        Cell::new(kind::SUM, 0, [1, 1, 0]),
    ];
    for (version, cell) in Version::ALL.into_iter().flat_map(|version| unreached.map(|cell| (version, cell))) {
        let one = Cell::number(1, version);
        let annotation = Cell::new(kind::ANNOTATION, 0, [1, 0, 0]);
        assert_eq!(says(&book_in(version, &[INT, one, cell, annotation], 3)), accepted(1, 1));
        assert_eq!(says(&book_in(version, &[INT, one, annotation, cell], 2)), accepted(1, 1));
    }
    let by = Type::intersection(Type::function(to_top(), Type::top()), Type::record(1, to_top()));
    assert_eq!(said(&Term::annotation(top(), by)), accepted(10, 1));
}

/// Around a sheet, one more of each kind: it counts, or not, or what has it is no sheet.
#[test]
fn every_kind_of_term() {
    let inside = as_int(number(1));
    let around = |kind| match kind {
        kind::VARIABLE => Term::merge(inside.clone(), Term::variable(0)),
        kind::NUMBER => Term::merge(inside.clone(), field(1, number(1))),
        kind::TOP_VALUE => Term::merge(inside.clone(), top()),
        kind::ANNOTATION => as_int(inside.clone()),
        kind::APPLICATION => Term::application(top(), inside.clone()),
        kind::FUNCTION => function(inside.clone()),
        kind::MERGE => Term::merge(inside.clone(), top()),
        kind::FIXPOINT => Term::fixpoint(inside.clone(), int()),
        kind::RECORD => field(1, inside.clone()),
        kind::PROJECTION => Term::projection(1, field(1, inside.clone())),
        kind::SUM => Term::sum(inside.clone(), number(2)),
        _ => Term::choice(inside.clone(), number(1), number(2)),
    };
    let more = |kind| match said(&around(kind)) {
        Answer::Sheet { steps, .. } => Some(steps - 1),
        answer => {
            assert!(matches!(answer, Answer::Refused { number: 17, .. }));
            None
        }
    };
    let terms: Vec<u8> = TABLE.iter().map(|row| row.kind).filter(|kind| *kind >= kind::VARIABLE).collect();
    let said: Vec<Option<u32>> = terms.iter().map(|kind| more(*kind)).collect();
    let [no, one, none] = [Some(0), Some(1), None];
    assert_eq!(said, [none, no, no, one, one, none, no, none, no, one, one, none]);
}

/// Each row comes before 17 that a check tests before the types.
#[test]
fn the_rows_before() {
    let right = encode_term(&function(Term::variable(0)), One);
    assert_eq!(says(&right), refused(17, 3));
    let changed = |at: usize, byte: u8| {
        let mut bytes = right.clone();
        bytes[at] = byte;
        says(&bytes)
    };
    assert_eq!(says(&right[..15]), refused(2, 0));
    assert_eq!([changed(32, 0), changed(33, 3), changed(34, 5)], [refused(3, 0), refused(3, 0), refused(4, 0)]);
    assert_eq!(
        [changed(24, 28), changed(1, 1), changed(26, 3), changed(26, 1)],
        [refused(5, 3), refused(6, 0), refused(7, 3), refused(8, 3)]
    );
    assert_eq!(changed(36, 2), refused(9, 2));
}

/// "Otherwise the call answers and leaves the work buffer as a check does."
#[test]
fn all_else_is_as_a_check() {
    let terms = sheets().into_iter().map(|(term, ..)| term);
    for (term, version) in terms.flat_map(|term| Version::ALL.map(|version| (term.clone(), version))) {
        let book = encode_term(&term, version);
        let (answer, left) = asked(&book);
        let mut work = vec![!WORKED; WORK];
        let Answer::Accepted { size } = check(&book, &mut work) else { panic!("{term} is refused") };
        assert!(matches!(answer, Answer::Sheet { size: other, .. } if other == size) && work == left, "{term}");
    }
}

/// "Refusal 1 touches nothing; all others zero the work buffer."
#[test]
fn what_a_refusal_leaves() {
    let mut books: Vec<Vec<u8>> = others().iter().map(|term| encode_term(term, Two)).collect();
    books.extend([Term::merge(number(1), number(2)), Term::projection(1, number(1))].map(|term| encode_term(&term, One)));
    books.extend([Vec::new(), book(&[INT], 0), doubled(One, &[VARIABLE], kind::MERGE, 12)]);
    for book in &books {
        let (answer, left) = asked(book);
        assert!(matches!(answer, Answer::Refused { number: 2.., .. }) && left == vec![0; WORK], "{answer:?}");
        for length in [0, 3, WORK - 1, WORK + 1] {
            let mut work = vec![WORKED; length];
            assert_eq!(sheet(book, &mut work), refused(1, 0));
            assert_eq!(work, vec![WORKED; length]);
        }
    }
}

/// What is promised of a run of an accepted sheet under this limit.
fn promised(steps: u32, limit: u32, answer: Answer) -> bool {
    match answer {
        Answer::Value { steps: taken, .. } => limit >= steps && taken == steps,
        Answer::Spent { steps: taken, .. } => limit < steps && taken == limit,
        _ => false,
    }
}

/// "An accepted sheet, given that many steps, reaches its value after precisely that many. Under no limit is it stopped for room."
#[test]
fn a_sheet_takes_its_count_of_steps() {
    on_large_stack(|| {
        let small = sheets().into_iter().flat_map(|(term, ..)| Version::ALL.map(|version| encode_term(&term, version)));
        let large = [doubled_sums(Two, 10), doubled(One, &[TOP], kind::APPLICATION, 11), encode_term(&deepest(), One)];
        for book in small.chain(large) {
            let Answer::Sheet { steps, .. } = says(&book) else { panic!("refused") };
            for limit in [0, 1, 2, steps / 2, steps.saturating_sub(1), steps, steps + 1, u32::MAX] {
                let answer = run(&book, &mut vec![0; WORK], limit);
                assert!(promised(steps, limit, answer), "{steps} steps, limit {limit}: {answer:?}");
            }
        }
    });
}

/// The most steps that a sheet can take: field reads of the top value, 4,095 cells in all.
fn deepest() -> Term {
    (0..4_094).fold(top(), |of, _| Term::projection(1, of))
}

#[test]
fn the_most_steps() {
    on_large_stack(|| assert_eq!(said(&deepest()), accepted(1, 4_094)));
}

/// Why it is so: a step of a sheet leads to a sheet with one less to take, and of fewer cells.
#[test]
fn each_step_leaves_a_smaller_sheet() {
    for (term, version) in sheets().into_iter().flat_map(|(term, ..)| Version::ALL.map(|version| (term.clone(), version))) {
        let mut term = term;
        while let Answer::Sheet { steps: steps @ 1.., .. } = says(&encode_term(&term, version)) {
            let next = successors(&term, version).pop().expect("a step to take");
            let after = says(&encode_term(&next, version));
            assert!(matches!(after, Answer::Sheet { steps: fewer, .. } if fewer + 1 == steps), "{term}: {after:?}");
            assert!(next.size() < term.size(), "{term}");
            term = next;
        }
        assert!(term.is_value(), "{term}");
    }
}
