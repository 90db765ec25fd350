//! The sheet call through the wrapper: which books are sheets, what is counted, every byte that is left, and that runs keep what the count promises.

#![cfg(not(library_missing))]

mod pages;

use cerealbank::{check, run, sheet, Answer, RunAnswer, SheetAnswer, WORK};
use compare::cells::{number_cell, zeroed, Cells};
use compare::extremes::times;
use compare::samples::{doubled, hidden_field, identity, own_fixpoint};
use evaluator::{decode, encode_term, kind, on_large_stack, Cell, Term, Type, Version, CELL};
use pages::blocks::{format, marked};
use pages::{asked, books_and, counted, cut, padded};

extern "C" {
    fn cerealbank_sheet(book: *const u8, book_len: usize, work: *mut u8, work_len: usize) -> u64;
}

/// The number that the library returns.
fn packed(book: &[u8], work: &mut [u8]) -> u64 {
    // SAFETY: both slices are valid for their lengths, the second is lent to be written, and the two do not overlap.
    unsafe { cerealbank_sheet(book.as_ptr(), book.len(), work.as_mut_ptr(), work.len()) }
}

/// A book, and what the sheet call says of it.
struct Case {
    name: String,
    book: Vec<u8>,
    said: String,
}

fn case(name: impl ToString, book: Vec<u8>, said: impl ToString) -> Case {
    Case { name: name.to_string(), book, said: said.to_string() }
}

/// The term laid down with nothing shared.
fn of_term(name: &str, term: Term, said: &str) -> Case {
    case(name, encode_term(&term, Version::One), said)
}

fn number(n: i64) -> Term {
    Term::number(n)
}

fn int() -> Type {
    Type::int()
}

fn top() -> Term {
    Term::top()
}

fn under_int(e: Term) -> Term {
    Term::annotation(e, int())
}

fn record(label: u8, e: Term) -> Term {
    Term::record(label, e)
}

/// What counts as a step, and what does not.
fn counted_kinds() -> Vec<Case> {
    let both = Type::intersection(int(), int());
    let to_top = Type::function(int(), Type::top());
    let fields = Term::merge(record(1, under_int(number(1))), record(2, number(2)));
    vec![
        of_term("a number", number(1), "accepted 1, steps 0"),
        of_term("the top value", top(), "accepted 1, steps 0"),
        of_term("a record", record(7, number(1)), "accepted 2, steps 0"),
        of_term("a merge", Term::merge(number(1), record(7, number(5))), "accepted 4, steps 0"),
        of_term("1 under Int", under_int(number(1)), "accepted 1, steps 1"),
        of_term("1 under Int and Int, then Int", under_int(Term::annotation(number(1), both)), "accepted 1, steps 2"),
        of_term("the top value applied", Term::application(top(), number(3)), "accepted 1, steps 1"),
        of_term(
            "a function type, and steps on both sides of an application",
            Term::application(Term::annotation(top(), to_top), under_int(number(3))),
            "accepted 1, steps 3",
        ),
        of_term("sums to the right", Term::sum(number(1), Term::sum(number(2), number(3))), "accepted 1, steps 2"),
        of_term("sums to the left", Term::sum(Term::sum(number(1), number(2)), number(3)), "accepted 1, steps 2"),
        of_term("a field of a merge", Term::projection(1, fields.clone()), "accepted 1, steps 2"),
        of_term("a field of the top value", Term::projection(1, top()), "accepted 1, steps 1"),
        of_term("steps in both halves", Term::merge(under_int(number(1)), fields), "accepted 7, steps 2"),
    ]
}

/// Number 1 under Int, and sums of a cell with itself, nine times: 12 cells.
fn doubled_sum() -> Vec<u8> {
    let sums = (2..11).map(|n| Cell::new(kind::SUM, 0, [n, n, 0]));
    let cells = [zeroed(kind::INT), number_cell(1), Cell::new(kind::ANNOTATION, 0, [1, 0, 0])].into_iter().chain(sums);
    Cells::to_last(cells.collect()).bytes()
}

/// Sharing, cells that the root does not reach, and the largest counts.
fn edges() -> Vec<Case> {
    let unreached = vec![Cell::new(kind::VARIABLE, 0, [7, 0, 0]), number_cell(4)];
    let function = Cell::new(kind::FUNCTION, 0, [1, 0, 0]);
    let behind = vec![zeroed(kind::INT), zeroed(kind::VARIABLE), number_cell(4), Cell::new(kind::CHOICE, 0, [2, 2, 2]), function];
    vec![
        case("12 cells that are shared", doubled_sum(), "accepted 1, steps 1023"),
        case("a variable that the root does not reach", Cells::new(unreached, 1).bytes(), "accepted 1, steps 0"),
        case("cells behind the root", Cells::new(behind.clone(), 2).bytes(), "accepted 1, steps 0"),
        case("a choice before the last cell", Cells::new(behind, 3).bytes(), "refused 17 3"),
        case("merges that are shared", doubled(zeroed(kind::TOP_VALUE), 11), "accepted 4095, steps 0"),
        of_term("4,094 field reads", times(4_094, top(), |e| Term::projection(8, e)), "accepted 1, steps 4094"),
        of_term("4,094 records", times(4_094, number(1), |e| record(8, e)), "accepted 4095, steps 0"),
        of_term("2,047 annotations", times(2_047, number(1), under_int), "accepted 1, steps 2047"),
        of_term("2,047 sums", times(2_047, number(1), |e| Term::sum(number(1), e)), "accepted 1, steps 2047"),
        of_term("2,047 applications", times(2_047, top(), |e| Term::application(e, top())), "accepted 1, steps 2047"),
    ]
}

/// A sheet that is refused is refused as a check refuses it; a book that is no sheet is refused before its types are looked at.
fn refused() -> Vec<Case> {
    let unbound = Term::function(Term::variable(3), int(), int());
    let unequal = Term::merge(number(1), number(2));
    vec![
        of_term("1 applied", Term::application(number(1), number(1)), "refused 12 2"),
        of_term("another field", Term::projection(8, record(7, number(5))), "refused 13 2"),
        of_term("unequal numbers", unequal.clone(), "refused 14 2"),
        of_term("the top value as a number", Term::sum(top(), number(1)), "refused 15 0"),
        of_term("the identity", identity(), "refused 17 3"),
        of_term("1 applied to a function", Term::application(number(1), unbound), "refused 17 5"),
        of_term("unequal numbers beside a function", Term::merge(unequal.clone(), identity()), "refused 17 7"),
        of_term("a choice", Term::choice(number(1), number(1), number(1)), "refused 17 3"),
        of_term("a choice with an ill-typed part", Term::choice(top(), unequal, number(1)), "refused 17 5"),
        of_term("a variable", Term::variable(0), "refused 17 0"),
        of_term("a fixpoint", own_fixpoint(), "refused 17 2"),
        of_term("the hidden field", hidden_field(), "refused 17 17"),
        case("a type", Cells::new(vec![zeroed(kind::INT)], 0).bytes(), "refused 9 0"),
        case("a variable, 12 times doubled", doubled(zeroed(kind::VARIABLE), 12), "refused 10 12"),
        case("a variable, 11 times doubled", doubled(zeroed(kind::VARIABLE), 11), "refused 17 11"),
        case("no book", Vec::new(), "refused 2 0"),
        case("an unknown kind behind a function", [encode_term(&identity(), Version::One), vec![0; 8]].concat(), "refused 3 0"),
    ]
}

/// What no sheet has, in every place that a term has, and far within: the root is named.
fn within() -> Vec<Case> {
    type Around = fn(Term) -> Term;
    let around: [(&str, Around); 10] = [
        ("under an annotation", |e| Term::annotation(e, Type::top())),
        ("applied", |e| Term::application(e, top())),
        ("as an argument", |e| Term::application(top(), e)),
        ("in a left half", |e| Term::merge(e, top())),
        ("in a right half", |e| Term::merge(top(), e)),
        ("in a record", |e| record(7, e)),
        ("read from", |e| Term::projection(7, e)),
        ("in a left side", |e| Term::sum(e, number(1))),
        ("in a right side", |e| Term::sum(number(1), e)),
        ("far within", |e| times(1_000, e, |e| Term::merge(record(7, e), top()))),
    ];
    let inside = [
        ("a variable", Term::variable(0)),
        ("a function without its variable", Term::function(number(1), int(), int())),
        ("a fixpoint without its variable", Term::fixpoint(number(1), int())),
        ("a choice", Term::choice(number(0), number(1), number(2))),
    ];
    let each = |(what, term): (&str, Term)| {
        around.map(|(place, around)| {
            let term = around(term.clone());
            case(format!("{what}, {place}"), encode_term(&term, Version::One), format!("refused 17 {}", term.size() - 1))
        })
    };
    inside.into_iter().flat_map(each).collect()
}

fn cases() -> Vec<Case> {
    [counted_kinds(), edges(), refused(), within()].into_iter().flatten().collect()
}

/// What a call leaves: a check's bytes, and zeros for a book that is no sheet.
fn left(book: &[u8], said: SheetAnswer) -> Vec<u8> {
    match said {
        SheetAnswer::Refused { number: 17, .. } => padded(&[]),
        _ => asked(|work| check(book, work)).1,
    }
}

/// The answer as one number of 64 bits.
fn in_bits(said: SheetAnswer) -> u64 {
    match said {
        SheetAnswer::Refused { number, cell } => u64::from(number) << 32 | u64::from(cell),
        SheetAnswer::Accepted { size, steps } => u64::from(steps) << 40 | 32 << 32 | u64::from(size),
        SheetAnswer::Unknown { packed } => panic!("{packed:#x} is no answer"),
    }
}

/// Whatever the work buffer held before.
#[test]
fn every_case_is_answered_and_leaves_what_it_should() {
    let (_, large) = asked(|work| run(&doubled(zeroed(kind::TOP_VALUE), 11), work, 0));
    let [zeros, ones, trailers] = [0, 0xFF, 0xF0].map(|byte| vec![byte; WORK]);
    for Case { name, book, said } in cases() {
        let said = counted(&said).expect("an answer");
        let left = left(&book, said);
        for mut work in [&zeros, &ones, &trailers, &large].map(Vec::clone) {
            assert_eq!(sheet(&book, &mut work), said, "{name}");
            assert!(work == left, "{name}: the work buffer");
            assert_eq!(packed(&book, &mut work), in_bits(said), "{name}");
        }
    }
    assert_eq!(asked(|work| packed(&doubled_sum(), work)).0, 0x0003_FF20_0000_0001);
}

/// 1 comes before all else, and touches nothing.
#[test]
fn a_work_buffer_of_another_length_is_refused_first() {
    for Case { name, book, .. } in cases() {
        for length in [0, 3, WORK - 1, WORK + 1] {
            let mut work = vec![9; length];
            assert_eq!(packed(&book, &mut work), 1 << 32, "{name}, {length} bytes");
            assert!(work.iter().all(|&byte| byte == 9), "{name}, {length} bytes");
        }
    }
}

/// The cases, the sheets of FORMAT.md and many others, in both versions.
fn books() -> Vec<Vec<u8>> {
    let (page, sections) = format();
    let pages = [page].into_iter().chain(sections.into_iter().map(|(_, section)| section));
    let shown = pages.flat_map(|page| marked("sheet", &page)).map(|block| block.book);
    books_and(cases().into_iter().map(|case| case.book).chain(shown))
}

/// The cell that a book's trailer names for its root.
fn root(book: &[u8]) -> u32 {
    let trailer = &book[book.len() - CELL..];
    u16::from_le_bytes([trailer[4], trailer[5]]).into()
}

/// What the sheet call has to say, by document 02's words: with nothing shared the kinds of the root's cells tell.
fn by_its_words(book: &[u8]) -> SheetAnswer {
    let checked = asked(|work| check(book, work)).0;
    let opened = on_large_stack(|| decode(book).map(|(term, version)| encode_term(&term, version)).unwrap_or_default());
    let has = |kinds: &[u8]| opened.chunks(CELL).filter(|cell| kinds.contains(&cell[0])).count();
    if has(&[kind::VARIABLE, kind::FUNCTION, kind::FIXPOINT, kind::CHOICE]) > 0 {
        return SheetAnswer::Refused { number: 17, cell: root(book) };
    }
    match checked {
        Answer::Refused { number, cell } => SheetAnswer::Refused { number, cell },
        Answer::Accepted { size } => {
            let steps = has(&[kind::ANNOTATION, kind::APPLICATION, kind::PROJECTION, kind::SUM]) as u32;
            SheetAnswer::Accepted { size, steps }
        }
        Answer::Unknown { packed } => panic!("{packed:#x} is no answer"),
    }
}

/// Of many books each answer is met often: sheets of no steps and of several, those that are refused, and books that are none.
#[test]
fn every_book_is_answered_by_the_words_of_the_request() {
    let mut met = [0; 5];
    for book in books() {
        let said = by_its_words(&book);
        assert_eq!(asked(|work| sheet(&book, work)), (said, left(&book, said)), "{book:?}");
        met[match said {
            SheetAnswer::Accepted { steps: 0, .. } => 0,
            SheetAnswer::Accepted { .. } => 1,
            SheetAnswer::Refused { number: 17, .. } => 2,
            SheetAnswer::Refused { number: 11.., .. } => 3,
            _ => 4,
        }] += 1;
    }
    assert!(met.iter().all(|&count| count >= 20), "{met:?}");
}

/// The accepted sheets among many books, each with its count.
fn sheets() -> Vec<(Vec<u8>, u32)> {
    let steps = |book: &[u8]| match asked(|work| sheet(book, work)).0 {
        SheetAnswer::Accepted { steps, .. } => Some(steps),
        _ => None,
    };
    let sheets: Vec<(Vec<u8>, u32)> = books().into_iter().filter_map(|book| steps(&book).map(|steps| (book, steps))).collect();
    assert!(sheets.len() > 100, "{}", sheets.len());
    sheets
}

/// With the count for a limit, or more, a run says value after precisely that many steps; with less it is spent at its limit. It is never stopped for
/// room.
#[test]
fn an_accepted_sheet_takes_as_many_steps_as_are_counted() {
    for (book, count) in sheets() {
        for limit in [count, count + 1, 10_000, u32::MAX] {
            let ran = asked(|work| run(&book, work, limit)).0;
            assert!(matches!(ran, RunAnswer::Value { steps, .. } if steps == count), "{count}, limit {limit}: {ran:?}");
        }
        for limit in [0, 1, count / 2, count.saturating_sub(1)].into_iter().filter(|limit| *limit < count) {
            let ran = asked(|work| run(&book, work, limit)).0;
            assert!(matches!(ran, RunAnswer::Spent { steps, .. } if steps == limit), "{count}, limit {limit}: {ran:?}");
        }
    }
}

/// What a run leaves of a sheet is a sheet of as many steps fewer as it has taken, and smaller.
#[test]
fn every_term_that_a_sheet_reaches_is_a_sheet() {
    for (book, count) in sheets() {
        let mut before = usize::MAX;
        for limit in (0..=count).filter(|limit| *limit < 6 || count - limit < 3) {
            let reached = asked(|work| run(&book, work, limit)).1;
            let reached = cut(&reached);
            let left = asked(|work| sheet(reached, work)).0;
            assert!(matches!(left, SheetAnswer::Accepted { steps, .. } if steps == count - limit), "{limit} of {count}: {left:?}");
            assert!(reached.len() < before, "{limit} of {count}: a step makes a sheet smaller");
            before = reached.len();
        }
    }
}
