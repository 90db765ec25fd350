//! Books whose terms grow and shrink, for document 02, (viii): "Heavy books surprise us." The largest term comes first, last or between, and has
//! any size up to 4,095; or its successor has a few cells more, or very many.

use crate::cells::{encode, zeroed, Cells, Sharing};
use crate::contexts::{within_many, Typed};
use crate::extremes::{left, number, times};
use crate::families::one_book_in;
use crate::loops::{countdown, fibonacci};
use crate::random::Random;
use crate::refusals::by_turns;
use evaluator::{kind, Term, Type, Version, SIZE_LIMIT};

fn int() -> Type {
    Type::int()
}

fn to_int() -> Type {
    Type::function(int(), int())
}

/// A value of type Top, or like it, of so many cells: in a book that shares all it can, of few.
fn padding(cells: u64) -> Term {
    match cells {
        1 => Term::top(),
        _ if cells.is_multiple_of(2) => Term::record(3, padding(cells - 1)),
        _ => {
            let half = padding((cells - 1) / 2);
            Term::merge(half.clone(), half)
        }
    }
}

/// A function from Int to Int of so many cells, at least 6.
pub fn weight(cells: u64) -> Term {
    Term::function(Term::merge(number(1), padding(cells - 5)), int(), int())
}

/// A type of so many cells that is above Int.
fn type_of(cells: u64) -> Type {
    match cells {
        1 => int(),
        2 => Type::record(3, Type::top()),
        _ => Type::intersection(int(), type_of(cells - 2)),
    }
}

/// So many fields with the argument in each, of which the first is read: the term grows, and then shrinks to the argument.
fn copied(argument: Term, copies: usize) -> Term {
    let fields = (0..copies).map(|place| Term::record(place as u8, Term::variable(0)));
    let read = Term::projection(0, fields.reduce(Term::merge).expect("a field"));
    Term::application(Term::function(read, to_int(), to_int()), argument)
}

/// The argument copied into the branches of a choice: what steps at the largest term is the choice.
fn chosen(argument: Term, tested: i32) -> Term {
    let applied = |n| Term::application(Term::variable(0), number(n));
    let body = Term::choice(number(tested), Term::sum(applied(1), applied(2)), Term::sum(applied(3), number(4)));
    Term::application(Term::function(body, to_int(), int()), argument)
}

/// A function read as so many, merged.
fn read_as(function: Term, count: usize) -> Term {
    Term::annotation(function, left(&to_int(), count))
}

/// Largest at first: all of it but one cell goes by one step.
fn falling(cells: u64) -> [Term; 3] {
    let field = |label, content| Term::record(label, content);
    let read = Term::projection(1, Term::merge(field(1, number(1)), field(2, weight(cells - 5))));
    [read, Term::annotation(weight(cells - 2), Type::top()), Term::application(Term::top(), weight(cells - 2))]
}

/// Largest at last, with so many cells, of which few stand around it: a function read as several, a fixpoint of a wide type that comes to it.
fn rising(cells: u64, count: usize) -> Term {
    let merges = count as u64 - 1;
    let (one, around) = ((cells - merges) / count as u64, (cells - merges) % count as u64);
    times(around as usize, read_as(weight(one), count), |e| Term::record(9, e))
}

/// Largest in the middle, with so many cells: a function copied, and read from the first of its fields.
fn peak(cells: u64, copies: usize) -> Term {
    // The fields and their merges, the read, and the annotation that the output becomes.
    let own = 2 * copies as u64 - 1 + 1 + 4;
    let (one, around) = ((cells - own) / copies as u64, (cells - own) % copies as u64);
    times(around as usize, copied(weight(one), copies), |e| Term::record(9, e))
}

/// A fixpoint that grows by this many cells a step, until the last term that has room has so many.
fn climbing(cells: u64, pace: u64) -> Term {
    let first = pace + 1;
    let around = (cells - first) % pace;
    times(around as usize, Term::fixpoint(Term::variable(0), type_of(pace - 1)), |e| Term::record(9, e))
}

/// Grows by the first part, and has no room for the second once the first has gone again; or the other way about.
fn first_and_second() -> Vec<Term> {
    let top = |e: Term| Term::annotation(e, Type::top());
    let mut terms = Vec::new();
    for (one, other) in [(900, 2_100), (40, 2_040), (1_000, 300), (10, 2_048), (1_500, 2_500)] {
        terms.push(Term::merge(top(weight(one)), read_as(weight(other), 2)));
        terms.push(Term::merge(top(read_as(weight(one), 2)), weight(other)));
        terms.push(Term::merge(top(copied(weight(one / 2), 2)), read_as(weight(other), 2)));
        terms.push(Term::application(copied(weight(one), 2), Term::sum(number(1), Term::application(weight(other), number(2)))));
    }
    terms
}

/// About the limit, and far from it.
const SIZES: [u64; 11] = [30, 31, 255, 256, 257, 1_000, 4_093, 4_094, 4_095, 4_096, 4_097];

/// The largest term has each of these sizes; where that is too much, the successor has it, and there is no room.
fn of_each_size() -> Vec<Term> {
    let mut terms = Vec::new();
    for cells in SIZES {
        terms.extend(falling(cells));
        terms.extend([2, 3, 7].map(|count| rising(cells.max(80), count)));
        terms.extend([2, 3, 7].map(|copies| peak(cells.max(90), copies)));
        terms.extend([0, 1].map(|tested| chosen(weight((cells / 3).max(6)), tested)));
        terms.extend([3, 20, 500].into_iter().filter(|pace| 2 * pace < cells).map(|pace| climbing(cells.min(SIZE_LIMIT), pace)));
    }
    // Far too much.
    for count in [3, 10, 30] {
        terms.extend([rising(12_000, count), peak(12_000, count), rising(60_000, count.max(16))]);
    }
    terms
}

/// Terms that grow and shrink several times: ever more, ever less, or alike.
fn in_turn() -> Vec<Term> {
    let turns = [&[2, 2, 2, 2][..], &[2, 3, 4, 5, 6], &[6, 5, 4, 3, 2], &[5, 2, 5, 2], &[9], &[2, 9, 2]];
    let nested = |cells: u64, turns: &[usize]| turns.iter().fold(weight(cells), |e, &copies| copied(e, copies));
    let merged =
        |cells: u64, turns: &[usize]| turns.iter().map(|&copies| copied(weight(cells), copies)).map(top_of).reduce(Term::merge);
    let mut terms: Vec<Term> = Vec::new();
    for (cells, turns) in [6, 25, 300].into_iter().flat_map(|cells| turns.map(|turns| (cells, turns))) {
        terms.push(nested(cells, turns));
        terms.push(Term::application(nested(cells, turns), number(1)));
        terms.extend(merged(cells, turns));
        terms.push(Term::annotation(read_as(nested(cells, turns), 3), to_int()));
    }
    terms
}

/// The term annotated with Top, which it becomes.
fn top_of(e: Term) -> Term {
    Term::annotation(e, Type::top())
}

/// Many steps, the terms small or large; some with a peak behind them, or before.
fn long_runs() -> Vec<Term> {
    let field = |label, content| Term::record(label, content);
    let again = Term::fixpoint(Term::choice(number(0), Term::variable(0), number(1)), int());
    let loops = [again, fibonacci(8), fibonacci(9), fibonacci(10), countdown(150, 1, 7), countdown(-1, 1, 7)];
    let beside = |e: &Term| {
        let peak = top_of(copied(weight(100), 3));
        [Term::merge(e.clone(), field(8, peak.clone())), Term::merge(field(8, peak), e.clone())]
    };
    loops.iter().flat_map(beside).chain(loops.clone()).collect()
}

/// A small root, and so many cells that it does not reach, before it and behind it.
fn unreached() -> Vec<Vec<u8>> {
    let mut random = Random::of(0, "", 0);
    let roots = [number(1), peak(90, 2), copied(weight(8), 3), climbing(40, 5)];
    let mut books = Vec::new();
    for (root, count) in roots.iter().flat_map(|root| [1, 30, 300, 4_000].map(|count| (root, count))) {
        let book = encode(root, Sharing::Sometimes, &mut random);
        let others = vec![zeroed(kind::TOP_VALUE); count];
        let raised = book.cells.iter().map(|cell| cell.redirected(|to| to + count as u16));
        let before = Cells::new(others.iter().copied().chain(raised).collect(), book.root + count as u16);
        let behind = Cells::new(book.cells.iter().copied().chain(others.iter().copied()).collect(), book.root);
        books.extend([before.bytes(), behind.bytes()]);
    }
    books
}

/// Each with all shared that can be, the smaller ones with nothing shared too; and roots with cells that they do not reach.
pub fn heavy() -> Vec<Vec<u8>> {
    let mut random = Random::of(0, "", 0);
    let mut books = |terms: Vec<Term>| -> Vec<Vec<u8>> {
        let fitting = terms.into_iter().filter(|term| term.size() <= SIZE_LIMIT);
        let both = fitting.enumerate().flat_map(|(place, term)| {
            let again = (term.size() < 400 || place % 5 == 0).then(|| encode(&term, Sharing::Never, &mut random).bytes());
            [encode(&term, Sharing::Always, &mut Random::of(0, "", 0)).bytes()].into_iter().chain(again).collect::<Vec<_>>()
        });
        both.collect()
    };
    let lists = [of_each_size(), in_turn(), first_and_second(), long_runs()].map(&mut books);
    let [sizes, turns, parts, runs] = lists;
    by_turns(&[sizes, turns, parts, runs, unreached()])
}

/// Something more to do with a function: each grows and shrinks by a few steps.
fn risen(function: Term, random: &mut Random) -> Term {
    let count = random.between(2, 6);
    match random.lower(5) {
        0 => copied(function, count),
        1 => Term::annotation(read_as(function, count), to_int()),
        2 => Term::projection(7, Term::merge(Term::record(7, function), Term::record(8, top_of(copied(weight(20), count))))),
        3 => Term::annotation(Term::fixpoint(function, to_int()), to_int()),
        _ => {
            // The argument is a function of its own, used or not.
            let body = if random.once_in(2) { Term::variable(0) } else { function.clone() };
            Term::application(Term::function(body, left(&to_int(), count), to_int()), function)
        }
    }
}

/// A function that is copied, read as several and read again, and then applied at times; within others, which step too. Of both versions.
pub fn rising_and_falling(random: &mut Random) -> Vec<Vec<u8>> {
    let most = if random.once_in(30) { 1_500 } else { 60 };
    let cells = random.between(6, most) as u64;
    let mut term = weight(cells);
    for _ in 0..random.between(1, 5) {
        term = risen(term, random);
    }
    let count = random.between(2, 6);
    let typed: Typed = match random.lower(6) {
        0 => (Term::application(term, number(1)), int()),
        2 => (chosen(term, random.lower(2) as i32), int()),
        3 => (read_as(term, count), left(&to_int(), count)),
        1 => (Term::choice(Term::application(term, number(1)), number(2), countdown(2, 1, 7)), int()),
        _ => (term, to_int()),
    };
    let around = random.lower(4);
    let (term, _) = within_many(typed, around, random);
    let version = *random.pick(&Version::ALL);
    one_book_in(version, &term, random)
}
