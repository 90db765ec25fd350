//! The books that are compared, in families.

use crate::bodies;
use crate::cells::{alike, encode, encode_in, is_labelled, unknown_kinds, zeroed, Cells, Sharing};
use crate::contexts;
use crate::deepest::deepest;
use crate::extremes::extremes;
use crate::heavy;
use crate::loops::{counting_loops, triangular};
use crate::maker::{Maker, Weights, EVEN, LABELS};
use crate::numbers;
use crate::orders;
use crate::random::Random;
use crate::reads::reads_of_merges;
use crate::refusals::refusals;
use crate::samples::{desk_example, hidden_field, identity, merging_books, sample_books, samples};
use crate::settings;
use crate::versions::{self, another_number};
use evaluator::{kind, restamped, Cell, Sort, Term, TermShape, Type, Version, TABLE};

/// A family: its name, how many of the random books fall to it, and its books.
pub struct Family {
    pub name: &'static str,
    /// 0 for a family that is always taken whole.
    pub share: u32,
    /// So many of a hundred books are asked about restamped as version 2, too.
    restamped: usize,
    make: Make,
}

enum Make {
    Whole(fn() -> Vec<Vec<u8>>),
    /// One or a few books that belong together.
    Random(fn(&mut Random) -> Vec<Vec<u8>>),
}

impl Family {
    /// The family's books; a random family gives as many as asked for.
    pub fn books(&self, seed: u64, count: usize) -> Box<dyn Iterator<Item = Vec<u8>>> {
        match self.make {
            Make::Whole(make) => Box::new(make().into_iter()),
            Make::Random(make) => {
                let name = self.name;
                Box::new((0..).flat_map(move |place| make(&mut Random::of(seed, name, place))).take(count))
            }
        }
    }

    /// The same, the books that are restamped behind their own: others for another seed.
    pub fn in_both_versions(&self, seed: u64, count: usize) -> Box<dyn Iterator<Item = Vec<u8>>> {
        let share = self.restamped;
        let again = move |(place, book): (u64, Vec<u8>)| {
            let asked = Random::of(seed, "restamped", place).lower(100) < share;
            let two = if asked { restamped(&book) } else { None };
            [Some(book), two].into_iter().flatten()
        };
        Box::new((0..).zip(self.books(seed, count)).flat_map(again))
    }
}

pub fn families() -> Vec<Family> {
    whole_families().into_iter().chain(random_families()).chain(version_families()).collect()
}

fn whole_families() -> Vec<Family> {
    let whole = |name, restamped, make| Family { name, share: 0, restamped, make: Make::Whole(make) };
    vec![
        whole("samples", 100, || {
            let files = sample_books().into_values().chain(merging_books().into_values());
            samples().into_iter().map(|sample| sample.book).chain(files).collect()
        }),
        whole("extremes", 10, extremes),
        whole("deepest", 6, || deepest().into_iter().map(|deep| deep.book).collect()),
        whole("every byte", 33, every_byte),
        whole("cut short", 100, cut_short),
        whole("refusals", 50, refusals),
        whole("ends of the range", 100, numbers::ends),
        whole("refused parts", 50, || numbers::refused().into_iter().map(|refused| refused.book).collect()),
        whole("one cell apart", 50, || {
            let stated = bodies::stated().into_iter().map(|sample| sample.book);
            stated.chain(bodies::one_cell_apart().into_iter().map(|pair| pair.book.bytes())).collect()
        }),
        whole("every order", 20, orders::every_order),
        whole("heavy", 40, heavy::heavy),
        whole("sheets", 40, settings::sheets),
    ]
}

fn random_families() -> Vec<Family> {
    let random = |name, share, make| Family { name, share, restamped: 33, make: Make::Random(make) };
    vec![
        random("nearly equal bodies", 10, bodies::nearly_equal_bodies),
        random("reordered merges", 5, orders::reordered_merges),
        random("rising and falling", 2, heavy::rising_and_falling),
        random("typed sheets", 6, settings::typed_sheets),
        random("nearly sheets", 6, settings::nearly_sheets),
        random("merges", 12, |r| typed(r, Weights { merge: 8, ..EVEN }.of_type(kind::INTERSECTION, 6), 30)),
        random("hidden fields", 6, hidden_fields),
        random("reads of merges", 12, reads_of_merges),
        random("arithmetic", 10, |r| numbers::arithmetic(Version::One, r)),
        random("counting bodies", 10, numbers::bodies),
        random("counting loops", 4, |r| counting_loops(Version::One, r)),
        random("duplicates", 8, |r| typed(r, Weights { duplicate: 6, annotation: 4, ..EVEN }.of_type(kind::INTERSECTION, 5), 25)),
        random("several outputs", 6, several_outputs),
        random("top-like functions", 8, |r| {
            typed(r, Weights { annotation: 4, application: 4, ..EVEN }.of_type(kind::TOP, 6).of_type(kind::FUNCTION_TYPE, 6), 25)
        }),
        random("nested records", 8, |r| typed(r, Weights { projection: 6, merge: 4, ..EVEN }.of_type(kind::RECORD_TYPE, 12), 30)),
        random("fixpoints", 6, |r| typed(r, Weights { fixpoint: 6, application: 5, ..EVEN }.of_type(kind::FUNCTION_TYPE, 4), 20)),
        random("growing", 2, growing),
        random("ignored arguments", 4, ignored_arguments),
        random("contexts", 12, contexts::contexts),
        random("retyped functions", 4, contexts::retyped_functions),
        random("many parts", 4, contexts::many_parts),
        random("unfoldings", 4, contexts::unfoldings),
        random("room within", 1, contexts::room_within),
        random("large", 4, |r| typed(r, EVEN, 150)),
        random("near misses", 16, near_misses),
        random("shared and opened", 6, shared_and_unshared),
        random("unreachable cells", 6, unreachable_cells),
        random("bits flipped", 10, bits_flipped),
        random("loose cells", 6, loose_cells),
    ]
}

/// Those with books of version 2 of their own.
fn version_families() -> Vec<Family> {
    let whole = |name, make| Family { name, share: 0, restamped: 0, make: Make::Whole(make) };
    let random = |name, share, make| Family { name, share, restamped: 0, make: Make::Random(make) };
    vec![
        whole("ends of both ranges", versions::ends),
        whole("damaged versions", versions::damaged_versions),
        whole("every byte of wide", versions::every_byte),
        random("wide arithmetic", 6, versions::wide_arithmetic),
        random("wide terms", 6, versions::wide_terms),
        random("wide merges", 5, versions::wide_merges),
        random("widened", 6, versions::widened_books),
        random("scrambled", 4, versions::scrambled),
    ]
}

/// Terms above this are not encoded.
const ENCODED: u64 = 8_000;

fn encoded(term: &Term, sharing: Sharing, random: &mut Random) -> Cells {
    encoded_in(Version::One, term, sharing, random)
}

/// The term as a book of this version, unless it is far too large.
pub fn encoded_in(version: Version, term: &Term, sharing: Sharing, random: &mut Random) -> Cells {
    let term = if term.size() > ENCODED { Term::number(0) } else { term.clone() };
    encode_in(version, &term, sharing, random)
}

/// The term as a version 1 book, shared somehow.
pub fn one_book(term: &Term, random: &mut Random) -> Vec<Vec<u8>> {
    one_book_in(Version::One, term, random)
}

/// The term as a book of this version, shared somehow.
pub fn one_book_in(version: Version, term: &Term, random: &mut Random) -> Vec<Vec<u8>> {
    let sharing = Sharing::any(random);
    vec![encoded_in(version, term, sharing, random).bytes()]
}

/// A term typed at random for a book of this version, of at most so many choices; seldom one of very few cells.
pub fn typed_term(version: Version, random: &mut Random, weights: Weights, fuel: usize) -> Term {
    for _ in 0..3 {
        let (fuel, depth) = (random.between(2, fuel), random.lower(4));
        let mut maker = Maker::new(random, weights, fuel).in_version(version);
        let wanted = maker.a_type(depth);
        let term = maker.term(&wanted);
        if term.size() > 5 {
            return term;
        }
    }
    Maker::new(random, weights, 2).in_version(version).term(&Type::int())
}

fn typed(random: &mut Random, weights: Weights, fuel: usize) -> Vec<Vec<u8>> {
    let term = typed_term(Version::One, random, weights, fuel);
    one_book(&term, random)
}

/// A typed version 1 book of any family that makes them one by one.
pub fn typed_any(random: &mut Random) -> Cells {
    let term = match random.lower(6) {
        0 => hidden_fields_term(random, true),
        1 => several_outputs_term(random),
        2 => typed_term(Version::One, random, Weights { merge: 5, duplicate: 3, ..EVEN }, 20),
        3 => numbers::bodies_term(random),
        4 => typed_term(Version::One, random, Weights { sum: 5, choice: 5, ..EVEN }.of_type(kind::INT, 12), 20),
        _ => typed_term(Version::One, random, EVEN, 20),
    };
    let sharing = Sharing::any(random);
    encoded(&term, sharing, random)
}

pub fn merged(parts: Vec<Term>, random: &mut Random) -> Term {
    let mut parts = parts;
    while parts.len() > 1 {
        let at = random.lower(parts.len() - 1);
        let right = parts.remove(at + 1);
        let left = parts.remove(at);
        parts.insert(at, Term::merge(left, right));
    }
    parts.pop().expect("at least one part")
}

fn intersected(parts: Vec<Type>) -> Type {
    parts.into_iter().reduce(Type::intersection).expect("at least one part")
}

/// Document 01's hidden field with other labels, more of them, and other contents: an argument has fields that its function's input
/// type does not show, and the body has fields of its own under the same labels. The merge is annotated before it is read, or not.
pub fn hidden_fields_term(random: &mut Random, annotated: bool) -> Term {
    let mut labels = LABELS.to_vec();
    while labels.len() > 2 && random.once_in(2) {
        let at = random.lower(labels.len());
        labels.remove(at);
    }
    let shown = random.between(1, labels.len() - 1);
    let (shown, hidden) = labels.split_at(shown);
    let mut maker = Maker::new(random, EVEN, 4);
    let content = if maker.random.once_in(2) { Type::int() } else { maker.a_type(1) };
    let mut field = |label: &u8| Term::record(*label, maker.closed_value(&content));
    let mut argument: Vec<Term> = shown.iter().chain(hidden).map(&mut field).collect();
    let mut own: Vec<Term> = hidden.iter().map(&mut field).collect();
    argument.rotate_left(random.lower(labels.len()));
    let argument = merged(argument, random);
    let input = intersected(shown.iter().map(|label| Type::record(*label, content.clone())).collect());
    own.insert(random.between(0, own.len()), Term::variable(0));
    let from = if random.once_in(4) { shown } else { hidden };
    let label = *random.pick(from);
    let body = merged(own, random);
    let body = if annotated { Term::annotation(body, Type::record(label, content.clone())) } else { body };
    let function = Term::function(Term::projection(label, body), input.clone(), content);
    // At times the fields are hidden by an annotation first, or the function is applied within another.
    match random.lower(4) {
        0 => Term::application(function, Term::annotation(argument, input)),
        1 => {
            let inner = Term::application(function, Term::variable(0));
            Term::application(Term::function(inner, input, Type::top()), argument)
        }
        _ => Term::application(function, argument),
    }
}

fn hidden_fields(random: &mut Random) -> Vec<Vec<u8>> {
    let term = hidden_fields_term(random, true);
    one_book(&term, random)
}

/// Functions with the same body and input and other outputs, merged: consistent whatever the outputs. At times one body or input is
/// another, which may or may not be consistent.
fn several_outputs_term(random: &mut Random) -> Term {
    let mut maker =
        Maker::new(random, Weights { merge: 4, ..EVEN }.of_type(kind::INTERSECTION, 6).of_type(kind::RECORD_TYPE, 6), 8);
    let input = maker.a_type(1);
    let wanted = maker.a_type(2);
    let first = maker.closed_value(&Type::function(input.clone(), wanted));
    let TermShape::Function(body, input, output) = first.shape() else { return first };
    let mut functions = vec![first.clone()];
    for _ in 0..maker.random.between(1, 3) {
        let output = maker.supertype(output);
        functions.push(match maker.random.lower(12) {
            0 => Term::function(body.clone(), maker.supertype(input), output),
            1 => {
                let term = maker.closed_value(&output);
                Term::function(term, input.clone(), output)
            }
            _ => Term::function(body.clone(), input.clone(), output),
        });
    }
    let as_one = Type::function(maker.subtype(input), maker.supertype(output));
    let argument = maker.closed_value(input);
    let merge = merged(functions, random);
    match random.lower(4) {
        0 => merge,
        1 => Term::annotation(merge, as_one),
        _ => Term::application(Term::annotation(merge, as_one), argument),
    }
}

fn several_outputs(random: &mut Random) -> Vec<Vec<u8>> {
    let term = several_outputs_term(random);
    one_book(&term, random)
}

/// The term within something that keeps its type.
fn wrapped(term: Term, of: &Type, random: &mut Random) -> Term {
    match random.lower(5) {
        0 => Term::annotation(term, of.clone()),
        1 => Term::application(Term::function(Term::variable(0), of.clone(), of.clone()), term),
        2 => {
            let label = *random.pick(&LABELS);
            Term::projection(label, Term::record(label, term))
        }
        3 => Term::annotation(Term::merge(Term::annotation(Term::number(4), Type::top()), term), of.clone()),
        _ => Term::annotation(Term::merge(term, Term::top()), of.clone()),
    }
}

/// Fixpoints that come back to themselves within ever more, until there is no room; and values that double.
fn growing(random: &mut Random) -> Vec<Vec<u8>> {
    let term = if random.once_in(4) {
        let mut content = Type::int();
        let mut term = Term::number(random.lower(9) as i32);
        for _ in 0..random.between(2, 7) {
            let both = Term::merge(Term::record(1, Term::variable(0)), Term::record(2, Term::variable(0)));
            let doubled = Type::intersection(Type::record(1, content.clone()), Type::record(2, content.clone()));
            let output = if random.once_in(3) { doubled.clone() } else { Type::record(1, content.clone()) };
            term = Term::application(Term::function(both, content, output.clone()), term);
            content = output;
        }
        term
    } else {
        let mut maker = Maker::new(random, EVEN, 0);
        let depth = maker.random.lower(3);
        let at = maker.a_type(depth);
        let mut body = Term::variable(0);
        for _ in 0..random.between(0, 3) {
            body = wrapped(body, &at, random);
        }
        let mut term = Term::fixpoint(body, at.clone());
        for _ in 0..random.between(0, 3) {
            term = match random.lower(3) {
                0 => Term::record(9, term),
                1 => Term::merge(Term::top(), term),
                _ => Term::application(Term::top(), term),
            };
        }
        term
    };
    one_book(&term, random)
}

/// Functions that do not use their argument, whose cast may have thousands of cells; and the same with one that does.
fn ignored_arguments(random: &mut Random) -> Vec<Vec<u8>> {
    let (parts, large) = (random.between(1, 40), random.between(0, 300));
    let mut maker = Maker::new(random, EVEN, 6);
    let output = maker.a_type(1);
    let as_function = Type::function(Type::int(), Type::int());
    let part = if maker.random.once_in(3) { maker.supertype(&as_function) } else { as_function };
    let input = (1..parts).fold(part.clone(), |t, _| Type::intersection(t, part.clone()));
    let result = maker.closed_value(&output);
    // A body that is only large: fields read of the top value, beside a number.
    let long = (0..large).fold(Term::top(), |of, _| Term::projection(3, of));
    let argument = Term::function(Term::merge(Term::number(6), long), Type::int(), Type::int());
    let function =
        if random.once_in(4) { Term::function(Term::variable(0), input, part) } else { Term::function(result, input, output) };
    one_book(&Term::application(function, argument), random)
}

/// One change to a book that keeps the rows 5 to 8.
pub fn changed(book: &mut Cells, random: &mut Random) {
    let at = random.lower(book.cells.len());
    let cell = book.cells[at];
    let mut new = cell;
    match random.lower(4) {
        // Another kind with the same fields.
        0 => {
            new.kind = alike(cell.kind);
        }
        1 if is_labelled(cell.kind) => new.label = *random.pick(&LABELS),
        1 if cell.kind == kind::VARIABLE => new.fields[0] = random.lower(4) as u16,
        1 if cell.kind == kind::NUMBER => new = another_number(cell, book.version, random),
        2 => {
            let sorts = cell.references();
            let alike = |&(a, b): &(usize, usize)| sorts[a].is_some() && sorts[a] == sorts[b];
            let pairs: Vec<(usize, usize)> = [(0, 1), (1, 2), (0, 2)].into_iter().filter(alike).collect();
            if !pairs.is_empty() {
                let &(a, b) = random.pick(&pairs);
                new.fields.swap(a, b);
            }
        }
        _ => {
            let field = random.lower(3);
            if let Some(sort) = cell.references()[field] {
                new.fields[field] = *random.pick(&book.of_sort(sort, at));
            }
        }
    }
    book.cells[at] = new;
}

/// Books one change away from typed ones.
fn near_misses(random: &mut Random) -> Vec<Vec<u8>> {
    let book = typed_any(random);
    let mut books = Vec::new();
    while books.len() < 4 {
        let mut miss = book.clone();
        for _ in 0..9 {
            changed(&mut miss, random);
            if miss != book {
                books.push(miss.bytes());
                break;
            }
        }
        if miss == book {
            break;
        }
    }
    books
}

/// The same term with no cell shared, with some, and with all that can be.
fn shared_and_unshared(random: &mut Random) -> Vec<Vec<u8>> {
    let term = match random.lower(4) {
        0 => several_outputs_term(random),
        3 => numbers::arithmetic_term(Version::One, random),
        1 => typed_term(Version::One, random, Weights { duplicate: 5, merge: 5, ..EVEN }, 25),
        _ => typed_term(Version::One, random, EVEN, 40),
    };
    [Sharing::Never, Sharing::Sometimes, Sharing::Always].map(|sharing| encoded(&term, sharing, random).bytes()).to_vec()
}

/// A cell that passes the rows 5 to 8 at this place.
pub fn loose_cell(book: &Cells, at: usize, random: &mut Random) -> Cell {
    loop {
        let row = random.pick(TABLE);
        let mut cell = zeroed(row.kind);
        if row.labelled {
            cell.label = *random.pick(&LABELS);
        }
        match cell.kind {
            kind::VARIABLE => cell.fields[0] = random.lower(3) as u16,
            kind::NUMBER => cell = Cell::number(random.lower(4) as i32, book.version),
            _ => {}
        }
        let mut possible = true;
        for (field, sort) in cell.references().into_iter().enumerate() {
            let Some(sort) = sort else { continue };
            match book.of_sort(sort, at).as_slice() {
                [] => possible = false,
                cells => cell.fields[field] = *random.pick(cells),
            }
        }
        if possible {
            return cell;
        }
    }
}

/// Typed books with cells that their root does not reach: ill-typed ones do not matter, ill-formed ones do.
fn unreachable_cells(random: &mut Random) -> Vec<Vec<u8>> {
    let mut book = typed_any(random);
    for _ in 0..random.between(1, 5) {
        let at = random.between(0, book.cells.len());
        let mut cell = loose_cell(&book, at, random);
        if random.once_in(8) {
            match random.lower(4) {
                0 => cell.kind = *random.pick(&unknown_kinds()),
                1 if !is_labelled(cell.kind) => cell.label = 1,
                1 => cell.fields[2] = 1,
                2 => cell = Cell::new(kind::RECORD, 1, [at as u16, 0, 0]),
                _ => {
                    let types = book.of_sort(Sort::Type, at);
                    if !types.is_empty() {
                        cell = Cell::new(kind::PROJECTION, 1, [*random.pick(&types), 0, 0]);
                    }
                }
            }
        }
        book.insert(at, cell);
    }
    vec![book.bytes()]
}

/// Typed books with one to three bits changed.
fn bits_flipped(random: &mut Random) -> Vec<Vec<u8>> {
    let book = typed_any(random).bytes();
    (0..4)
        .map(|_| {
            let mut flipped = book.clone();
            for _ in 0..random.between(1, 3) {
                flipped[random.lower(book.len())] ^= 1 << random.lower(8);
            }
            flipped
        })
        .collect()
}

/// Cells that pass the rows 5 to 8 and mean nothing.
fn loose_cells(random: &mut Random) -> Vec<Vec<u8>> {
    let mut book = Cells::new(Vec::new(), 0);
    let count = random.between(1, 30);
    for at in 0..count {
        let cell = loose_cell(&book, at, random);
        book.cells.push(cell);
    }
    let terms = book.of_sort(Sort::Term, count);
    book.root = match terms.last() {
        Some(&last) if !random.once_in(10) => last,
        _ => random.lower(count) as u16,
    };
    vec![book.bytes()]
}

/// Small books for the systematic families.
fn small_books() -> Vec<Vec<u8>> {
    let mut random = Random::of(0, "", 0);
    let applied = Term::application(identity(), Term::number(1));
    let read = Term::projection(3, Term::record(3, Term::fixpoint(Term::variable(0), Type::int())));
    let chosen = Term::choice(Term::sum(Term::number(1), Term::number(-1)), Term::number(1), Term::number(2));
    let shared = [applied, read, chosen].map(|term| encode(&term, Sharing::Always, &mut random).bytes());
    [desk_example()].into_iter().chain(shared).collect()
}

/// Small books with each byte set to every value.
fn every_byte() -> Vec<Vec<u8>> {
    let mut books = Vec::new();
    for book in small_books() {
        for at in 0..book.len() {
            for value in 0..=255 {
                let mut changed = book.clone();
                changed[at] = value;
                books.push(changed);
            }
        }
    }
    books
}

/// Books cut short at every length, lengthened a little, and with every cell for a root.
fn cut_short() -> Vec<Vec<u8>> {
    let mut random = Random::of(0, "", 0);
    let larger = [hidden_field(), hidden_fields_term(&mut random, true), several_outputs_term(&mut random), triangular(4)];
    let larger = larger.map(|term| encode(&term, Sharing::Sometimes, &mut random).bytes());
    let mut books = Vec::new();
    for book in small_books().into_iter().chain(larger) {
        for length in 0..book.len() + 24 {
            let mut changed = book.clone();
            changed.resize(length, 0);
            books.push(changed);
        }
        let cells = Cells::of(&book).expect("a book");
        for root in 0..=cells.cells.len() as u16 {
            books.push(Cells { root, ..cells.clone() }.bytes());
            // Cut after this cell, with a trailer that fits.
            let before = cells.cells[..usize::from(root)].to_vec();
            books.push(Cells { cells: before, root: root.saturating_sub(1), ..cells }.bytes());
        }
    }
    books
}
