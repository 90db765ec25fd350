//! The books that are timed.

use compare::cells::{encode, number_cell, zeroed, Cells, Sharing};
use compare::comparing::Execution;
use compare::deepest::merges;
use compare::extremes::{left, times};
use compare::families::families;
use compare::loops::{accumulated, countdown, triangular};
use compare::random::Random;
use compare::samples::{doubled, own_fixpoint, two_chains};
use evaluator::{decode, encode_term, kind, restamped, Answer, Cell, Term, Type, Version};

pub type Named = (String, Vec<u8>);

pub fn int() -> Type {
    Type::int()
}

fn top() -> Type {
    Type::top()
}

fn number(n: i32) -> Term {
    Term::number(n)
}

/// The term as a book, equal cells shared.
pub fn shared(term: &Term) -> Vec<u8> {
    encode(term, Sharing::Always, &mut Random::of(0, "", 0)).bytes()
}

/// The term as a book, nothing shared.
fn unshared(term: &Term) -> Vec<u8> {
    encode_term(term, Version::One)
}

fn named(name: &str, term: Term) -> Named {
    (name.to_string(), shared(&term))
}

/// Merged, nested to the left.
pub fn merged(parts: impl IntoIterator<Item = Term>) -> Term {
    parts.into_iter().reduce(Term::merge).expect("a part")
}

fn copies(part: Term, count: usize) -> Term {
    merged(vec![part; count])
}

/// Typed books of at most 200 cells that come to a value within 50 steps.
pub fn small_typed(count: usize) -> Vec<Vec<u8>> {
    let names = ["merges", "hidden fields", "duplicates", "several outputs", "nested records"];
    let mut books = Vec::new();
    for family in families().into_iter().filter(|family| names.contains(&family.name)) {
        let small = |book: &Vec<u8>| {
            decode(book).is_ok_and(|(root, _)| root.size() <= 200)
                && Execution::of(book).is_some_and(|execution| matches!(execution.answer, Answer::Value { steps: 1..=50, .. }))
        };
        books.extend(family.books(1, 10 * count).filter(small).take(count / names.len()));
    }
    books
}

/// Books of 4,095 cells with nothing shared, or as near as their form comes.
pub fn full() -> Vec<Named> {
    let parts = vec![Term::annotation(Term::number(1), top()); 1_023];
    let merged = merges(&parts).map(|(way, term)| named(&format!("1,023 annotated parts merged, {way}"), term));
    let mut books = vec![
        named("4,094 nested records", times(4_094, Term::number(1), |e| Term::record(7, e))),
        named("4,094 nested field reads", times(4_094, Term::top(), |e| Term::projection(7, e))),
        named("2,047 nested annotations", times(2_047, Term::number(1), |e| Term::annotation(e, int()))),
        named("2,047 nested applications", times(2_047, Term::top(), |e| Term::application(e, Term::top()))),
        named("2,047 nested merges, to the right", times(2_047, Term::top(), |e| Term::merge(Term::top(), e))),
        named("2,047 nested fixpoints", times(2_047, Term::top(), |e| Term::fixpoint(e, top()))),
        named("1,364 nested functions", times(1_364, Term::variable(0), |e| Term::function(e, top(), top()))),
        named("2,047 nested sums, to the left", times(2_047, number(1), |e| Term::sum(e, number(1)))),
        named("2,047 nested sums, to the right", times(2_047, number(1), |e| Term::sum(number(1), e))),
        named("1,364 nested choices, in a", times(1_364, number(0), |e| Term::choice(e, number(0), number(1)))),
        named("1,364 nested choices, in b", times(1_364, number(0), |e| Term::choice(number(0), e, number(1)))),
        named("1,364 nested choices, in c", times(1_364, number(0), |e| Term::choice(number(1), number(1), e))),
        ("the top value merged with itself 11 times".to_string(), doubled(zeroed(kind::TOP_VALUE), 11)),
    ];
    books.extend(merged);
    books
}

/// Books of 4,095 cells, or as near as their form comes, with as many numbers in cells of their own as there can be, each as version 1 and
/// restamped; and a loop. The last is of version 2 alone.
pub fn both_versions() -> Vec<Named> {
    let [_, _, (_, equal)] = merges(&vec![number(-7); 2_048]);
    let cells = Cells::new(vec![number_cell(-7); 4_095], 0);
    let books = [
        ("4,095 numbers, the first for a root", cells.bytes()),
        ("2,048 equal numbers, balanced", unshared(&equal)),
        ("2,047 nested sums, to the left", unshared(&times(2_047, number(1), |e| Term::sum(e, number(1))))),
        ("1,364 nested choices, in a", unshared(&times(1_364, number(0), |e| Term::choice(e, number(0), number(1))))),
        ("a loop down from 1,000", shared(&countdown(1_000, 1, 7))),
    ];
    let both = books.into_iter().flat_map(|(name, one)| {
        let two = restamped(&one).expect("version 1");
        [(format!("{name}, version 1"), one), (format!("{name}, version 2"), two)]
    });
    let wide = times(2_047, Term::number(1_i64 << 40), |e| Term::sum(e, Term::number(1_i64 << 37)));
    both.chain([("2,047 nested sums past 32 bits, version 2".to_string(), encode_term(&wide, Version::Two))]).collect()
}

/// Books with field reads of merges: a record behind many that are top-like, and many reads of one wide type.
pub fn field_reads() -> Vec<Named> {
    let mut parts = vec![Term::record(8, Term::top()); 1_364];
    parts.push(Term::record(8, Term::number(1)));
    let last =
        merges(&parts).map(|(way, term)| named(&format!("the last of 1,365 records, merged {way}"), Term::projection(8, term)));
    let wide = (0..=255).map(|n| Type::record(n, int())).reduce(Type::intersection).expect("a part");
    let read = |n: usize| Term::annotation(Term::projection(n as u8, Term::variable(0)), top());
    let reads = Term::function(merged((0..600).map(read)), wide, top());
    last.into_iter().chain([named("600 reads of a variable of 256 parts", reads)]).collect()
}

/// Books that are costly to check.
pub fn costly() -> Vec<Named> {
    let variable = || Term::variable(0);
    let field = |n: usize| Term::record(n as u8, Term::number(1));
    let between = (0..1_000).flat_map(|n| [Some(variable()), (n < 256).then(|| field(n))]).flatten();
    let numbered = Term::merge(copies(variable(), 680), Term::number(1));
    let call = Term::application(Term::variable(1), variable());
    let calls = Term::function(copies(call, 510), left(&int(), 510), top());
    let alike = copies(Term::record(7, Term::number(1)), 600);
    let [(_, left_nested), (_, right_nested), (_, balanced)] = merges(&vec![Term::number(1); 2_048]);
    vec![
        named(
            "a top-like variable of 500 parts, merged 1,000 times",
            Term::function(copies(variable(), 1_000), left(&top(), 500), top()),
        ),
        named("the same with labelled numbers between", Term::function(merged(between), left(&top(), 500), top())),
        named(
            "680 times Top, merged 680 times, a number last, under 680 times Int",
            Term::function(Term::annotation(numbered, left(&int(), 680)), left(&top(), 680), top()),
        ),
        named(
            "a variable applied to another 510 times, 510 parts each",
            Term::function(calls, Type::function(left(&int(), 510), top()), top()),
        ),
        named("2,048 equal numbers, to the left", left_nested),
        named("2,048 equal numbers, to the right", right_nested),
        named("2,048 equal numbers, balanced", balanced),
        named("600 records of one label against 600", Term::merge(alike.clone(), alike)),
        ("two equal bodies of 1,020 sums, unshared".to_string(), unshared(&Term::merge(summing(1_020), summing(1_020)))),
        ("two equal doubling chains of 39 cells".to_string(), chains_merged()),
    ]
}

/// A function that adds its argument to 1 so many times.
fn summing(count: usize) -> Term {
    Term::function(times(count, number(1), |e| Term::sum(e, Term::variable(0))), int(), int())
}

/// So many functions in cells of their own whose body is one cell, merged.
fn one_body(count: usize) -> [(&'static str, Vec<u8>); 3] {
    let function = Cell::new(kind::FUNCTION, 0, [1, 0, 0]);
    merges(&vec![number(0); count]).map(|(way, merge)| {
        let mut book = Cells::of(&unshared(&merge)).expect("a book");
        [kind::VARIABLE, kind::INT].map(zeroed).into_iter().for_each(|cell| book.insert(0, cell));
        book.cells.iter_mut().filter(|cell| cell.kind == kind::NUMBER).for_each(|cell| *cell = function);
        (way, book.bytes())
    })
}

/// Merges of functions: with one body, with equal bodies in cells of their own, with types that are disjoint, and large ones that differ in
/// the cell that is compared last.
pub fn merged_functions() -> Vec<Named> {
    let unshared = |name: String, term: &Term| (name, unshared(term));
    let sum = |n: i32| Term::sum(Term::variable(0), number(n));
    let alike = Term::function(Term::choice(sum(1), sum(2), sum(3)), int(), int());
    let equal = merges(&vec![alike; 200]);
    let to_top = merges(&(0..600).map(|n| Term::function(number(n), int(), top())).collect::<Vec<_>>());
    let field = |label: u8| Term::function(Term::record(label, Term::variable(0)), int(), Type::record(label, int()));
    let fields = merges(&(0..=255).map(field).collect::<Vec<_>>());
    let last = |n: i32| {
        let sums = times(1_018, number(1), |e| Term::sum(e, Term::variable(0)));
        Term::function(Term::sum(sums, number(n)), int(), int())
    };
    let mut books = one_body(600).map(|(way, book)| (format!("600 functions with one body, {way}"), book)).to_vec();
    books.extend(equal.map(|(way, e)| unshared(format!("200 functions with equal bodies of 10 cells, unshared, {way}"), &e)));
    books.extend(to_top.map(|(way, e)| unshared(format!("600 functions to Top with other bodies, {way}"), &e)));
    books.extend(fields.map(|(way, e)| unshared(format!("256 functions to other fields, {way}"), &e)));
    books.push(unshared("two equal bodies of 1,019 sums, unshared".to_string(), &Term::merge(last(1), last(1))));
    books.push(unshared("the same, the last number another".to_string(), &Term::merge(last(1), last(2))));
    books
}

fn chains_merged() -> Vec<u8> {
    let mut chains = two_chains(38);
    let [one, other] = [chains.root / 2, chains.root];
    chains.cells.push(Cell::new(kind::MERGE, 0, [one, other, 0]));
    Cells { root: other + 1, ..chains }.bytes()
}

fn records(count: usize, content: Term) -> Term {
    times(count, content, |e| Term::record(1, e))
}

/// A function that calls itself without end with what this makes of its argument, applied to a value of this type.
fn calls_itself(argument: impl Fn(Term) -> Term, value: Term, of: Type) -> Term {
    let call = Term::application(Term::variable(1), argument(Term::variable(0)));
    let again = Term::fixpoint(Term::function(call, of.clone(), int()), Type::function(of, int()));
    Term::application(again, value)
}

/// The plain one within so many records: two cells more each third step.
pub fn endless(around: usize) -> Vec<u8> {
    shared(&records(around, calls_itself(|e| e, Term::number(1), int())))
}

/// A value of so many records goes along with the calls.
pub fn carrying(count: usize) -> Vec<u8> {
    let of = (0..count).fold(int(), |t, _| Type::record(1, t));
    shared(&calls_itself(|e| e, records(count, Term::number(1)), of))
}

/// The body has so many records in it that do not change, and that each call drops.
pub fn with_constant(count: usize) -> Vec<u8> {
    let dropped = |e: Term| Term::annotation(Term::merge(e, records(count, Term::number(1))), int());
    shared(&calls_itself(dropped, Term::number(1), int()))
}

/// Loops that count: each turn has a call, a sum and a choice, or two sums, and makes the term larger by a few cells.
pub fn counting() -> Vec<Named> {
    vec![
        named("down from 100", countdown(100, 1, 7)),
        named("down from 1,000", countdown(1_000, 1, 7)),
        named("down from -1, which does not end", countdown(-1, 1, 7)),
        named("all numbers to 100 added up", triangular(100)),
        named("all numbers to 650 added up", triangular(650)),
        named("the same to 900, the total carried along", accumulated(900)),
    ]
}

/// The fixpoint at Int whose body is its own variable: two cells more each step.
pub fn growing() -> Vec<u8> {
    shared(&own_fixpoint())
}

/// A merge of records, cast to an intersection of as many record types, in the reverse order.
pub fn records_cast(count: usize) -> Vec<u8> {
    let label = |n: usize| (n % 256) as u8;
    let value = merged((0..count).map(|n| Term::record(label(n), Term::number(n as i32 % 256))));
    let types = (0..count).rev().map(|n| Type::record(label(n), int()));
    shared(&Term::annotation(value, types.reduce(Type::intersection).expect("a part")))
}

/// A record behind so many others, cast to as many copies of its type.
pub fn last_cast(count: usize) -> Vec<u8> {
    let others = (0..count - 1).map(|n| Term::record((n % 255) as u8, Term::number(1)));
    let value = merged(others.chain([Term::record(255, Term::number(1))]));
    shared(&Term::annotation(value, left(&Type::record(255, int()), count)))
}

/// A function with a body of so many cells, cast to as many function types.
pub fn function_cast(body: usize, count: usize) -> Vec<u8> {
    let body = times(body - 3, Term::top(), |e| Term::projection(3, e));
    let function = Term::function(Term::merge(Term::number(6), body), int(), int());
    shared(&Term::annotation(function, left(&Type::function(int(), int()), count)))
}
