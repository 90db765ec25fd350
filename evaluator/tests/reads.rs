//! Field reads, with document 02's rule for merges: "look at its parts that aren't themselves intersections."

mod sizes;

use evaluator::{check, decode, infer, on_large_stack, run, Answer, Term, Type, Version, WORK};
use sizes::greatest;

/// The version 1 book of a term.
fn encode_term(term: &Term) -> Vec<u8> {
    evaluator::encode_term(term, Version::One)
}

/// The version 1 book of a type.
fn encode_type(t: &Type) -> Vec<u8> {
    evaluator::encode_type(t, Version::One)
}

/// Sums held to the range of version 1.
fn successors(term: &Term) -> Vec<Term> {
    evaluator::successors(term, Version::One)
}

fn number(n: i32) -> Term {
    Term::number(n)
}

fn int() -> Type {
    Type::int()
}

fn top() -> Type {
    Type::top()
}

fn field(label: u8, content: Term) -> Term {
    Term::record(label, content)
}

/// A function that gives its argument, with these types.
fn identity(input: Type, output: Type) -> Term {
    Term::function(Term::variable(0), input, output)
}

fn int_to_top() -> Term {
    identity(int(), top())
}

fn merge<const N: usize>(parts: [Term; N]) -> Term {
    parts.into_iter().reduce(Term::merge).expect("a part")
}

/// What a call answers, and that it leaves this book with zeros behind it.
fn leaves(call: impl FnOnce(&mut [u8]) -> Answer, left: &[u8]) -> Answer {
    let mut work = vec![7; WORK];
    let answer = call(&mut work);
    assert_eq!(&work[..left.len()], left);
    assert!(work[left.len()..].iter().all(|&byte| byte == 0));
    answer
}

/// The book is accepted with this type and comes to this value after so many steps.
fn comes_to(term: &Term, of: Type, value: &Term, steps: u32) {
    let book = encode_term(term);
    assert_eq!(leaves(|work| check(&book, work), &encode_type(&of)), Answer::Accepted { size: of.size() as usize }, "{term}");
    let mark = greatest(term, Version::One, steps);
    for limit in [steps, steps + 1, u32::MAX] {
        assert_eq!(leaves(|work| run(&book, work, limit), &encode_term(value)), Answer::Value { steps, mark }, "{term}");
    }
}

fn refused(term: &Term, number: u8, cell: usize) {
    let book = encode_term(term);
    assert_eq!(leaves(|work| check(&book, work), &[]), Answer::Refused { number, cell }, "{term}");
    assert_eq!(leaves(|work| run(&book, work, 9), &[]), Answer::Refused { number, cell }, "{term}");
}

fn read(label: u8, of: Term) -> Term {
    Term::projection(label, of)
}

/// 13 names the field read, which is the last cell.
fn refused_read(label: u8, of: Term) {
    let cell = of.size() as usize;
    refused(&read(label, of), 13, cell);
}

#[test]
fn the_one_record_of_that_label_is_read() {
    let both = merge([field(1, number(5)), field(2, number(6))]);
    comes_to(&read(2, both.clone()), int(), &number(6), 1);
    comes_to(&read(1, both.clone()), int(), &number(5), 1);
    refused(&read(3, both), 13, 5);
}

/// Parts are occurrences: the merge is consistent, and the read has two.
#[test]
fn two_records_of_that_label_are_refused() {
    refused(&read(1, merge([field(1, number(1)), field(1, number(1))])), 13, 5);
    // Also where their contents are disjoint, and where something top-like is beside them.
    refused_read(1, merge([field(1, number(1)), field(1, field(2, number(1)))]));
    refused_read(1, merge([field(1, number(1)), Term::top(), field(1, number(1))]));
    let twice = Type::intersection(Type::record(1, int()), Type::record(1, int()));
    refused_read(1, Term::annotation(field(1, number(1)), twice));
    // Another label has one.
    let both = merge([field(1, number(1)), field(1, number(1)), field(2, number(3))]);
    comes_to(&read(2, both), int(), &number(3), 1);
}

#[test]
fn a_top_like_record_of_that_label_does_not_count() {
    comes_to(&read(1, merge([field(1, Term::top()), field(1, number(5))])), int(), &number(5), 1);
    comes_to(&read(1, merge([field(1, number(5)), field(1, Term::top())])), int(), &number(5), 1);
    comes_to(&read(1, merge([field(1, int_to_top()), field(1, number(5)), field(1, Term::top())])), int(), &number(5), 1);
    comes_to(&read(1, merge([field(1, Term::top()), field(1, Term::top())])), top(), &Term::top(), 1);
}

/// "A record type or Top keeps its rule": a lone record gives its content even where it is top-like; within a merge it gives Top.
#[test]
fn a_lone_top_like_record_gives_its_content() {
    let function = identity(top(), top());
    let lone = field(1, function.clone());
    comes_to(&read(1, lone.clone()), Type::function(top(), top()), &function, 1);
    comes_to(&read(1, merge([lone.clone(), field(2, number(3))])), top(), &Term::top(), 1);
    refused_read(2, lone);
    refused_read(2, function);
    comes_to(&read(2, Term::top()), top(), &Term::top(), 1);
}

/// "Some part is top-like": any such part, not Top alone.
#[test]
fn any_top_like_part_gives_top() {
    comes_to(&read(9, merge([number(3), int_to_top()])), top(), &Term::top(), 1);
    comes_to(&read(9, merge([number(3), Term::top()])), top(), &Term::top(), 1);
    comes_to(&read(9, merge([Term::top(), Term::top()])), top(), &Term::top(), 1);
    comes_to(&read(9, merge([field(2, number(1)), field(3, int_to_top())])), top(), &Term::top(), 1);
    comes_to(&read(9, merge([field(2, number(1)), int_to_top()])), top(), &Term::top(), 1);
    comes_to(&read(9, merge([Term::top(), field(1, number(1)), field(2, number(2))])), top(), &Term::top(), 1);
    comes_to(&read(2, merge([Term::top(), field(1, number(1)), field(2, number(2))])), int(), &number(2), 1);
    refused_read(9, merge([number(3), field(2, number(1))]));
    refused_read(9, merge([number(3), identity(int(), int())]));
    // A top-like half that is an intersection: its parts are.
    let tops = Type::intersection(top(), Type::record(4, top()));
    comes_to(&read(9, Term::annotation(number(3), Type::intersection(int(), tops))), top(), &Term::top(), 2);
}

#[test]
fn parts_nest_on_both_sides() {
    let left = merge([number(3), field(1, number(4))]);
    let right = merge([Term::top(), field(2, number(5))]);
    let both = merge([left, right]);
    comes_to(&read(1, both.clone()), int(), &number(4), 1);
    comes_to(&read(2, both.clone()), int(), &number(5), 1);
    comes_to(&read(3, both), top(), &Term::top(), 1);
    let right = |last: Term| merge([number(3), Term::merge(identity(int(), int()), Term::merge(field(1, number(4)), last))]);
    comes_to(&read(2, right(field(2, number(6)))), int(), &number(6), 1);
    refused_read(3, right(field(2, number(6))));
    refused_read(1, right(field(1, number(4))));
}

/// A merge within a record is no part; it is read in a second read.
#[test]
fn a_field_of_a_field() {
    let inner = merge([field(2, number(5)), Term::top()]);
    let outer = merge([field(1, inner.clone()), number(3)]);
    comes_to(&read(1, outer.clone()), Type::intersection(Type::record(2, int()), top()), &inner, 1);
    comes_to(&read(2, read(1, outer.clone())), int(), &number(5), 2);
    refused_read(2, outer);
}

/// Document 01's hidden field, its annotation left out: one step less.
#[test]
fn the_hidden_field_without_its_annotation() {
    let body = read(1, merge([field(1, number(2)), Term::variable(0)]));
    let function = Term::function(body, Type::record(2, int()), int());
    let argument = merge([field(1, number(1)), field(2, number(9))]);
    comes_to(&Term::application(function, argument), int(), &number(2), 3);
}

#[test]
fn what_is_read_steps_first() {
    let annotated = Term::annotation(field(1, number(4)), Type::record(1, int()));
    comes_to(&read(1, merge([annotated, number(2)])), int(), &number(4), 2);
    // The annotation decides what there is to read.
    let both = merge([field(1, number(4)), field(2, number(5))]);
    let hides = Type::intersection(Type::record(2, int()), Type::record(1, top()));
    comes_to(&read(1, Term::annotation(both.clone(), hides)), top(), &Term::top(), 2);
    refused_read(1, Term::annotation(both, Type::intersection(Type::record(2, int()), Type::record(2, int()))));
}

/// Through a variable of an intersection type, an output and a fixpoint.
#[test]
fn merges_that_a_run_makes() {
    let shown = Type::intersection(Type::record(1, int()), Type::record(2, int()));
    let argument = merge([field(3, number(7)), field(2, number(6)), field(1, number(5))]);
    let reader = Term::function(read(2, Term::variable(0)), shown.clone(), int());
    comes_to(&Term::application(reader, argument.clone()), int(), &number(6), 3);
    let given = Term::application(identity(shown.clone(), shown.clone()), argument.clone());
    comes_to(&read(1, given), int(), &number(5), 3);
    comes_to(&read(1, Term::fixpoint(argument, shown)), int(), &number(5), 3);
}

/// "Application: the left's type must be a function type, or Top": a merge is neither, whatever its parts.
#[test]
fn application_is_not_widened() {
    refused(&Term::application(merge([identity(int(), int()), field(1, number(2))]), number(1)), 12, 8);
    refused(&Term::application(merge([Term::top(), Term::top()]), number(1)), 12, 4);
}

/// With every part open, as document 01 has it for merges read: an untyped merge may have several such parts.
#[test]
fn an_untyped_read_has_a_successor_for_each_part() {
    let both = read(1, merge([field(1, number(1)), field(1, number(2)), field(1, Term::top())]));
    assert!(infer(&mut Vec::new(), &both).is_err());
    assert_eq!(successors(&both), vec![number(1), number(2)]);
    assert_eq!(successors(&read(1, merge([field(1, number(1)), field(1, number(1))]))), vec![number(1)]);
    assert!(successors(&read(1, number(1))).is_empty());
}

/// As deep as a book can be, to the left and to the right, the record at the far end.
#[test]
fn the_deepest_merges_are_read() {
    on_large_stack(|| {
        let far = || field(1, number(5));
        let left = (0..2_046).fold(far(), |e, _| Term::merge(e, Term::top()));
        let right = (0..2_046).fold(far(), |e, _| Term::merge(Term::top(), e));
        for deep in [left, right] {
            assert_eq!(deep.size(), 4_094);
            assert!(decode(&encode_term(&read(1, deep.clone()))).is_ok());
            comes_to(&read(1, deep.clone()), int(), &number(5), 1);
            comes_to(&read(2, deep), top(), &Term::top(), 1);
        }
    });
}
