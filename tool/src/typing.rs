//! The refusals of the typing rules, 11 to 15, in words. The library says which part is meant, and every type and every conflict that is shown.

use crate::ask::{are_disjoint, check, first_no, is_below, may_be_merged, parts, run, top, Refusal, Stop, Term};
use crate::assemble::{opened, Written};
use crate::book::Book;
use crate::explanation::{excerpt, lines_of, short, Explanation};
use crate::input::Input;
use crate::kinds::Kind;
use crate::labels::Labels;
use crate::print::{laid, variable};
use crate::source::Source;

/// The most binders that are named.
const BINDERS: usize = 8;
/// The most uses of names that are shown.
const USES: usize = 3;

/// The library is asked about the book with nothing shared, so that the cell that it names is one place.
pub fn of_term(input: &Input, refusal: Refusal) -> Explanation {
    let book = Book::read(&input.bytes).and_then(|book| book.opened());
    let place = book.as_ref().and_then(|book| check(&book.bytes()).err());
    let (Some(book), Some(Refusal { cell, .. })) = (book, place) else {
        return Explanation::says("a part of it has no type");
    };
    let term = Term::new(book);
    let labels = &input.labels;
    let written = as_written(input, &term.book);
    let explanation = match refusal.number {
        11 => of_variable(&term, cell, |binder| written.as_ref()?.variables.get(&binder).cloned()),
        12 => of_application(&term, cell, labels),
        13 => of_read(&term, cell, labels),
        14 => of_merge(&term, cell, labels),
        _ => of_checked(&term, cell, labels),
    };
    Explanation { place: marked_part(input, &term.book, written.as_ref(), cell), ..explanation }
}

/// The text of a term with nothing shared, if it was written as one.
pub fn as_written(input: &Input, term: &Book) -> Option<Written> {
    input.source().and_then(|source| opened(&source.text).ok()).filter(|written| written.book == *term)
}

/// A part of a term, marked: in the text, or else in the notation.
pub fn marked_part(input: &Input, term: &Book, written: Option<&Written>, cell: usize) -> Vec<String> {
    match (input.source(), written) {
        (Some(source), Some(written)) => where_written(source, written, cell),
        _ => excerpt(&laid(term, &input.labels, Some(cell), 2)),
    }
}

/// The stretch of the text, and where the names are used that it is a part of.
fn where_written(source: &Source, written: &Written, cell: usize) -> Vec<String> {
    let used = written.uses(cell).take(USES).map(|used| format!("used at {}", source.marked(used)));
    let marked: String = std::iter::once(source.marked(written.spans[cell])).chain(used).collect();
    marked.lines().map(str::to_owned).collect()
}

fn of_variable(term: &Term, at: usize, name: impl Fn(usize) -> Option<String>) -> Explanation {
    let binders = term.binders(at);
    let kinds: Vec<Kind> = binders.iter().rev().map(|&binder| term.book.parts[binder].kind).collect();
    let named = |(place, &binder): (usize, &usize)| name(binder).unwrap_or_else(|| variable(&kinds, kinds.len() - 1 - place));
    let mut names: Vec<String> = binders.iter().enumerate().take(BINDERS).map(named).collect();
    if binders.len() > BINDERS {
        names.push("...".into());
    }
    let around = if names.is_empty() { "none".into() } else { format!("{}, from the inside {}", binders.len(), names.join(", ")) };
    Explanation::says("this variable has no binder")
        .fact("binders it skips", term.book.parts[at].datum.to_string())
        .fact("binders around it", around)
        .helps("Count the functions and fixpoints around it from the inside: the innermost is 0. In the notation, write the name that is bound.")
}

fn root(book: &Book) -> (Kind, i64) {
    (book.parts[book.root].kind, book.parts[book.root].datum)
}

/// The first part of a record, a record type or a function type: the content, or the input.
fn content(book: &Book) -> Book {
    book.part(book.parts[book.root].references[0])
}

fn of_application(term: &Term, at: usize, labels: &Labels) -> Explanation {
    let [function, argument, _] = term.book.parts[at].references;
    let found = term.type_of(function);
    let parts_found = found.as_ref().map_or(vec![], parts);
    let is_function = |part: &Book| root(part).0 == Kind::Arrow;
    let in_field = |part: &Book| root(part).0 == Kind::RecordType && parts(&content(part)).iter().any(is_function);
    let subtracts = term.book.parts[argument].kind == Kind::Number && term.book.parts[argument].datum < 0;
    let help = match (parts_found.iter().find(|part| is_function(part)), parts_found.iter().find(|part| in_field(part))) {
        (Some(function), _) => {
            let meant = short(function, labels).unwrap_or("the function type that is meant".into());
            format!("There is a function in it: annotate it before it is applied, as in (... : {meant}).")
        }
        (_, Some(record)) => {
            format!("There is a function in field {0}: read it first, as in (...).{0}", labels.shown(root(record).1))
        }
        _ if subtracts => "There is no subtraction: write + before the minus.".into(),
        _ => "Apply a function. If function and argument are swapped, swap them.".into(),
    };
    Explanation::says("what is applied here is no function").with_type("applied is", found.as_ref(), labels).helps(help)
}

fn of_read(term: &Term, at: usize, labels: &Labels) -> Explanation {
    let part = term.book.parts[at];
    let found = term.type_of(part.references[0]);
    let records: Vec<Book> =
        found.as_ref().map_or(vec![], parts).into_iter().filter(|part| root(part).0 == Kind::RecordType).collect();
    let field = labels.shown(part.datum);
    let missing = format!("there is no field {field} here to read");
    let shows_something = |record: &&Book| is_below(&top(term.book.version), std::slice::from_ref(record)) == Some(false);
    let (sentence, help) = match records.iter().filter(|record| root(record).1 == part.datum).find(shows_something) {
        Some(record) => {
            let meant = short(record, labels).unwrap_or("the record type that is meant".into());
            let help = format!("Annotate what is read from, as in (... : {meant}), or take one of them out.");
            (format!("field {field} is there more than once"), help)
        }
        None if found.is_none() => (format!("field {field} is not there, or more than once"), "Compare the label.".into()),
        None if records.is_empty() => (missing, no_fields(found.as_ref()).into()),
        None => {
            let mut others: Vec<i64> = records.iter().map(|record| root(record).1).collect();
            others.sort_unstable();
            others.dedup();
            let others: Vec<String> = others.into_iter().map(|label| labels.shown(label)).collect();
            (missing, format!("Compare the label: there is {}.", others.join(", ")))
        }
    };
    Explanation::says(sentence).with_type("read from", found.as_ref(), labels).helps(help)
}

fn no_fields(found: Option<&Book>) -> &'static str {
    match found.map(|found| root(found).0) {
        Some(Kind::Int) => "It is a number, which has no fields.",
        Some(Kind::Arrow) => "It is a function, which has no fields: apply it first.",
        _ => "Read from a record.",
    }
}

/// Why a half need not agree with the other.
#[derive(Clone, Copy, PartialEq, Eq)]
pub enum Reason {
    /// It uses a variable of a binder around the merge: alone it has a variable without a binder.
    Outside,
    /// It is no value yet, as a run of no steps says.
    NoValue,
}

pub fn reason(half: &Book) -> Option<Reason> {
    match run(&half.bytes(), 0) {
        Ok(ran) => (ran.stop != Stop::Value).then_some(Reason::NoValue),
        Err(refusal) => (refusal.number == 11).then_some(Reason::Outside),
    }
}

/// What is merged, in words: the sentence, and what each half, one of them and both are called.
pub struct Halves {
    pub sentence: &'static str,
    pub names: [&'static str; 2],
    pub one: &'static str,
    pub both: &'static str,
}

const OF_MERGE: Halves = Halves {
    sentence: "the two halves of this merge overlap, and nothing says which of them counts",
    names: ["left half", "right half"],
    one: "one half",
    both: "halves",
};

fn of_merge(term: &Term, at: usize, labels: &Labels) -> Explanation {
    let [left, right, _] = term.book.parts[at].references;
    let types = [left, right].map(|half| term.type_of(half));
    let halves = [left, right].map(|half| term.book.part(half));
    overlap(&OF_MERGE, halves, types, labels)
}

/// Two halves that may not be merged, and their types.
pub fn overlap(words: &Halves, halves: [Book; 2], types: [Option<Book>; 2], labels: &Labels) -> Explanation {
    let reasons = [&halves[0], &halves[1]].map(reason);
    let clash = match (reasons, &types) {
        ([None, None], _) => clash(&halves[0], &halves[1], may_be_merged),
        (_, [Some(one), Some(other)]) => clash(one, other, are_disjoint),
        _ => None,
    };
    let Clash { fields, parts: [one, other] } = clash.unwrap_or_default();
    let fields: Vec<String> = fields.into_iter().map(|label| labels.shown(label)).collect();
    let shown = |part: &Option<Book>| part.as_ref().map_or(vec![], |part| lines_of(part, labels));
    Explanation::says(words.sentence)
        .with_type(words.names[0], types[0].as_ref(), labels)
        .with_type(words.names[1], types[1].as_ref(), labels)
        .facts("in field", if fields.is_empty() { vec![] } else { vec![fields.join(".")] })
        .facts("overlap", shown(&one))
        .facts("with", shown(&other))
        .helps(why(words, reasons))
        .helps(way_out(words, one.map(|one| root(&one).0)))
}

/// What overlaps in two halves: the first parts that may not stand beside each other, and the fields that they are found in.
#[derive(Default)]
struct Clash {
    fields: Vec<i64>,
    parts: [Option<Book>; 2],
}

/// Two types or two closed values, and whether parts of them may stand beside each other. Of records of one label that clash the contents
/// do, and are looked into if they have fields.
fn clash(one: &Book, other: &Book, fit: fn(&[Book], &[Book]) -> Option<bool>) -> Option<Clash> {
    let (mut fields, mut one, mut other) = (Vec::new(), one.clone(), other.clone());
    loop {
        let (ones, others) = (parts(&one), parts(&other));
        let first = first_no(&ones, |some| fit(some, &others))?;
        let second = first_no(&others, |some| fit(std::slice::from_ref(first), some))?;
        let is_record = |part: &Book| matches!(root(part).0, Kind::Record | Kind::RecordType);
        let has_fields = |part: &Book| parts(&content(part)).iter().any(is_record);
        if !is_record(first) || !has_fields(first) && !has_fields(second) {
            return Some(Clash { fields, parts: [Some(first.clone()), Some(second.clone())] });
        }
        fields.push(root(first).1);
        (one, other) = (content(first), content(second));
    }
}

fn why(words: &Halves, reasons: [Option<Reason>; 2]) -> String {
    let Halves { names: [left, right], both, .. } = words;
    let says = |reason: Reason| match reason {
        Reason::Outside => "uses a variable from outside",
        Reason::NoValue => "is no value yet",
    };
    let why = match reasons {
        [None, None] => return format!("Both {both} are values, but where they overlap they are not the same."),
        [Some(Reason::Outside), Some(Reason::Outside)] => format!("Both {both} use variables from outside"),
        [Some(Reason::NoValue), Some(Reason::NoValue)] => format!("Both {both} are no values yet"),
        [Some(one), Some(other)] => format!("The {left} {}, and the {right} {}", says(one), says(other)),
        [Some(one), None] => format!("The {left} {}", says(one)),
        [None, Some(other)] => format!("The {right} {}", says(other)),
    };
    format!("{why}: only {both} of disjoint types may be merged then.")
}

/// What helps where parts of this kind, terms or types, overlap.
fn way_out(words: &Halves, kind: Option<Kind>) -> String {
    let rest = format!("out of {0}, or annotate {0} with a type that leaves it out.", words.one);
    match kind {
        Some(Kind::Record | Kind::RecordType) => format!("Give the records different labels, take the field {rest}"),
        Some(Kind::Function | Kind::Arrow) => {
            format!("Take the function {rest} Functions agree if body and input type are the same.")
        }
        Some(Kind::Number | Kind::Int) => format!("Take the number {rest}"),
        _ => format!("Take the part {rest}"),
    }
}

fn of_checked(term: &Term, at: usize, labels: &Labels) -> Explanation {
    let (by, wanted) = wanted(term, at);
    let found = term.type_of(at);
    let missing = wanted.as_ref().zip(found.as_ref()).and_then(|(wanted, found)| missing(wanted, found));
    let [wants, finds] = [&wanted, &found].map(|a_type| a_type.as_ref().and_then(|a_type| short(a_type, labels)));
    let sentence = match wants.zip(finds) {
        Some((wants, finds)) => format!("a term of type {wants} is wanted here, and this one has type {finds}"),
        None => "this term has not the type that is wanted here".into(),
    };
    let help = match term.above(at).map(|(above, _)| term.book.parts[above].kind) {
        _ if reads_nothing(term, at) => {
            "What it reads from has no such field, so all that is known of it is Top: compare the label."
        }
        Some(Kind::Sum) => "Only numbers can be added: read one from it, or put one in its place.",
        Some(Kind::Choice) => "A choice tests a number, and is between numbers: read one from it, or put one in its place.",
        _ if missing.is_some() => "Merge what is missing into the term, or take it out of the type that is wanted.",
        _ => "Change the term, or the type that is wanted of it.",
    };
    Explanation::says(sentence)
        .with_type("wanted", wanted.as_ref(), labels)
        .fact("by", by)
        .with_type("found", found.as_ref(), labels)
        .facts("missing", missing.map_or(vec![], |missing| lines_of(&missing, labels)))
        .helps(help)
}

/// Whether a term reads a field that no part of what it reads from has.
fn reads_nothing(term: &Term, at: usize) -> bool {
    let part = term.book.parts[at];
    let has_field = |of: &Book| root(of) == (Kind::RecordType, part.datum);
    part.kind == Kind::Read && term.type_of(part.references[0]).is_some_and(|from| !parts(&from).iter().any(has_field))
}

/// Who wants a type of a term, and which: the part above it.
fn wanted(term: &Term, at: usize) -> (String, Option<Book>) {
    let Some((above, place)) = term.above(at) else {
        return ("nothing".into(), None);
    };
    let part = term.book.parts[above];
    let named = |place: usize| Some(term.book.part(part.references[place]));
    match part.kind {
        Kind::Annotation => ("the annotation".into(), named(1)),
        Kind::Function => ("the function, of its body".into(), named(2)),
        Kind::Fixpoint => ("the fixpoint, of its body".into(), named(1)),
        Kind::Application => ("the function, of its argument".into(), term.type_of(part.references[0]).map(|of| input_of(&of))),
        kind => {
            let mut int = Book::new(term.book.version);
            int.add(Kind::Int, &[]);
            (format!("the {}, of its part '{}'", kind.row().name, kind.row().references[place].1), Some(int))
        }
    }
}

/// The input of a function type; that of Top is Top.
fn input_of(function: &Book) -> Book {
    match root(function).0 {
        Kind::Arrow => content(function),
        _ => function.clone(),
    }
}

/// Of a wanted type with several parts, the first that the found type is not below.
fn missing(wanted: &Book, found: &Book) -> Option<Book> {
    let parts = parts(wanted);
    first_no(&parts, |some| is_below(found, some)).filter(|_| parts.len() > 1).cloned()
}
