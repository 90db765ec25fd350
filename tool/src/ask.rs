//! What the library says. Every question about types and values becomes a book, and the library's answer is the answer; which type a part
//! names is read off the table of docs/FORMAT.md.

use crate::book::{Book, Part, CELL};
use crate::kinds::Kind;
pub use cerealbank::Which;
use cerealbank::{Answer, Joined, RunAnswer, SheetAnswer, PROJECT, WORK};
use std::collections::HashMap;

/// A refusal: its number and its cell.
#[derive(Clone, Copy, PartialEq, Eq, Debug)]
pub struct Refusal {
    pub number: u8,
    pub cell: usize,
}

/// Why a run stopped.
#[derive(Clone, Copy, PartialEq, Eq, Debug)]
pub enum Stop {
    Value,
    Spent,
    Room,
}

/// A run: why it stopped, after how many steps, the greatest size of any term so far, and the book of the term reached.
#[derive(PartialEq, Eq, Debug)]
pub struct Ran {
    pub stop: Stop,
    pub steps: u32,
    pub mark: u32,
    pub left: Vec<u8>,
}

impl Ran {
    /// The size of the term reached: nothing is shared in its book.
    pub fn cells(&self) -> usize {
        self.left.len() / CELL - 1
    }
}

/// An answer that the library never gives. It names no cell.
pub const NO_ANSWER: Refusal = Refusal { number: 0, cell: 0 };

/// Checks a book: its type as a book, or the refusal.
pub fn check(book: &[u8]) -> Result<Vec<u8>, Refusal> {
    let mut work = vec![0; WORK];
    match cerealbank::check(book, &mut work) {
        Answer::Accepted { .. } => Ok(Book::left_in(&work).to_vec()),
        other => Err(refusal(other)),
    }
}

/// Runs a book.
pub fn run(book: &[u8], limit: u32) -> Result<Ran, Refusal> {
    let mut work = vec![0; WORK];
    let (stop, steps, mark) = match cerealbank::run(book, &mut work, limit) {
        RunAnswer::Value { steps, mark } => (Stop::Value, steps, mark),
        RunAnswer::Spent { steps, mark } => (Stop::Spent, steps, mark),
        RunAnswer::Room { steps, mark } => (Stop::Room, steps, mark),
        RunAnswer::Refused { number, cell } => return Err(Refusal { number, cell: cell as usize }),
        RunAnswer::Unknown { .. } => return Err(NO_ANSWER),
    };
    Ok(Ran { stop, steps, mark, left: Book::left_in(&work).to_vec() })
}

/// A settings sheet: its type as a book, and the steps that it takes to its value.
pub struct Sheet {
    pub found: Vec<u8>,
    pub steps: u32,
}

/// Asks of a book how many steps it takes as a settings sheet, or why it is refused.
pub fn sheet(book: &[u8]) -> Result<Sheet, Refusal> {
    let mut work = vec![0; WORK];
    match cerealbank::sheet(book, &mut work) {
        SheetAnswer::Accepted { steps, .. } => Ok(Sheet { found: Book::left_in(&work).to_vec(), steps }),
        SheetAnswer::Refused { number, cell } => Err(Refusal { number, cell: cell as usize }),
        SheetAnswer::Unknown { .. } => Err(NO_ANSWER),
    }
}

/// The joint of two books, and its type as a book.
pub struct Joint {
    pub bytes: Vec<u8>,
    pub found: Vec<u8>,
}

/// What is told of a joint: how many bytes it has, and its type as a book, of its version.
pub struct Told {
    pub bytes: usize,
    pub found: Vec<u8>,
}

/// Joins a part to a project, or says which book is refused, and how.
pub fn join(project: &[u8], part: &[u8]) -> Result<Joint, (Which, Refusal)> {
    let (mut lent, mut work) = (lent(project), vec![0; WORK]);
    let joined = cerealbank::join(&mut lent, project.len(), part, &mut work);
    let Told { bytes, found } = told(joined, &work)?;
    Ok(Joint { bytes: lent[..bytes].to_vec(), found })
}

/// What a join would tell.
pub fn preview(project: &[u8], part: &[u8]) -> Result<Told, (Which, Refusal)> {
    let mut work = vec![0; WORK];
    let joined = cerealbank::preview(&lent(project), project.len(), part, &mut work);
    told(joined, &work)
}

/// A project in as many bytes as it is lent in; of one that is longer its length tells.
fn lent(project: &[u8]) -> Vec<u8> {
    let mut lent = project.to_vec();
    lent.resize(PROJECT, 0);
    lent
}

fn told(joined: Joined, work: &[u8]) -> Result<Told, (Which, Refusal)> {
    match joined.answer {
        Answer::Accepted { .. } => Ok(Told { bytes: joined.bytes, found: Book::left_in(work).to_vec() }),
        other => Err((joined.which, refusal(other))),
    }
}

fn refusal(answer: Answer) -> Refusal {
    match answer {
        Answer::Refused { number, cell } => Refusal { number, cell: cell as usize },
        _ => NO_ANSWER,
    }
}

/// A book with nothing shared, and of each of its cells the one above it, and how many binders around it its variables go to.
pub struct Term {
    pub book: Book,
    above: Vec<Option<usize>>,
    free: Vec<usize>,
}

impl Term {
    pub fn new(book: Book) -> Term {
        let mut above = vec![None; book.parts.len()];
        for (at, part) in book.parts.iter().enumerate() {
            part.children().iter().for_each(|&child| above[child] = Some(at));
        }
        let free = book.free();
        Term { book, above, free }
    }

    /// The cell that refers to this one, and by which field.
    pub fn above(&self, at: usize) -> Option<(usize, usize)> {
        let above = self.above[at]?;
        let place = self.book.parts[above].children().iter().position(|&child| child == at)?;
        Some((above, place))
    }

    /// The binders around a cell, the innermost first.
    pub fn binders(&self, at: usize) -> Vec<usize> {
        let mut binders = Vec::new();
        let mut here = at;
        while let Some((above, place)) = self.above(here) {
            if self.book.parts[above].kind.binders_over(place) > 0 {
                binders.push(above);
            }
            here = above;
        }
        binders
    }

    /// The type that the library finds for a term that stands under binders; None if the question is too large. A variable of a binder around
    /// it becomes `fix x : A . x`, a closed term of the type A that the variable has, and so does a part that names its type and is no closed
    /// value: an annotation, a fixpoint, a function with such a variable, a sum and a choice.
    pub fn type_of(&self, at: usize) -> Option<Book> {
        let made = Book::new(self.book.version);
        let mut asking = Asking { term: self, binders: self.binders(at), stand_ins: HashMap::new(), made };
        asking.copy(at, 0);
        asked(&asking.made).ok()
    }
}

struct Asking<'a> {
    term: &'a Term,
    binders: Vec<usize>,
    /// What stands for a binder's variable, laid down once.
    stand_ins: HashMap<usize, usize>,
    made: Book,
}

impl Asking<'_> {
    fn copy(&mut self, at: usize, within: usize) -> usize {
        let part = self.term.book.parts[at];
        let outer = (part.datum as usize).checked_sub(within).filter(|_| part.kind == Kind::Variable);
        if let Some(&binder) = outer.and_then(|outer| self.binders.get(outer)) {
            return self.stand_in(binder);
        }
        if within == 0 && self.names_type(at) {
            let of = self.named_type(part);
            return stand_in(&mut self.made, of);
        }
        let mut copied = part;
        for (place, &child) in part.children().iter().enumerate() {
            copied.references[place] = self.copy(child, within + part.kind.binders_over(place));
        }
        self.made.push(copied)
    }

    /// Whether a part names its type, and is no closed value.
    fn names_type(&self, at: usize) -> bool {
        match self.term.book.parts[at].kind {
            Kind::Annotation | Kind::Fixpoint | Kind::Sum | Kind::Choice => true,
            Kind::Function => self.term.free[at] > 0,
            _ => false,
        }
    }

    fn named_type(&mut self, part: Part) -> usize {
        match part.kind {
            Kind::Sum | Kind::Choice => self.made.add(Kind::Int, &[]),
            Kind::Function => {
                let [input, output] = [1, 2].map(|place| self.copy(part.references[place], 0));
                self.made.add(Kind::Arrow, &[input, output])
            }
            _ => self.copy(part.references[1], 0),
        }
    }

    fn stand_in(&mut self, binder: usize) -> usize {
        if let Some(&known) = self.stand_ins.get(&binder) {
            return known;
        }
        let of = self.copy(self.term.book.parts[binder].references[1], 0);
        let made = stand_in(&mut self.made, of);
        self.stand_ins.insert(binder, made);
        made
    }
}

/// `fix x : A . x`, which has the type A, whatever A is, and is no value.
fn stand_in(book: &mut Book, of: usize) -> usize {
    let variable = book.push(Part::new(Kind::Variable, 0, &[]));
    book.add(Kind::Fixpoint, &[variable, of])
}

/// The type of the root, or the refusal.
pub fn asked(book: &Book) -> Result<Book, Refusal> {
    let type_found = check(&book.bytes())?;
    Book::read(&type_found).ok_or(NO_ANSWER)
}

/// The parts of a type, or of a merge: the halves of an intersection that are none themselves, and the parts of those that are; the same of
/// merges. Each is a book.
pub fn parts(of: &Book) -> Vec<Book> {
    let joins = |kind: Kind| matches!(kind, Kind::And | Kind::Merge);
    let mut parts = Vec::new();
    let mut left = vec![of.root];
    while let Some(at) = left.pop() {
        match of.parts[at] {
            Part { kind, references: [a, b, _], .. } if joins(kind) => left.extend([b, a]),
            _ => parts.push(of.part(at)),
        }
    }
    parts
}

/// Copies a book's root behind what another has.
fn append(to: &mut Book, book: &Book) -> usize {
    let start = to.parts.len();
    for part in &book.parts {
        to.push(part.moved(|child| child + start));
    }
    start + book.root
}

/// Types in an intersection, or terms in a merge.
fn joined(to: &mut Book, kind: Kind, books: &[Book]) -> usize {
    let mut whole = None;
    for book in books {
        let right = append(to, book);
        whole = Some(whole.map_or(right, |left| to.add(kind, &[left, right])));
    }
    whole.unwrap_or(0)
}

/// The type Top.
pub fn top(version: u8) -> Book {
    let mut book = Book::new(version);
    book.add(Kind::Top, &[]);
    book
}

/// Whether the root is accepted, or refused with this number; any other refusal, such as that of a book too large, says neither.
fn is_accepted(book: &Book, no: u8) -> Option<bool> {
    match asked(book) {
        Ok(_) => Some(true),
        Err(refusal) => (refusal.number == no).then_some(false),
    }
}

/// Whether one type is below all others: whether a term of the one may be annotated with them.
pub fn is_below(one: &Book, others: &[Book]) -> Option<bool> {
    let mut book = Book::new(one.version);
    let of = append(&mut book, one);
    let term = stand_in(&mut book, of);
    let wanted = joined(&mut book, Kind::And, others);
    book.add(Kind::Annotation, &[term, wanted]);
    is_accepted(&book, 15)
}

/// Whether types are disjoint with others: whether terms of them that are no values may be merged.
pub fn are_disjoint(ones: &[Book], others: &[Book]) -> Option<bool> {
    let mut book = Book::new(ones.first()?.version);
    let [left, right] = [ones, others].map(|types| {
        let of = joined(&mut book, Kind::And, types);
        stand_in(&mut book, of)
    });
    book.add(Kind::Merge, &[left, right]);
    is_accepted(&book, 14)
}

/// Whether closed values may be merged with others.
pub fn may_be_merged(ones: &[Book], others: &[Book]) -> Option<bool> {
    let mut book = Book::new(ones.first()?.version);
    let [left, right] = [ones, others].map(|values| joined(&mut book, Kind::Merge, values));
    book.add(Kind::Merge, &[left, right]);
    is_accepted(&book, 14)
}

/// The first of several books for which the answer is no, where it is yes for several precisely if it is for each; None if there is none,
/// or if a question has no answer.
pub fn first_no(books: &[Book], yes: impl Fn(&[Book]) -> Option<bool>) -> Option<&Book> {
    let mut left = books;
    while left.len() > 1 {
        let (first, second) = left.split_at(left.len() / 2);
        left = if yes(first)? { second } else { first };
    }
    let last = left.first()?;
    (!yes(left)?).then_some(last)
}
