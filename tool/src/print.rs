//! A book in the notation.

use crate::book::Book;
use crate::kinds::{Kind, Sort};
use crate::labels::Labels;
use crate::layout::{all, bracketed, end, group, lay_out, line, line_before, mark, nest, text, Doc, Laid};
use crate::names::{name, Names};

/// How loosely a form holds together; brackets keep a looser one within a tighter one.
#[derive(Clone, Copy, PartialEq, Eq, PartialOrd, Ord)]
enum Hold {
    Atom,
    Read,
    Application,
    Sum,
    Merge,
    Choice,
    Let,
    Binder,
    Annotation,
}

/// The same of types.
#[derive(Clone, Copy, PartialEq, Eq, PartialOrd, Ord)]
enum TypeHold {
    Atom,
    And,
    Arrow,
}

pub struct Printer<'a> {
    book: &'a Book,
    names: &'a Names,
    labels: &'a Labels,
    marked: Option<usize>,
    /// The kinds of the binders around, from the outside.
    binders: Vec<Kind>,
}

/// The root, its names in front of it; the marked cell is marked.
pub fn whole(book: &Book, names: &Names, labels: &Labels, marked: Option<usize>) -> Doc {
    let mut printer = Printer { book, names, labels, marked, binders: Vec::new() };
    let named = printer.definitions(names.front());
    let root = match book.parts[book.root].sort() {
        Sort::Type => all(vec![text("type "), printer.a_type(book.root, TypeHold::Arrow)]),
        Sort::Term => printer.term(book.root, Hold::Annotation),
    };
    all(vec![named, root])
}

/// The root with nothing named, laid out; the marked cell is marked, and so many columns stand in front of every line.
pub fn laid(book: &Book, labels: &Labels, marked: Option<usize>, lead: usize) -> Laid {
    lay_out(&whole(book, &Names::none(book), labels, marked), lead)
}

/// The root type, without the word that stands before a type.
pub fn bare_type(book: &Book, labels: &Labels) -> Doc {
    let names = Names::none(book);
    Printer { book, names: &names, labels, marked: None, binders: Vec::new() }.a_type(book.root, TypeHold::Arrow)
}

/// An answer's words, and behind them the type that a call has left, a book of its own.
pub fn typed(answer: &str, found: &[u8], labels: &Labels) -> String {
    let lines = Book::read(found).map_or(vec![], |found| lay_out(&bare_type(&found, labels), answer.len()).lines);
    format!("{answer}{}\n", lines.join("\n  "))
}

/// The name of a binder's variable.
pub fn variable(binders: &[Kind], place: usize) -> String {
    let number = binders[..=place].iter().filter(|&&kind| kind == binders[place]).count();
    match (binders[place], number) {
        (Kind::Fixpoint, 1) => "self".into(),
        (Kind::Fixpoint, _) => format!("self{number}"),
        (_, 1..=3) => ["x", "y", "z"][number - 1].into(),
        _ => format!("x{number}"),
    }
}

impl Printer<'_> {
    /// Names given, each on a line.
    fn definitions(&mut self, cells: &[usize]) -> Doc {
        all(cells.iter().flat_map(|&at| [self.definition(at), end()]).collect())
    }

    fn definition(&mut self, at: usize) -> Doc {
        let (word, part) = match self.book.parts[at].sort() {
            Sort::Type => ("type", self.type_itself(at, TypeHold::Arrow)),
            Sort::Term => ("let", self.itself(at, Hold::Annotation)),
        };
        let head = text(format!("{word} {} =", name(self.book, at)));
        let gap = if self.gives_names(at) { end() } else { text(" ") };
        all(vec![head, nest(all(vec![gap, part])), text(" in")])
    }

    fn marked(&self, at: usize, doc: Doc) -> Doc {
        if self.marked == Some(at) {
            mark(doc)
        } else {
            doc
        }
    }

    /// A cell where one may stand that holds as loosely as this: its name, or itself.
    fn term(&mut self, at: usize, within: Hold) -> Doc {
        if self.names.is_named(at) {
            return text(name(self.book, at));
        }
        self.itself(at, within)
    }

    fn itself(&mut self, at: usize, within: Hold) -> Doc {
        let names = self.names;
        let named = self.definitions(names.within(at));
        let doc = all(vec![named, self.form(at)]);
        let doc = self.marked(at, doc);
        match self.hold(at) <= within {
            true => doc,
            false => bracketed("(", nest(group(doc)), ")"),
        }
    }

    fn hold(&self, at: usize) -> Hold {
        let hold = match self.book.parts[at].kind {
            Kind::Annotation => Hold::Annotation,
            Kind::Function | Kind::Fixpoint => Hold::Binder,
            Kind::Choice => Hold::Choice,
            Kind::Merge => Hold::Merge,
            Kind::Sum => Hold::Sum,
            Kind::Application => Hold::Application,
            Kind::Read => Hold::Read,
            _ => Hold::Atom,
        };
        if self.gives_names(at) {
            hold.max(Hold::Let)
        } else {
            hold
        }
    }

    fn gives_names(&self, at: usize) -> bool {
        !self.names.within(at).is_empty()
    }

    fn form(&mut self, at: usize) -> Doc {
        let part = self.book.parts[at];
        let [a, b, c] = part.references;
        match part.kind {
            Kind::Variable => text(self.variable(part.datum as usize)),
            Kind::Number => text(part.datum.to_string()),
            Kind::Annotation => self.annotation(a, b),
            Kind::Application => {
                group(all(vec![self.term(a, Hold::Application), nest(all(vec![line(), self.term(b, Hold::Read)]))]))
            }
            Kind::Function => self.function(a, b, c),
            Kind::Fixpoint => self.fixpoint(a, b),
            Kind::Merge => group(self.row(at, ",, ", Hold::Merge, Hold::Sum)),
            Kind::Sum => group(self.row(at, "+ ", Hold::Sum, Hold::Application)),
            Kind::Choice => self.choice(a, b, c),
            Kind::Record => {
                let content = self.term(a, Hold::Annotation);
                self.braced(part.datum, "=", content)
            }
            Kind::Read => self.read(a, part.datum),
            _ => text("T"),
        }
    }

    fn variable(&self, skipped: usize) -> String {
        let place = self.binders.len().checked_sub(skipped + 1);
        place.map_or(format!("#{skipped}"), |place| variable(&self.binders, place))
    }

    /// To the left of an annotation stands another, or at most a sum: a merge has brackets, though it needs none.
    fn annotation(&mut self, term: usize, wanted: usize) -> Doc {
        let chained = self.hold(term) == Hold::Annotation && !self.gives_names(term);
        let left = self.term(term, if chained { Hold::Annotation } else { Hold::Sum });
        let annotation = all(vec![text(": "), self.a_type(wanted, TypeHold::Arrow)]);
        all(vec![left, nest(all(vec![line_before(" ", &annotation), annotation]))])
    }

    /// Merges, or sums, in a row: broken all or nowhere.
    fn row(&mut self, at: usize, sign: &str, left: Hold, right: Hold) -> Doc {
        let [a, b, _] = self.book.parts[at].references;
        let first = if self.hold(a) == left && !self.names.is_named(a) {
            let row = self.row(a, sign, left, right);
            self.marked(a, row)
        } else {
            self.term(a, left)
        };
        all(vec![first, line(), text(sign), nest(self.term(b, right))])
    }

    /// A record or a record type.
    fn braced(&self, label: i64, sign: &str, content: Doc) -> Doc {
        let head = format!("{{{} {sign}", self.labels.shown(label));
        group(bracketed(head, nest(all(vec![line(), content])), "}"))
    }

    fn read(&mut self, from: usize, label: i64) -> Doc {
        let is_number = self.book.parts[from].kind == Kind::Number && !self.names.is_named(from);
        let term = self.term(from, Hold::Read);
        let whole = if is_number { bracketed("(", term, ")") } else { term };
        let read = text(format!(".{}", self.labels.shown(label)));
        all(vec![whole, nest(all(vec![line_before("", &read), read]))])
    }

    fn bound(&mut self, kind: Kind, of: usize, body: usize, within: Hold) -> (Doc, Doc) {
        let input = self.a_type(of, TypeHold::Arrow);
        self.binders.push(kind);
        let name = variable(&self.binders, self.binders.len() - 1);
        let sign = if kind == Kind::Function { "\\" } else { "fix " };
        let body = self.term(body, within);
        self.binders.pop();
        (all(vec![text(format!("{sign}{name} : ")), input, text(" .")]), body)
    }

    fn function(&mut self, body: usize, input: usize, output: usize) -> Doc {
        let (head, body) = self.bound(Kind::Function, input, body, Hold::Let);
        let output = self.a_type(output, TypeHold::Arrow);
        group(all(vec![head, nest(all(vec![line(), body, line(), text(": "), output]))]))
    }

    fn fixpoint(&mut self, body: usize, of: usize) -> Doc {
        let (head, body) = self.bound(Kind::Fixpoint, of, body, Hold::Binder);
        group(all(vec![head, nest(all(vec![line(), body]))]))
    }

    fn choice(&mut self, tested: usize, for_zero: usize, otherwise: usize) -> Doc {
        let tested = nest(self.term(tested, Hold::Merge));
        let for_zero = nest(self.term(for_zero, Hold::Merge));
        let otherwise = nest(self.term(otherwise, Hold::Choice));
        group(all(vec![text("if "), tested, line(), text("then "), for_zero, line(), text("else "), otherwise]))
    }

    fn a_type(&mut self, at: usize, within: TypeHold) -> Doc {
        if self.names.is_named(at) {
            return text(name(self.book, at));
        }
        self.type_itself(at, within)
    }

    fn type_itself(&mut self, at: usize, within: TypeHold) -> Doc {
        let part = self.book.parts[at];
        let [a, b, _] = part.references;
        let (hold, doc) = match part.kind {
            Kind::Arrow => (TypeHold::Arrow, self.arrow(a, b)),
            Kind::And => (TypeHold::And, group(self.intersection(at))),
            Kind::RecordType => {
                let content = self.a_type(a, TypeHold::Arrow);
                (TypeHold::Atom, self.braced(part.datum, ":", content))
            }
            Kind::Int => (TypeHold::Atom, text("Int")),
            _ => (TypeHold::Atom, text("Top")),
        };
        let doc = self.marked(at, doc);
        match hold <= within {
            true => doc,
            false => bracketed("(", nest(doc), ")"),
        }
    }

    fn arrow(&mut self, input: usize, output: usize) -> Doc {
        let input = self.a_type(input, TypeHold::And);
        group(all(vec![input, line(), text("-> "), self.a_type(output, TypeHold::Arrow)]))
    }

    /// Intersections in a row: broken all or nowhere.
    fn intersection(&mut self, at: usize) -> Doc {
        let [a, b, _] = self.book.parts[at].references;
        let first = if self.book.parts[a].kind == Kind::And && !self.names.is_named(a) {
            let row = self.intersection(a);
            self.marked(a, row)
        } else {
            self.a_type(a, TypeHold::And)
        };
        all(vec![first, line(), text("& "), nest(self.a_type(b, TypeHold::Atom))])
    }
}
