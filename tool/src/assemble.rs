//! A tree becomes a book: the assembler counts binders and lays named parts once.

use crate::book::{Book, Part, MOST_CELLS};
use crate::kinds::Kind;
use crate::labels::Labels;
use crate::parse::{ends, fits, parse, Form, Tree};
use crate::source::{Fault, Span};
use std::collections::HashMap;

/// A book, and the stretch of the text that each cell was written as.
pub struct Assembled {
    pub book: Book,
    pub spans: Vec<Span>,
    pub labels: Labels,
}

/// A book with nothing shared, and how each cell of it came about.
#[derive(Default)]
pub struct Written {
    pub book: Book,
    pub spans: Vec<Span>,
    /// The use of a name that a cell is laid down for.
    used: Vec<Option<usize>>,
    /// The uses of names, each with the one that it is a part of.
    uses: Vec<(Span, Option<usize>)>,
    /// The variables of the functions and fixpoints, by their cells.
    pub variables: HashMap<usize, String>,
}

impl Written {
    /// Where the names stand that a cell is a part of, the innermost first.
    pub fn uses(&self, cell: usize) -> impl Iterator<Item = Span> + '_ {
        let first = self.used.get(cell).copied().flatten();
        std::iter::successors(first, |&at| self.uses[at].1).map(|at| self.uses[at].0)
    }
}

struct Assembler<'a> {
    tree: &'a Tree,
    /// Whether named parts are laid down at each use, and nowhere else.
    opened: bool,
    /// Of the nodes with a name, whether a variable of a binder around the name is used in them.
    named: HashMap<usize, bool>,
    /// Where a named node is laid; of one that uses outer variables, by how many binders are around it.
    laid: HashMap<(usize, usize), usize>,
    binders: Vec<usize>,
    /// The use of a name whose part is being laid.
    within: Option<usize>,
    made: Written,
}

/// Assembles a text. What is asked for here goes before what the text says.
pub fn assemble(text: &str, version: Option<u8>, share: bool) -> Result<Assembled, Fault> {
    let tree = parse(text)?;
    let Written { mut book, mut spans, .. } = assembled(&tree, version, false)?;
    if share || tree.share {
        let shared = book.shared();
        spans = shared.of.iter().map(|&at| spans[at]).collect();
        book = shared.book;
    }
    Ok(Assembled { book, spans, labels: tree.labels })
}

/// Assembles a text with nothing shared: every cell is one place of it.
pub fn opened(text: &str) -> Result<Written, Fault> {
    assembled(&parse(text)?, None, true)
}

fn assembled(tree: &Tree, version: Option<u8>, opened: bool) -> Result<Written, Fault> {
    let book = Book::new(version.or(tree.version).unwrap_or(1));
    let named = tree.named.iter().copied().collect();
    let made = Written { book, ..Written::default() };
    let mut assembler = Assembler { tree, opened, named, laid: HashMap::new(), binders: vec![], within: None, made };
    let root = assembler.lay(tree.root)?;
    assembler.made.book.root = root;
    Ok(assembler.made)
}

impl Assembler<'_> {
    fn lay(&mut self, node: usize) -> Result<usize, Fault> {
        let named = self.named.get(&node).filter(|_| !self.opened);
        let key = named.map(|&open| (node, if open { self.binders.len() } else { usize::MAX }));
        if let Some(&cell) = key.and_then(|key| self.laid.get(&key)) {
            return Ok(cell);
        }
        let cell = match self.tree.nodes[node].form {
            Form::Let(_, rest) if self.opened => self.lay(rest)?,
            Form::Let(part, rest) => {
                self.lay(part)?;
                self.lay(rest)?
            }
            Form::Use(part) => self.lay_use(node, part)?,
            Form::Bound(binder) => {
                let place = self.binders.iter().rev().position(|&other| other == binder).unwrap_or(0);
                self.push(node, Part::new(Kind::Variable, place as i64, &[]))?
            }
            Form::Part(part) => self.lay_part(node, part)?,
        };
        if let Some(key) = key {
            self.laid.insert(key, cell);
        }
        Ok(cell)
    }

    fn lay_use(&mut self, node: usize, part: usize) -> Result<usize, Fault> {
        let around = self.within;
        self.made.uses.push((self.tree.nodes[node].at, around));
        self.within = Some(self.made.uses.len() - 1);
        let cell = self.lay(part)?;
        self.within = around;
        Ok(cell)
    }

    fn lay_part(&mut self, node: usize, part: Part) -> Result<usize, Fault> {
        let mut moved = part;
        for (place, &child) in part.children().iter().enumerate() {
            let within = part.kind.binders_over(place) > 0;
            if within {
                self.binders.push(self.tree.nodes[node].binder);
            }
            moved.references[place] = self.lay(child)?;
            if within {
                self.binders.pop();
            }
        }
        let cell = self.push(node, moved)?;
        if part.kind.binds() {
            let name = self.tree.variables[self.tree.nodes[node].binder].clone();
            self.made.variables.insert(cell, name);
        }
        Ok(cell)
    }

    fn push(&mut self, node: usize, part: Part) -> Result<usize, Fault> {
        let at = self.tree.nodes[node].at;
        let version = self.made.book.version;
        if !fits(&part, version) {
            let (low, high) = ends(version);
            let further = if version == 1 { "; version 2 goes further" } else { "" };
            return Err(Fault::new(at, format!("a number of version {version} goes from {low} to {high}{further}")));
        }
        if self.made.spans.len() == MOST_CELLS {
            return Err(Fault::new(at, format!("with this the book has more than {MOST_CELLS} cells")));
        }
        self.made.spans.push(at);
        self.made.used.push(self.within);
        Ok(self.made.book.push(part))
    }
}
