//! The grammar of docs/NOTATION.md: a text becomes a tree whose variables know their binders.

use crate::book::{Part, MOST_CELLS};
use crate::kinds::{Datum, Kind};
use crate::labels::Labels;
use crate::lex::{words, Token, Word};
use crate::source::{Fault, Span};

/// How deep brackets and the like may be nested. A book is at most 4,095 deep.
pub const DEEPEST: usize = 10_000;
/// How many names `let` and `type` may give. A book has at most 4,095 parts to be named.
pub const MOST_NAMES: usize = 10_000;
/// The most characters of a name that an error repeats.
const SHOWN: usize = 40;

/// What a node of the tree is.
#[derive(Clone, Copy, Debug)]
pub enum Form {
    /// A part, its references nodes.
    Part(Part),
    /// The variable of a binder.
    Bound(usize),
    /// A named part, laid down first, and what it is named in.
    Let(usize, usize),
    /// A named part where its name stands.
    Use(usize),
}

pub struct Node {
    pub form: Form,
    pub at: Span,
    /// The binder that a function or fixpoint is.
    pub binder: usize,
    /// The outermost binder around it whose variable is used in it; the largest number if there is none.
    pub outermost: usize,
}

/// A text, read.
pub struct Tree {
    pub version: Option<u8>,
    pub share: bool,
    pub labels: Labels,
    pub nodes: Vec<Node>,
    /// The nodes that have a name, and whether a variable of a binder around the name is used in them.
    pub named: Vec<(usize, bool)>,
    /// The names of the binders' variables.
    pub variables: Vec<String>,
    pub root: usize,
}

#[derive(Clone, Copy)]
enum Meaning {
    Variable(usize),
    Part(usize),
}

struct Parser<'a> {
    words: Vec<(Token<'a>, Span)>,
    next: usize,
    depth: usize,
    parts: usize,
    /// The names of `let`s whose part is being read.
    unfinished: Vec<&'a str>,
    terms: Vec<(&'a str, Meaning)>,
    types: Vec<(&'a str, usize)>,
    tree: Tree,
}

type Read = Result<usize, Fault>;

/// Reads a text.
pub fn parse(text: &str) -> Result<Tree, Fault> {
    let tree = Tree {
        version: None,
        share: false,
        labels: Labels::default(),
        nodes: Vec::new(),
        named: Vec::new(),
        variables: Vec::new(),
        root: 0,
    };
    let (terms, types) = (Vec::new(), Vec::new());
    let mut parser = Parser { words: words(text)?, next: 0, depth: 0, parts: 0, unfinished: Vec::new(), terms, types, tree };
    while parser.declaration()? {}
    let root = parser.whole(true)?;
    if parser.token() != Token::End {
        return Err(parser.unexpected("the end"));
    }
    parser.tree.root = root;
    Ok(parser.tree)
}

impl<'a> Parser<'a> {
    fn token(&self) -> Token<'a> {
        self.words[self.next].0
    }

    fn place(&self) -> Span {
        self.words[self.next].1
    }

    fn advance(&mut self) {
        self.next = (self.next + 1).min(self.words.len() - 1);
    }

    fn eat(&mut self, token: Token) -> bool {
        let found = self.token() == token;
        if found {
            self.advance();
        }
        found
    }

    fn want(&mut self, token: Token, what: &str) -> Result<(), Fault> {
        match self.eat(token) {
            true => Ok(()),
            false if self.token() == Token::Colon && matches!(token, Token::Word(_)) => {
                Err(Fault::new(self.place(), "an annotation needs brackets here"))
            }
            false => Err(self.unexpected(what)),
        }
    }

    fn unexpected(&self, wanted: &str) -> Fault {
        let found = match self.token() {
            Token::End => "the text ends here",
            _ => "this does not belong here",
        };
        Fault::new(self.place(), format!("{found}: {wanted} is wanted"))
    }

    fn name(&mut self, of: &str) -> Result<&'a str, Fault> {
        match self.token() {
            Token::Name(name) => {
                self.advance();
                Ok(name)
            }
            Token::Word(_) => Err(Fault::new(self.place(), format!("this word is the notation's own: the name of {of} is wanted"))),
            _ => Err(self.unexpected(&format!("the name of {of}"))),
        }
    }

    /// A number between two ends.
    fn number(&mut self, digits: &str, low: i64, high: i64, what: &str) -> Result<i64, Fault> {
        let signed = low >= 0 && digits.starts_with('-');
        let fits = digits.parse().ok().filter(|number| (low..=high).contains(number) && !signed);
        let number = fits.ok_or_else(|| Fault::new(self.place(), format!("{what} goes from {low} to {high}")))?;
        self.advance();
        Ok(number)
    }

    /// `version N`, `share` or `label NAME = N`; false if there is none.
    fn declaration(&mut self) -> Result<bool, Fault> {
        let Token::Word(word @ (Word::Version | Word::Share | Word::Label)) = self.token() else {
            return Ok(false);
        };
        self.advance();
        match word {
            Word::Version => self.version()?,
            Word::Share => self.tree.share = true,
            _ => self.label_name()?,
        }
        Ok(true)
    }

    fn version(&mut self) -> Result<(), Fault> {
        let Token::Number(digits) = self.token() else {
            return Err(self.unexpected("the version, 1 or 2,"));
        };
        if self.tree.version.is_some() {
            return Err(Fault::new(self.place(), "the version is said already"));
        }
        self.tree.version = Some(self.number(digits, 1, 2, "a version")? as u8);
        Ok(())
    }

    fn label_name(&mut self) -> Result<(), Fault> {
        let at = self.place();
        let name = self.name("a label")?;
        self.want(Token::Equals, "`=`")?;
        let number = self.label(false)?;
        let labels = &mut self.tree.labels.0;
        if let Some((earlier, _)) = labels.iter().find(|(other, label)| other == name || *label == number) {
            let message = if earlier == name {
                "this label has its number already".into()
            } else {
                format!("label {number} is named {earlier} already")
            };
            return Err(Fault::new(at, message));
        }
        labels.push((name.into(), number));
        Ok(())
    }

    /// A label, by number or, where names may stand, by name.
    fn label(&mut self, by_name: bool) -> Result<i64, Fault> {
        match self.token() {
            Token::Number(digits) => self.number(digits, 0, 255, "a label"),
            Token::Name(name) if by_name => {
                let found = self.tree.labels.0.iter().find(|(other, _)| other == name).map(|&(_, number)| number);
                let shown: String = name.chars().take(SHOWN).collect();
                let message = format!("no label has this name: write `label {shown} = N` at the top");
                let number = found.ok_or_else(|| Fault::new(self.place(), message))?;
                self.advance();
                Ok(number)
            }
            _ => Err(self.unexpected("a label")),
        }
    }

    fn add(&mut self, form: Form, at: Span) -> Read {
        let outermost = match form {
            Form::Bound(binder) => binder,
            Form::Use(part) => self.outermost(&[part]),
            Form::Let(part, body) => self.outermost(&[part, body]),
            Form::Part(part) => self.outermost(part.children()),
        };
        self.parts += usize::from(!matches!(form, Form::Let(..) | Form::Use(_)));
        if self.parts > MOST_CELLS {
            return Err(Fault::new(
                at,
                format!("with this the text has more than {MOST_CELLS} cells, which `share` does not lower"),
            ));
        }
        self.tree.nodes.push(Node { form, at, binder: 0, outermost });
        Ok(self.tree.nodes.len() - 1)
    }

    fn outermost(&self, nodes: &[usize]) -> usize {
        nodes.iter().map(|&node| self.tree.nodes[node].outermost).min().unwrap_or(usize::MAX)
    }

    /// A part that begins at a place and ends with the last word that was read.
    fn part(&mut self, from: usize, kind: Kind, datum: i64, references: &[usize]) -> Read {
        let at = (from, self.words[self.next.max(1) - 1].1 .1);
        self.add(Form::Part(Part::new(kind, datum, references)), at)
    }

    fn deeper(&mut self) -> Result<(), Fault> {
        self.depth += 1;
        let within = self.depth <= DEEPEST;
        within.then_some(()).ok_or_else(|| Fault::new(self.place(), format!("this is nested more than {DEEPEST} deep")))
    }

    /// Whatever may stand between brackets; as the whole text, a type too.
    fn whole(&mut self, outermost: bool) -> Read {
        let (from, scope) = (self.place().0, self.scope());
        let named = self.definitions()?;
        let root = match self.token() {
            Token::Word(Word::Type) if outermost => {
                self.advance();
                self.function_type()?
            }
            _ => self.annotated()?,
        };
        self.within(from, scope, named, root)
    }

    /// How many names there are, of terms and of types.
    fn scope(&self) -> (usize, usize) {
        (self.terms.len(), self.types.len())
    }

    /// The names end here: what they name is laid down before what they were given for.
    fn within(&mut self, from: usize, (terms, types): (usize, usize), named: Vec<usize>, rest: usize) -> Read {
        self.terms.truncate(terms);
        self.types.truncate(types);
        let at = (from, self.tree.nodes[rest].at.1);
        named.into_iter().rev().try_fold(rest, |rest, part| self.add(Form::Let(part, rest), at))
    }

    /// `let NAME = term in`, `type NAME = type in`, as often as there are such; what is named.
    fn definitions(&mut self) -> Result<Vec<usize>, Fault> {
        let mut named = Vec::new();
        loop {
            let part = match self.token() {
                Token::Word(Word::Let) => self.named_term()?,
                Token::Word(Word::Type) if self.defines() => self.named_type()?,
                _ => return Ok(named),
            };
            let open = self.tree.nodes[part].outermost != usize::MAX;
            self.tree.named.push((part, open));
            named.push(part);
            if self.tree.named.len() > MOST_NAMES {
                return Err(Fault::new(self.place(), format!("there are more than {MOST_NAMES} names before this")));
            }
        }
    }

    fn defines(&self) -> bool {
        matches!(self.words[self.next..], [_, (Token::Name(_), _), (Token::Equals, _), ..])
    }

    fn named_term(&mut self) -> Read {
        self.advance();
        let name = self.name("a part")?;
        self.want(Token::Equals, "`=`")?;
        self.deeper()?;
        self.unfinished.push(name);
        let part = self.whole(false)?;
        self.want(Token::Word(Word::In), "`in`")?;
        self.unfinished.pop();
        self.depth -= 1;
        self.terms.push((name, Meaning::Part(part)));
        Ok(part)
    }

    fn named_type(&mut self) -> Read {
        self.advance();
        let name = self.name("a type")?;
        self.want(Token::Equals, "`=`")?;
        let part = self.function_type()?;
        self.want(Token::Word(Word::In), "`in`")?;
        self.types.push((name, part));
        Ok(part)
    }

    fn annotated(&mut self) -> Read {
        let from = self.place().0;
        let mut term = self.merge()?;
        while self.eat(Token::Colon) {
            let wanted = self.function_type()?;
            term = self.part(from, Kind::Annotation, 0, &[term, wanted])?;
            if matches!(self.token(), Token::Merge | Token::Plus | Token::Dot) || self.begins_operand() {
                return Err(Fault::new(self.place(), "an annotation holds loosest: before this it needs brackets"));
            }
        }
        Ok(term)
    }

    fn merge(&mut self) -> Read {
        self.row(Self::sum, Token::Merge, Kind::Merge)
    }

    fn sum(&mut self) -> Read {
        self.row(Self::operand, Token::Plus, Kind::Sum)
    }

    /// Operands with a sign between them, from the left.
    fn row(&mut self, operand: fn(&mut Self) -> Read, sign: Token, kind: Kind) -> Read {
        let from = self.place().0;
        let mut left = operand(self)?;
        while self.eat(sign) {
            let right = operand(self)?;
            left = self.part(from, kind, 0, &[left, right])?;
        }
        Ok(left)
    }

    fn operand(&mut self) -> Read {
        let form: fn(&mut Self) -> Read = match self.token() {
            Token::Lambda => Self::function,
            Token::Word(Word::Fix) => Self::fixpoint,
            Token::Word(Word::If) => Self::choice,
            Token::Word(Word::Let) => Self::named,
            Token::Word(Word::Type) if self.defines() => Self::named,
            _ => return self.application(),
        };
        self.deeper()?;
        let read = form(self);
        self.depth -= 1;
        read
    }

    /// Names given for what reaches no further than a merge.
    fn named(&mut self) -> Read {
        let (from, scope) = (self.place().0, self.scope());
        let named = self.definitions()?;
        let rest = self.merge()?;
        self.within(from, scope, named, rest)
    }

    /// `NAME : type .`, the type, and the body with the name in it.
    fn bound(&mut self) -> Result<(usize, usize, usize), Fault> {
        self.advance();
        let name = self.name("a variable")?;
        self.want(Token::Colon, "`:` and the variable's type")?;
        let of = self.function_type()?;
        self.want(Token::Dot, "`.` and the body")?;
        let binder = self.tree.variables.len();
        self.tree.variables.push(name.into());
        self.terms.push((name, Meaning::Variable(binder)));
        let body = self.merge()?;
        self.terms.pop();
        Ok((binder, of, body))
    }

    fn function(&mut self) -> Read {
        let from = self.place().0;
        let (binder, input, body) = self.bound()?;
        self.want(Token::Colon, "`:` and the function's output type")?;
        let output = self.function_type()?;
        let function = self.part(from, Kind::Function, 0, &[body, input, output])?;
        Ok(self.binding(function, binder))
    }

    fn fixpoint(&mut self) -> Read {
        let from = self.place().0;
        let (binder, of, body) = self.bound()?;
        let fixpoint = self.part(from, Kind::Fixpoint, 0, &[body, of])?;
        Ok(self.binding(fixpoint, binder))
    }

    /// A function or fixpoint is a binder. Those around it have lower numbers: if its own variable is the outermost, it uses no other's.
    fn binding(&mut self, node: usize, binder: usize) -> usize {
        let bound = &mut self.tree.nodes[node];
        bound.binder = binder;
        if bound.outermost == binder {
            bound.outermost = usize::MAX;
        }
        node
    }

    fn choice(&mut self) -> Read {
        let from = self.place().0;
        self.advance();
        let tested = self.merge()?;
        self.want(Token::Word(Word::Then), "`then` and what is taken for zero")?;
        let for_zero = self.merge()?;
        self.want(Token::Word(Word::Else), "`else` and what is taken for anything but zero")?;
        let otherwise = self.merge()?;
        self.part(from, Kind::Choice, 0, &[tested, for_zero, otherwise])
    }

    fn application(&mut self) -> Read {
        let from = self.place().0;
        let mut function = self.read()?;
        while self.begins_operand() {
            let argument = self.read()?;
            function = self.part(from, Kind::Application, 0, &[function, argument])?;
        }
        let is_name = matches!(self.token(), Token::Word(Word::Type)) && self.defines();
        if is_name || matches!(self.token(), Token::Lambda | Token::Word(Word::Fix | Word::If | Word::Let)) {
            return Err(Fault::new(self.place(), "behind a term this needs brackets, or a sign between them"));
        }
        Ok(function)
    }

    fn begins_operand(&self) -> bool {
        use Token::{Name, Number, Open, OpenBrace, Skipped};
        matches!(self.token(), Name(_) | Number(_) | Skipped(_) | Open | OpenBrace | Token::Word(Word::TopValue))
    }

    fn read(&mut self) -> Read {
        let from = self.place().0;
        let is_number = matches!(self.token(), Token::Number(_));
        let mut term = self.atom()?;
        while self.token() == Token::Dot {
            if is_number {
                return Err(Fault::new(self.place(), "numbers are whole; to read a field of a number, put it in brackets"));
            }
            self.advance();
            let label = self.label(true)?;
            term = self.part(from, Kind::Read, label, &[term])?;
        }
        Ok(term)
    }

    fn atom(&mut self) -> Read {
        let at = self.place();
        match self.token() {
            Token::Number(digits) => {
                let (low, high) = ends(2);
                let number = self.number(digits, low, high, "a number")?;
                self.part(at.0, Kind::Number, number, &[])
            }
            Token::Skipped(digits) => {
                let skipped = self.number(digits, 0, i64::from(u16::MAX), "what a variable skips")?;
                self.part(at.0, Kind::Variable, skipped, &[])
            }
            Token::Word(Word::TopValue) => {
                self.advance();
                self.part(at.0, Kind::TopValue, 0, &[])
            }
            Token::Name(name) => self.meaning(name),
            Token::Open => self.bracketed(),
            Token::OpenBrace => self.record(),
            _ => Err(self.unexpected("a term")),
        }
    }

    fn meaning(&mut self, name: &str) -> Read {
        let at = self.place();
        let found = self.terms.iter().rev().find(|(other, _)| *other == name).map(|&(_, meaning)| meaning);
        self.advance();
        match found {
            Some(Meaning::Part(part)) => self.add(Form::Use(part), at),
            Some(Meaning::Variable(binder)) => self.add(Form::Bound(binder), at),
            None if self.unfinished.contains(&name) => {
                Err(Fault::new(at, "a `let` cannot use its own name: `in` is missing before it, or `fix` is meant"))
            }
            None => Err(Fault::new(at, "nothing here has this name: no function, fixpoint or `let` around it binds it")),
        }
    }

    fn bracketed(&mut self) -> Read {
        self.deeper()?;
        self.advance();
        let term = self.whole(false)?;
        self.want(Token::Close, "`)`")?;
        self.depth -= 1;
        Ok(term)
    }

    fn record(&mut self) -> Read {
        let from = self.place().0;
        self.deeper()?;
        self.advance();
        let label = self.label(true)?;
        self.want(Token::Equals, "`=` and the field's content")?;
        let content = self.whole(false)?;
        self.want(Token::CloseBrace, "`}`")?;
        self.depth -= 1;
        self.part(from, Kind::Record, label, &[content])
    }

    fn function_type(&mut self) -> Read {
        let from = self.place().0;
        let read = self.intersection()?;
        if self.token() != Token::Arrow {
            return Ok(read);
        }
        self.deeper()?;
        self.advance();
        let output = self.function_type()?;
        self.depth -= 1;
        self.part(from, Kind::Arrow, 0, &[read, output])
    }

    fn intersection(&mut self) -> Read {
        self.row(Self::type_atom, Token::And, Kind::And)
    }

    fn type_atom(&mut self) -> Read {
        let from = self.place().0;
        match self.token() {
            Token::Word(Word::Int) => {
                self.advance();
                self.part(from, Kind::Int, 0, &[])
            }
            Token::Word(Word::Top) => {
                self.advance();
                self.part(from, Kind::Top, 0, &[])
            }
            Token::Name(name) => self.type_named(name),
            Token::Open | Token::OpenBrace => self.bracketed_type(),
            _ => Err(self.unexpected("a type")),
        }
    }

    fn type_named(&mut self, name: &str) -> Read {
        let at = self.place();
        let found = self.types.iter().rev().find(|(other, _)| *other == name).map(|&(_, part)| part);
        let part = found.ok_or_else(|| Fault::new(at, "no type has this name: Int, Top and those that a `type` names"))?;
        self.advance();
        self.add(Form::Use(part), at)
    }

    /// A type in brackets, or a record type.
    fn bracketed_type(&mut self) -> Read {
        let from = self.place().0;
        self.deeper()?;
        let read = match self.eat(Token::Open) {
            true => {
                let read = self.function_type()?;
                self.want(Token::Close, "`)`")?;
                read
            }
            false => {
                self.advance();
                self.record_type(from)?
            }
        };
        self.depth -= 1;
        Ok(read)
    }

    fn record_type(&mut self, from: usize) -> Read {
        let label = self.label(true)?;
        self.want(Token::Colon, "`:` and the type of the field's content")?;
        let content = self.function_type()?;
        self.want(Token::CloseBrace, "`}`")?;
        self.part(from, Kind::RecordType, label, &[content])
    }
}

/// The lowest and the highest number of a version.
pub fn ends(version: u8) -> (i64, i64) {
    let half = if version == 1 { 1 << 31 } else { 1 << 47 };
    (-half, half - 1)
}

/// Whether a part's number fits a version.
pub fn fits(part: &Part, version: u8) -> bool {
    let (low, high) = ends(version);
    part.kind.row().datum != Datum::Number || (low..=high).contains(&part.datum)
}
