//! A text laid out in lines: what fits on a line stands on one, what does not is broken where it may be.

/// The width that lines are kept to, where they can be.
pub const WIDTH: usize = 96;
/// Lines are indented no further than this.
const DEEPEST_INDENT: usize = 40;
const INDENT: usize = 2;

enum Node {
    Text(String),
    /// A space, or the end of a line.
    Break,
    /// These signs, or the end of a line if so much does not fit behind them.
    BreakBefore(&'static str, usize),
    /// The end of a line.
    End,
    All(Vec<Doc>),
    Nest(Box<Doc>),
    Group(Box<Doc>),
    Mark(Box<Doc>),
}

/// What is to be laid out.
pub struct Doc {
    /// Its width on one line.
    width: usize,
    /// Its width before it may be broken, and whether it may.
    head: usize,
    breaks: bool,
    node: Node,
}

pub fn text(text: impl Into<String>) -> Doc {
    let text = text.into();
    Doc { width: text.len(), head: text.len(), breaks: false, node: Node::Text(text) }
}

fn broken(width: usize, node: Node) -> Doc {
    Doc { width, head: 0, breaks: true, node }
}

pub fn line() -> Doc {
    broken(1, Node::Break)
}

/// These signs, or the end of a line if what is to follow does not fit on this one.
pub fn line_before(signs: &'static str, next: &Doc) -> Doc {
    broken(signs.len(), Node::BreakBefore(signs, next.width))
}

/// Nothing, or the end of a line where there is no room at all for so much.
fn stay(room: usize) -> Doc {
    Doc { width: 0, head: 0, breaks: false, node: Node::BreakBefore("", room) }
}

/// Brackets about something: they stay with it, as long as there is room.
pub fn bracketed(open: impl Into<String>, inner: Doc, close: &'static str) -> Doc {
    all(vec![text(open), stay(close.len()), inner, stay(close.len()), text(close)])
}

pub fn end() -> Doc {
    broken(usize::MAX, Node::End)
}

pub fn all(docs: Vec<Doc>) -> Doc {
    let width = docs.iter().fold(0, |sum: usize, doc| sum.saturating_add(doc.width));
    let unbroken = docs.iter().take_while(|doc| !doc.breaks).count();
    let head = docs.iter().take(unbroken + 1).fold(0, |sum: usize, doc| sum.saturating_add(doc.head));
    Doc { width, head, breaks: unbroken < docs.len(), node: Node::All(docs) }
}

fn about(doc: Doc, node: fn(Box<Doc>) -> Node) -> Doc {
    Doc { width: doc.width, head: doc.head, breaks: doc.breaks, node: node(Box::new(doc)) }
}

/// Its lines but the first are indented.
pub fn nest(doc: Doc) -> Doc {
    about(doc, Node::Nest)
}

/// On one line if it fits there, else broken wherever it may be.
pub fn group(doc: Doc) -> Doc {
    about(doc, Node::Group)
}

pub fn mark(doc: Doc) -> Doc {
    about(doc, Node::Mark)
}

/// Lines, and the columns that are marked, at most one stretch a line.
#[derive(Default)]
pub struct Laid {
    pub lines: Vec<String>,
    pub marks: Vec<Option<(usize, usize)>>,
}

enum Task<'a> {
    Lay(&'a Doc, usize, bool),
    Unmark,
}

#[derive(Default)]
struct Layout {
    laid: Laid,
    line: String,
    /// The columns that stand in front of every line.
    lead: usize,
    mark: Option<usize>,
    seen: Option<(usize, usize)>,
}

impl Layout {
    /// What is marked of the line so far.
    fn note(&mut self) {
        if let Some(from) = self.mark {
            let start = from.max(self.line.len() - self.line.trim_start().len());
            self.seen = Some((start, self.line.len().max(start)));
        }
    }

    fn finish(&mut self, indent: usize) {
        self.note();
        let full = std::mem::replace(&mut self.line, " ".repeat(indent));
        self.laid.lines.push(full.trim_end().to_owned());
        self.laid.marks.push(self.seen.take());
        if self.mark.is_some() {
            self.mark = Some(0);
        }
    }

    fn has_room(&self, width: usize) -> bool {
        (self.lead + self.line.len()).saturating_add(width) <= WIDTH
    }
}

/// The width of what follows before it may be broken. More than a line of it need not be looked at.
fn following(tasks: &[Task]) -> usize {
    let mut width: usize = 0;
    for task in tasks.iter().rev().take(WIDTH) {
        let Task::Lay(doc, _, flat) = task else { continue };
        width = width.saturating_add(if *flat { doc.width } else { doc.head });
        if doc.breaks && !flat {
            break;
        }
    }
    width
}

/// Lays out; every line has so many columns in front of it.
pub fn lay_out(doc: &Doc, lead: usize) -> Laid {
    let mut layout = Layout { lead, ..Layout::default() };
    let mut tasks = vec![Task::Lay(doc, 0, false)];
    while let Some(task) = tasks.pop() {
        let Task::Lay(doc, indent, flat) = task else {
            layout.note();
            layout.mark = None;
            continue;
        };
        match &doc.node {
            Node::Text(text) => layout.line.push_str(text),
            Node::Break if flat => layout.line.push(' '),
            Node::BreakBefore(signs, next) if flat || layout.has_room(signs.len().saturating_add(*next)) => {
                layout.line.push_str(signs)
            }
            Node::Break | Node::BreakBefore(..) | Node::End => layout.finish(indent),
            Node::All(docs) => tasks.extend(docs.iter().rev().map(|doc| Task::Lay(doc, indent, flat))),
            Node::Nest(inner) => tasks.push(Task::Lay(inner, (indent + INDENT).min(DEEPEST_INDENT), flat)),
            Node::Group(inner) => {
                let flat = flat || layout.has_room(doc.width.saturating_add(following(&tasks)));
                tasks.push(Task::Lay(inner, indent, flat));
            }
            Node::Mark(inner) => {
                layout.mark = Some(layout.line.len());
                tasks.extend([Task::Unmark, Task::Lay(inner, indent, flat)]);
            }
        }
    }
    layout.finish(0);
    layout.laid
}
