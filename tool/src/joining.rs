//! A join in words, made or only asked about: what the joint is, or which book is refused and why. What is said of the project and of the
//! part is what a check says of them.

use crate::ask::{asked, Joint, Refusal, Told, Which};
use crate::book::{Book, CELL, MOST_CELLS};
use crate::explanation::{listed, Explanation, Fact, WOULD_BE};
use crate::input::Input;
use crate::labels::Labels;
use crate::print::typed;
use crate::refusals::explained;
use crate::typing::{overlap, reason, Halves};

/// Lays a book's equal parts down once.
const SHARING: &str = "cerealbank show BOOK | cerealbank make --share -o FILE";

const OF_JOINT: Halves = Halves {
    sentence: "project and part overlap, and nothing says which of them counts",
    names: ["project", "part"],
    one: "one book",
    both: "books",
};

/// What is said below an answer of a preview.
const NOTHING_WRITTEN: &str = "This is a preview: nothing is written.";
const NOTHING_TO_WRITE: &str = "The join would write nothing either: the project would stay as it is.";

/// The joint's type, its cells, its bytes and its version.
pub fn accepted(joint: Joint, labels: &Labels) -> String {
    acceptance("accepted: ", &Told { bytes: joint.bytes.len(), found: joint.found }, labels)
}

/// The same of a joint that would be made, how the project would grow, and what would be written.
pub fn would_be_accepted(project: &Input, part: &Input, told: &Told, written: &str) -> String {
    let said = acceptance(&format!("{WOULD_BE}accepted: "), told, &project.labels.with(&part.labels));
    let growth = match [project, part].map(|input| Book::read(&input.bytes)) {
        [Some(project), Some(part)] => growth(&project, &part, cells_of(told.bytes)),
        _ => vec![],
    };
    format!("{said}\n{}\n\n{NOTHING_WRITTEN}\n{written}\n", listed(&growth).join("\n"))
}

/// The version is that of the type, which has the joint's.
fn acceptance(answer: &str, told: &Told, labels: &Labels) -> String {
    let version = Book::read(&told.found).map_or(0, |found| found.version);
    let (cells, bytes) = (cells_of(told.bytes), told.bytes);
    typed(answer, &told.found, labels) + &format!("joint: {cells} cells, {bytes} bytes, version {version}\n")
}

/// The cells of a book of so many bytes.
fn cells_of(bytes: usize) -> usize {
    (bytes / CELL).saturating_sub(1)
}

/// How the project would grow in the two counts that a joint can exceed, and its version where that would change.
fn growth(project: &Book, part: &Book, cells: usize) -> Vec<Fact> {
    let grown = |now: u64, then: u64| {
        let left = (MOST_CELLS as u64).saturating_sub(then);
        vec![format!("{now} now, {then} with the part: {left} of {MOST_CELLS} left")]
    };
    let [now, more] = [project, part].map(|book| book.sizes()[book.root]);
    let version = (part.version > project.version)
        .then(|| ("version", vec![format!("{} now, {} with the part", project.version, part.version)]));
    [
        ("cells of the project", grown(project.parts.len() as u64, cells as u64)),
        ("with nothing shared", grown(now, now.saturating_add(more).saturating_add(1))),
    ]
    .into_iter()
    .chain(version)
    .collect()
}

/// Why a join is refused, and of which book.
pub fn refused(project: &Input, part: &Input, which: Which, refusal: Refusal) -> Explanation {
    let (of, explanation) = match which {
        Which::Project => ("project", explained(project, refusal)),
        Which::Part => ("part", explained(part, refusal)),
        Which::Joint => ("joint", of_joint([project, part], refusal)),
    };
    Explanation { of: Some(of), ..explanation }
}

/// The same of a join that would be made.
pub fn would_be_refused(project: &Input, part: &Input, which: Which, refusal: Refusal) -> Explanation {
    let explanation = refused(project, part, which, refusal).helps(NOTHING_WRITTEN).helps(NOTHING_TO_WRITE);
    Explanation { foreseen: true, ..explanation }
}

/// Both books are accepted on their own, and so can be read.
fn of_joint(inputs: [&Input; 2], refusal: Refusal) -> Explanation {
    let books = match inputs.map(|input| Book::read(&input.bytes)) {
        [Some(project), Some(part)] => [project, part],
        _ => return explained(inputs[0], refusal),
    };
    match refusal.number {
        10 => of_size(&books),
        14 => of_overlap(books, &inputs[0].labels.with(&inputs[1].labels)),
        16 => of_cells(&books),
        _ => explained(inputs[0], refusal),
    }
}

fn of_size(books: &[Book; 2]) -> Explanation {
    let [project, part] = books.each_ref().map(|book| book.sizes()[book.root]);
    let joint = project.saturating_add(part).saturating_add(1);
    Explanation::says("it would be too large: with nothing shared it has more than 4095 cells")
        .fact("project", project.to_string())
        .fact("part", part.to_string())
        .fact("joint", format!("{joint}, with the merge of the two"))
        .helps("A part that is used twice counts twice. Use large parts less often, shorten the types, or keep the part in a book of its own.")
}

/// Numbers are compared in the joint's version.
fn of_overlap(books: [Book; 2], labels: &Labels) -> Explanation {
    let version = books[0].version.max(books[1].version);
    let halves = books.map(|book| Book { version, ..book }.shared().book);
    let types = halves.each_ref().map(|half| asked(half).ok());
    let unfinished = halves.iter().any(|half| reason(half).is_some());
    let explanation = overlap(&OF_JOINT, halves, types, labels);
    match unfinished {
        true => explanation.helps("If both come to the same, join what a run of each comes to: cerealbank run BOOK -o FILE"),
        false => explanation,
    }
}

fn of_cells(books: &[Book; 2]) -> Explanation {
    let [project, part] = books.each_ref().map(|book| book.parts.len());
    let once = books.each_ref().map(|book| book.shared().book.parts.len());
    let counted = |cells: usize, once: usize| match cells == once {
        true => format!("{cells} cells"),
        false => format!("{cells} cells, {once} with equal parts laid down once"),
    };
    let help = match once[0] + once[1] < MOST_CELLS {
        true => ["Lay equal parts down once; what the root does not reach is left out too:", SHARING].map(String::from).to_vec(),
        false => vec!["Write the books with fewer cells, or keep the part in a book of its own.".into()],
    };
    let explanation = Explanation::says("it would have more than 4095 cells")
        .fact("project", counted(project, once[0]))
        .fact("part", counted(part, once[1]))
        .fact("joint", format!("{} cells, with the merge of the two", project + part + 1))
        .fact("a book", "at most 4095 cells");
    Explanation { help, ..explanation }
}
