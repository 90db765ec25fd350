//! Joining a part to the project. Document 02, (vi): "Two books become one: cells of the project, cells of the part with references raised, then
//! a merge of both roots, then a trailer with the higher version and numbers extended as in (iv)." And its (vii), a preview: "It gives the answer
//! and byte count that the join would give on a copy."

use crate::answers::{accept, answer, Answer};
use crate::book::{decode, encode_type, Cell, Refusal, CELL};
use crate::faults::{current, planted, Fault};
use crate::kinds::kind;
use crate::misjoining;
use crate::terms::Type;
use crate::versions::Version;

/// "It is written over the project's lent 32,768 bytes, the rest zero."
pub const PROJECT: usize = 32_768;
/// "Turned away: 16, when the joint has more than 4,095 cells."
pub const CELLS: usize = 4_095;

/// "The answer names which book is meant: project, part or joint."
#[derive(Clone, Copy, PartialEq, Eq, Debug)]
pub enum Which {
    Project,
    Part,
    Joint,
}

/// What a join says, and a preview of it. An acceptance names the joint and gives the size of its type.
#[derive(Clone, Copy, PartialEq, Eq, Debug)]
pub struct Joined {
    pub which: Which,
    pub answer: Answer,
    /// It "gives back how many hold the joint, 0 when refused".
    pub bytes: usize,
}

/// A refusal, and the book that it means.
type Turned = (Which, Refusal);

fn turn_back<T>(which: Which, number: u8) -> Result<T, Turned> {
    Err((which, Refusal { number, cell: 0 }))
}

/// The type and version of a book that is accepted on its own.
pub(crate) fn accepted(which: Which, book: &[u8]) -> Result<(Type, Version), Turned> {
    let (_, inferred, version) = accept(book).map_err(|refusal| (which, refusal))?;
    Ok((inferred, version))
}

/// The version of such a book.
fn version(which: Which, book: &[u8]) -> Result<Version, Turned> {
    match current() {
        Some(fault) => misjoining::version_alone(fault, which, book),
        None => accepted(which, book).map(|(_, version)| version),
    }
}

/// The rows of a book of which the trailer fits.
pub(crate) struct Rows {
    pub which: Which,
    pub cells: Vec<Cell>,
    pub root: u16,
    pub version: Version,
}

impl Rows {
    fn of(which: Which, book: &[u8], version: Version) -> Rows {
        let mut cells: Vec<Cell> = book.chunks(CELL).map(Cell::of).collect();
        let root = cells.pop().map_or(0, |trailer| trailer.fields[1]);
        Rows { which, cells, root, version }
    }

    /// Its cells for a joint of this version: "numbers extended as in (iv)", whether the root reaches them or not.
    fn extended(&self, version: Version) -> Vec<Cell> {
        let extended = |cell: &Cell| match cell.kind {
            kind::NUMBER => Cell::number(self.version.number(cell.fields), version),
            _ => *cell,
        };
        match current() {
            Some(fault) => misjoining::extended(fault, self, version),
            None => self.cells.iter().map(extended).collect(),
        }
    }

    /// The same "with references raised": the fields that the table of kinds calls references, and no others.
    fn raised(&self, by: u16, version: Version) -> Vec<Cell> {
        let cells = self.extended(version);
        match current() {
            Some(fault) => misjoining::raised(fault, self, cells, by),
            None => cells.into_iter().map(|cell| cell.redirected(|to| to + by)).collect(),
        }
    }
}

/// "Cells of the project, cells of the part with references raised, then a merge of both roots, then a trailer with the higher version."
fn laid_down(project: &Rows, part: &Rows) -> Vec<u8> {
    let mut version = project.version.max(part.version);
    let by = project.cells.len() as u16;
    let mut roots = [project.root, part.root + by];
    if let Some(fault) = current() {
        version = misjoining::version(fault, [project.version, part.version]);
        roots = misjoining::roots(fault, project, part);
    }
    let mut cells = project.extended(version);
    cells.extend(part.raised(by, version));
    cells.push(Cell::new(kind::MERGE, 0, [roots[0], roots[1], 0]));
    let count = cells.len() as u16;
    let root = if planted(Fault::RootBeforeMerge) { count - 2 } else { count - 1 };
    cells.push(Cell::trailer(count, root, version));
    cells.into_iter().flat_map(Cell::bytes).collect()
}

/// The joint of two books that pass the rows 2 to 10, however many cells it has; none of others.
pub fn joint(project: &[u8], part: &[u8]) -> Option<Vec<u8>> {
    let [(_, one), (_, two)] = [decode(project).ok()?, decode(part).ok()?];
    Some(laid_down(&Rows::of(Which::Project, project, one), &Rows::of(Which::Part, part, two)))
}

/// An accepted joint: its bytes, its type and its version.
type Accepted = (Vec<u8>, Type, Version);

/// "Project bytes lent at another length are answered 2, project." "The call is told how many of those bytes hold the project": more than there
/// are is a length above 32,768.
fn told(lent: &[u8], length: usize) -> Result<&[u8], Turned> {
    let fits = planted(Fault::OtherLentLength) && length <= lent.len();
    if lent.len() != PROJECT && !fits {
        return turn_back(Which::Project, 2);
    }
    let length = current().map_or(length, |fault| misjoining::length(fault, lent, length));
    lent.get(..length).map_or_else(|| turn_back(Which::Project, 2), Ok)
}

/// "The project is checked before the part." "Turned away: 16, under joint with cell 0, when the joint has more than 4,095 cells, tested after
/// both books were accepted on their own and before the joint is."
fn tested(lent: &[u8], length: usize, part: &[u8]) -> Result<Accepted, Turned> {
    let project = told(lent, length)?;
    if let Some(fault) = current() {
        misjoining::before_project(fault, project, part)?;
    }
    let one = version(Which::Project, project)?;
    if let Some(fault) = current() {
        misjoining::before_part(fault, project, part)?;
    }
    let two = version(Which::Part, part)?;
    let [one, two] = [Rows::of(Which::Project, project, one), Rows::of(Which::Part, part, two)];
    let joint = laid_down(&one, &two);
    let most = match current() {
        Some(Fault::FullOneEarly) => CELLS - 1,
        Some(Fault::FullOneLate) => CELLS + 1,
        Some(Fault::FullAccepted) => 2 * CELLS + 1,
        _ => CELLS,
    };
    if joint.len() / CELL - 1 > most {
        return turn_back(Which::Joint, 16);
    }
    if current().is_some_and(|fault| misjoining::is_unchecked(fault, &one, &two)) {
        return misjoining::unchecked(joint, project, part);
    }
    let (inferred, version) = accepted(Which::Joint, &joint)?;
    Ok((joint, inferred, version))
}

/// What a join and a preview say, and the joint, of no bytes if it is refused: "the work buffer is left as a check with the same answer leaves
/// it".
fn judged(lent: &[u8], length: usize, part: &[u8], work: &mut [u8]) -> (Joined, Vec<u8>) {
    let (mut which, mut joint) = (Which::Joint, Vec::new());
    let answer = answer(work, || match tested(lent, length, part) {
        Ok((bytes, inferred, version)) => {
            joint = bytes;
            Ok((Answer::Accepted { size: inferred.size() as usize }, encode_type(&inferred, version)))
        }
        Err((meant, refusal)) => {
            which = meant;
            Err(refusal)
        }
    });
    (Joined { which, answer, bytes: joint.len() }, joint)
}

/// The join, with what it leaves: "any refusal leaves all the project's lent bytes, those past the project too".
pub(crate) fn answered(project: &mut [u8], length: usize, part: &[u8], work: &mut [u8]) -> Joined {
    let (joined, mut joint) = judged(project, length, part, work);
    if joined.bytes > 0 {
        joint.resize(project.len(), 0);
        project.copy_from_slice(&joint);
    }
    joined
}

/// "Two books become one": the first `length` lent bytes of the project and the part. "Refusal 1 comes first, under joint."
pub fn join(project: &mut [u8], length: usize, part: &[u8], work: &mut [u8]) -> Joined {
    match current() {
        Some(fault) => misjoining::join(fault, project, length, part, work),
        None => answered(project, length, part, work),
    }
}

/// "A preview takes what a join takes. It gives the answer and byte count that the join would give on a copy, with the type's size if accepted,
/// and leaves the work buffer alike, with not a lent byte of the project altered."
pub fn preview(project: &[u8], length: usize, part: &[u8], work: &mut [u8]) -> Joined {
    match current() {
        Some(fault) => misjoining::preview(fault, &mut project.to_vec(), length, part, work),
        None => judged(project, length, part, work).0,
    }
}
