//! What planted faults make of a join and of a preview.

use crate::answers::{check, Answer, WORK};
use crate::book::{decode, Cell, Refusal, CELL, TRAILER};
use crate::faults::Fault;
use crate::joining::{accepted, answered, joint, Joined, Rows, Which, CELLS, PROJECT};
use crate::kinds::{kind, row, Sort};
use crate::stack::on_large_stack;
use crate::terms::Type;
use crate::versions::Version;
use std::collections::BTreeSet;

/// The joint's version.
pub fn version(fault: Fault, [project, part]: [Version; 2]) -> Version {
    match fault {
        Fault::VersionOfProject => project,
        Fault::VersionOfPart => part,
        Fault::VersionAlways2 => Version::Two,
        _ => project.max(part),
    }
}

/// Which of a book's cells the root reaches.
pub fn reached(cells: &[Cell], root: u16) -> Vec<bool> {
    let mut reached = vec![false; cells.len()];
    reached[usize::from(root)] = true;
    for (n, cell) in cells.iter().enumerate().rev() {
        for (to, sort) in cell.fields.into_iter().zip(cell.references()) {
            if reached[n] && sort.is_some() {
                reached[usize::from(to)] = true;
            }
        }
    }
    reached
}

/// A book's cells for a joint of this version.
pub fn extended(fault: Fault, rows: &Rows, version: Version) -> Vec<Cell> {
    let reached = reached(&rows.cells, rows.root);
    let number = |n: usize, cell: &Cell| match (fault, rows.which) {
        (Fault::ProjectNotExtended, Which::Project) | (Fault::PartNotExtended, Which::Part) => *cell,
        (Fault::ReachedExtended, _) if !reached[n] => *cell,
        (Fault::ExtendedWithZeros, _) if rows.version < version => Cell { fields: [cell.fields[1], cell.fields[2], 0], ..*cell },
        (Fault::ExtendedThoughEqual, _) if rows.version == version => Cell::number(Version::One.number(cell.fields), Version::Two),
        _ => Cell::number(rows.version.number(cell.fields), version),
    };
    let extended = |(n, cell): (usize, &Cell)| if cell.kind == kind::NUMBER { number(n, cell) } else { *cell };
    rows.cells.iter().enumerate().map(extended).collect()
}

/// The cells of the part.
pub fn raised(fault: Fault, part: &Rows, cells: Vec<Cell>, by: u16) -> Vec<Cell> {
    let reached = reached(&part.cells, part.root);
    if fault == Fault::UnreachedDropped {
        return without_unreached(&cells, &reached, by);
    }
    cells.into_iter().zip(reached).map(|(cell, reached)| raised_cell(fault, cell, by, reached)).collect()
}

fn raised_cell(fault: Fault, cell: Cell, by: u16, reached: bool) -> Cell {
    let mut raised = cell.redirected(|to| to + by);
    let labelled = row(cell.kind).is_some_and(|row| row.labelled);
    match (fault, cell.kind) {
        (Fault::SkipsRaised, kind::VARIABLE) => raised.fields[0] = cell.fields[0].wrapping_add(by),
        (Fault::LabelsRaised, _) if labelled => raised.label = cell.label.wrapping_add(by as u8),
        (Fault::NumbersRaised, kind::NUMBER) => raised.fields[1] = cell.fields[1].wrapping_add(by),
        (Fault::RaisedByOneMore, _) => raised = cell.redirected(|to| to + by + 1),
        (Fault::RaisedLowByte, _) => raised = cell.redirected(|to| to & 0xFF00 | (to + by) & 0xFF),
        (Fault::UnreachedNotRaised, _) if !reached => raised = cell,
        (Fault::ThirdNotRaised, _) => raised.fields[2] = cell.fields[2],
        (Fault::TypesNotRaised, _) => {
            for field in (0..3).filter(|&field| cell.references()[field] == Some(Sort::Type)) {
                raised.fields[field] = cell.fields[field];
            }
        }
        _ => {}
    }
    raised
}

/// The number that a cell has once those that are not reached are dropped.
fn place(reached: &[bool], n: u16) -> u16 {
    reached[..usize::from(n)].iter().filter(|&&reached| reached).count() as u16
}

fn without_unreached(cells: &[Cell], reached: &[bool], by: u16) -> Vec<Cell> {
    let kept = cells.iter().zip(reached).filter(|(_, &reached)| reached);
    kept.map(|(cell, _)| cell.redirected(|to| place(reached, to) + by)).collect()
}

/// What the merge refers to.
pub fn roots(fault: Fault, project: &Rows, part: &Rows) -> [u16; 2] {
    let [n, m] = [project, part].map(|rows| rows.cells.len() as u16);
    let root = if fault == Fault::UnreachedDropped { place(&reached(&part.cells, part.root), part.root) } else { part.root };
    match fault {
        Fault::HalvesSwapped => [root + n, project.root],
        Fault::MergeOfLastCells => [n - 1, n + m - 1],
        _ => [project.root, root + n],
    }
}

/// How many lent bytes are taken for the project.
pub fn length(fault: Fault, lent: &[u8], told: usize) -> usize {
    let trailer = || lent.chunks(CELL).position(|cell| cell[0] == TRAILER);
    match fault {
        Fault::ToldCut => told.min(lent.len()),
        Fault::ToldIgnored => trailer().map_or(told, |at| (at + 1) * CELL),
        _ => told,
    }
}

/// The version of a book that is accepted on its own.
pub fn version_alone(fault: Fault, which: Which, book: &[u8]) -> Result<Version, (Which, Refusal)> {
    match (fault, which) {
        (Fault::ProjectUnchecked, Which::Project) | (Fault::PartUnchecked, Which::Part) => {
            decode(book).map(|(_, version)| version).map_err(|refusal| (which, refusal))
        }
        _ => accepted(which, book).map(|(_, version)| version),
    }
}

/// 16 by the lengths of both books.
fn full(project: &[u8], part: &[u8]) -> Result<(), (Which, Refusal)> {
    let cells = |book: &[u8]| (book.len() / CELL).saturating_sub(1);
    if cells(project) + cells(part) + 1 > CELLS {
        return Err((Which::Joint, Refusal { number: 16, cell: 0 }));
    }
    Ok(())
}

/// What is tested before the project is.
pub fn before_project(fault: Fault, project: &[u8], part: &[u8]) -> Result<(), (Which, Refusal)> {
    match fault {
        Fault::PartFirst => accepted(Which::Part, part).map(drop),
        Fault::FullFirst => full(project, part),
        _ => Ok(()),
    }
}

/// What is tested before the part is.
pub fn before_part(fault: Fault, project: &[u8], part: &[u8]) -> Result<(), (Which, Refusal)> {
    if fault == Fault::FullBeforePart {
        return full(project, part);
    }
    Ok(())
}

/// The labels that a book's cells have.
fn labels(rows: &Rows) -> BTreeSet<u8> {
    let labelled = |cell: &&Cell| row(cell.kind).is_some_and(|row| row.labelled);
    rows.cells.iter().filter(labelled).map(|cell| cell.label).collect()
}

/// Whether the joint of these is not checked on its own.
pub fn is_unchecked(fault: Fault, project: &Rows, part: &Rows) -> bool {
    let root_label = |rows: &Rows| rows.cells[usize::from(rows.root)].label;
    match fault {
        Fault::JointUnchecked => true,
        Fault::FullAccepted => project.cells.len() + part.cells.len() + 1 > CELLS,
        Fault::RootLabelsEnough => root_label(project) != root_label(part),
        Fault::OtherLabelsEnough => labels(project).is_disjoint(&labels(part)),
        _ => false,
    }
}

/// The joint with the intersection of both types, not tested on its own.
pub fn unchecked(joint: Vec<u8>, project: &[u8], part: &[u8]) -> Result<(Vec<u8>, Type, Version), (Which, Refusal)> {
    let (one, first) = accepted(Which::Project, project)?;
    let (two, second) = accepted(Which::Part, part)?;
    Ok((joint, Type::intersection(one, two), first.max(second)))
}

/// What a join is lent.
struct Lent<'a> {
    project: &'a mut [u8],
    work: &'a mut [u8],
}

/// What it was lent and told.
struct Before<'a> {
    project: Vec<u8>,
    work: Vec<u8>,
    length: usize,
    part: &'a [u8],
}

impl Before<'_> {
    /// The joint that was refused.
    fn joint(&self) -> Vec<u8> {
        self.project.get(..self.length).and_then(|project| joint(project, self.part)).unwrap_or_default()
    }

    fn other_length(&self) -> bool {
        self.project.len() != PROJECT
    }

    /// The project, if it is lent and told as it must be.
    fn told(&self) -> Option<&[u8]> {
        self.project.get(..self.length).filter(|_| !self.other_length())
    }

    /// What a check says of the project.
    fn of_project(&self) -> Answer {
        self.told().map_or(Answer::Refused { number: 2, cell: 0 }, |project| check(project, &mut vec![0; WORK]))
    }
}

pub fn join(fault: Fault, project: &mut [u8], length: usize, part: &[u8], work: &mut [u8]) -> Joined {
    let before = fault.is_of_joins().then(|| Before { project: project.to_vec(), work: work.to_vec(), length, part });
    let joined = answered(project, length, part, work);
    let Some(before) = before else { return joined };
    let mut lent = Lent { project, work };
    match joined.answer {
        Answer::Refused { number: 1, .. } => wrong_work(fault, &before, joined, &mut lent),
        Answer::Refused { number, .. } => refused(fault, number, &before, joined, &mut lent),
        _ => wrong_acceptance(fault, &before, joined, &mut lent),
    }
}

/// A preview is what a join says and leaves on a copy: with a fault, what the join with that fault does. What this join alters though it
/// refuses, the preview alters.
pub fn preview(fault: Fault, project: &mut [u8], length: usize, part: &[u8], work: &mut [u8]) -> Joined {
    let mut copy = project.to_vec();
    let joined = join(fault, &mut copy, length, part, work);
    match (fault, joined.answer) {
        (_, Answer::Refused { .. }) | (Fault::PreviewWrites, _) => project.copy_from_slice(&copy),
        (Fault::PreviewLeavesCells, _) => project[length..].copy_from_slice(&copy[length..]),
        (Fault::PreviewZeroesRest, _) => project[length..].fill(0),
        (Fault::PreviewAltersLast, _) => project[PROJECT - 1] ^= 1,
        _ => {}
    }
    joined
}

/// After refusal 1.
fn wrong_work(fault: Fault, before: &Before, joined: Joined, lent: &mut Lent) -> Joined {
    match fault {
        Fault::WorkUnderProject => return Joined { which: Which::Project, ..joined },
        Fault::WrongWorkZeroed => lent.work.fill(0),
        Fault::WrongWorkZeroesLent => lent.project.fill(0),
        Fault::LentBeforeWork if before.other_length() => {
            return Joined { which: Which::Project, answer: Answer::Refused { number: 2, cell: 0 }, ..joined };
        }
        Fault::ProjectBeforeWork => {
            if let answer @ Answer::Refused { .. } = before.of_project() {
                return Joined { which: Which::Project, answer, ..joined };
            }
        }
        _ => {}
    }
    joined
}

/// After any other refusal: first what is wrong after each.
fn refused(fault: Fault, number: u8, before: &Before, joined: Joined, lent: &mut Lent) -> Joined {
    match fault {
        Fault::RefusalZeroesLent => lent.project.fill(0),
        Fault::RefusalZeroesRest => lent.project.iter_mut().skip(before.length).for_each(|byte| *byte = 0),
        Fault::CountOfProject => return Joined { bytes: before.length, ..joined },
        Fault::RefusalLeavesWork => lent.work.copy_from_slice(&before.work),
        Fault::ProjectTypeLeft if joined.which != Which::Project => drop(before.told().map(|project| check(project, lent.work))),
        Fault::LentUnderJoint if before.other_length() => return Joined { which: Which::Joint, ..joined },
        Fault::LentLeavesWork if before.other_length() => lent.work.copy_from_slice(&before.work),
        Fault::PartCellRaised if joined.which == Which::Part && number > 4 => return raised_refusal(before, joined),
        _ if number == 16 => return full_joint(fault, before, joined, lent),
        _ if joined.which == Which::Joint => return refused_joint(fault, number, before, joined, lent),
        _ => {}
    }
    joined
}

/// The part's refusal, its cell raised with the references.
fn raised_refusal(before: &Before, joined: Joined) -> Joined {
    let Answer::Refused { number, cell } = joined.answer else { return joined };
    Joined { answer: Answer::Refused { number, cell: cell + before.length / CELL - 1 }, ..joined }
}

/// After refusal 16.
fn full_joint(fault: Fault, before: &Before, joined: Joined, lent: &mut Lent) -> Joined {
    match fault {
        Fault::FullUnderPart => return Joined { which: Which::Part, ..joined },
        Fault::FullNamesMerge => return Joined { answer: Answer::Refused { number: 16, cell: CELLS }, ..joined },
        Fault::FullAsLarge => {
            let cell = (before.length + before.part.len()) / CELL - 2;
            return Joined { answer: Answer::Refused { number: 10, cell }, ..joined };
        }
        Fault::FullLeavesWork => lent.work.copy_from_slice(&before.work),
        Fault::PartTypeLeft => drop(check(before.part, lent.work)),
        _ => {}
    }
    joined
}

/// After a refusal that the joint meets itself.
fn refused_joint(fault: Fault, number: u8, before: &Before, joined: Joined, lent: &mut Lent) -> Joined {
    match fault {
        Fault::JointUnderPart => return Joined { which: Which::Part, ..joined },
        Fault::CountOfRefused => return Joined { bytes: before.joint().len(), ..joined },
        Fault::JointCellZero => return Joined { answer: Answer::Refused { number, cell: 0 }, ..joined },
        Fault::PartTypeLeft => drop(check(before.part, lent.work)),
        Fault::RefusedJointLeft => {
            let mut joint = before.joint();
            joint.resize(lent.project.len(), 0);
            lent.project.copy_from_slice(&joint);
        }
        _ => {}
    }
    joined
}

/// After an acceptance.
fn wrong_acceptance(fault: Fault, before: &Before, joined: Joined, lent: &mut Lent) -> Joined {
    let Joined { answer: Answer::Accepted { size }, bytes, .. } = joined else { return joined };
    match fault {
        Fault::RestNotZeroed => lent.project[bytes..].copy_from_slice(&before.project[bytes..]),
        Fault::JointInWork => {
            lent.work.fill(0);
            lent.work[..bytes.min(WORK)].copy_from_slice(&lent.project[..bytes]);
        }
        Fault::TypeOfProjectVersion => lent.work[size * CELL + 1] = before.project[before.length - CELL + 1],
        Fault::AcceptanceZeroesWork => lent.work.fill(0),
        Fault::AcceptanceLeavesWork => lent.work.copy_from_slice(&before.work),
        Fault::PastTypeLeft => {
            let past = (size + 1) * CELL;
            lent.work[past..].copy_from_slice(&before.work[past..]);
        }
        _ => {}
    }
    misreported(fault, before, joined, lent.project)
}

/// What is said of an acceptance.
fn misreported(fault: Fault, before: &Before, joined: Joined, project: &[u8]) -> Joined {
    let size_of_root = || on_large_stack(|| decode(&project[..joined.bytes]).map_or(0, |(root, _)| root.size() as usize));
    match fault {
        Fault::AcceptanceUnderProject => Joined { which: Which::Project, ..joined },
        Fault::AcceptanceUnderPart => Joined { which: Which::Part, ..joined },
        Fault::CountWithoutTrailer => Joined { bytes: joined.bytes - CELL, ..joined },
        Fault::CountNothing => Joined { bytes: 0, ..joined },
        Fault::CountOfProjectKept => Joined { bytes: before.length, ..joined },
        Fault::SizeOfJoint => Joined { answer: Answer::Accepted { size: size_of_root() }, ..joined },
        Fault::SizeOfProjectType => Joined { answer: before.of_project(), ..joined },
        _ => joined,
    }
}
