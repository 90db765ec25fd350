//! What planted faults make of the sheet call.

use crate::answers::{self, run, type_of_root, Answer, WORK};
use crate::book::{decode, encode_term, encode_type, Cell, Refusal, CELL};
use crate::faults::Fault;
use crate::fields::type_parts;
use crate::kinds::kind;
use crate::misjoining::reached;
use crate::sheets::{self, no_sheet, COUNTED, FORBIDDEN};
use crate::stack::on_large_stack;
use crate::terms::{Part, Term, TermShape, Type, TypeShape};
use crate::typing::top_like;
use crate::versions::Version;
use std::collections::HashSet;

/// Terms are looked at to this level, where a fault has that.
const LEVELS: usize = 8;
/// The count is held to this, where a fault has that.
const HELD: u32 = 1_000;

/// These kinds with one more, or without it if it is among them.
fn altered(kinds: [u8; 4], by: Option<u8>) -> Vec<u8> {
    let added = by.filter(|kind| !kinds.contains(kind));
    kinds.into_iter().filter(|kind| Some(*kind) != by).chain(added).collect()
}

/// The kinds that no sheet has.
fn forbidden(fault: Fault) -> Vec<u8> {
    let by = match fault {
        Fault::VariablesAllowed => Some(kind::VARIABLE),
        Fault::FunctionsAllowed => Some(kind::FUNCTION),
        Fault::FixpointsAllowed => Some(kind::FIXPOINT),
        Fault::ChoicesAllowed => Some(kind::CHOICE),
        Fault::ApplicationsForbidden => Some(kind::APPLICATION),
        Fault::SumsForbidden => Some(kind::SUM),
        _ => None,
    };
    altered(FORBIDDEN, by)
}

/// The kinds that are counted.
fn counted(fault: Fault) -> Vec<u8> {
    let by = match fault {
        Fault::AnnotationsUncounted => Some(kind::ANNOTATION),
        Fault::ApplicationsUncounted => Some(kind::APPLICATION),
        Fault::ReadsUncounted => Some(kind::PROJECTION),
        Fault::SumsUncounted => Some(kind::SUM),
        Fault::RecordsCounted => Some(kind::RECORD),
        Fault::MergesCounted => Some(kind::MERGE),
        Fault::NumbersCounted => Some(kind::NUMBER),
        Fault::TopValuesCounted => Some(kind::TOP_VALUE),
        _ => None,
    };
    altered(COUNTED, by)
}

/// Whether the part in this field, at this level, is looked at for what no sheet has.
fn is_searched(fault: Fault, e: &Term, field: usize, level: usize) -> bool {
    match fault {
        Fault::ForbiddenAtRoot => false,
        Fault::ForbiddenOnLeft => field == 0,
        Fault::ForbiddenToEightLevels => level < LEVELS,
        Fault::ForbiddenUnlessHidden => !is_hidden(e, field),
        _ => true,
    }
}

/// Whether the part in this field, at this level, is counted.
fn is_counted(fault: Fault, e: &Term, field: usize, level: usize) -> bool {
    match fault {
        Fault::LeftCounted => field == 0,
        Fault::EightLevelsCounted => level < LEVELS,
        Fault::ContentsUncounted => kind_of(e) != kind::RECORD,
        Fault::HiddenUncounted => !is_hidden(e, field),
        _ => true,
    }
}

/// The part that nothing can be seen of: what is annotated with a top-like type, and what the top value is applied to.
fn is_hidden(e: &Term, field: usize) -> bool {
    match e.shape() {
        TermShape::Annotation(_, by) => top_like(by),
        TermShape::Application(..) => field == 1,
        _ => false,
    }
}

/// Whether a part is let through, by its whole, its field and its level.
type Through = fn(Fault, &Term, usize, usize) -> bool;

/// All terms of a term, with sharing opened, itself first: of each, the parts that are let through.
fn terms(fault: Fault, through: Through, root: &Term) -> Vec<&Term> {
    let (mut all, mut waiting) = (Vec::new(), vec![(root, 0)]);
    while let Some((e, level)) = waiting.pop() {
        all.push(e);
        let parts = e.node().terms().filter(|(field, ..)| through(fault, e, *field, level));
        waiting.extend(parts.map(|(.., part)| (part, level + 1)));
    }
    all
}

fn kind_of(e: &Term) -> u8 {
    e.node().row.kind
}

/// The cells of a book, and its root.
fn cells_of(book: &[u8]) -> (Vec<Cell>, u16) {
    let mut cells: Vec<Cell> = book.chunks(CELL).map(Cell::of).collect();
    let root = cells.pop().map_or(0, |trailer| trailer.fields[1]);
    (cells, root)
}

/// How many cells of a book have these kinds, reached or not.
fn in_cells(kinds: [u8; 4], book: &[u8]) -> usize {
    cells_of(book).0.iter().filter(|cell| kinds.contains(&cell.kind)).count()
}

/// The root of a book that rows 2 to 9 pass reaches what no sheet has.
fn reaches_other(book: &[u8]) -> bool {
    let (cells, root) = cells_of(book);
    let reached = reached(&cells, root);
    cells.iter().zip(reached).any(|(cell, reached)| reached && FORBIDDEN.contains(&cell.kind))
}

/// 17 in place of an earlier refusal.
fn before(fault: Fault, refusal: Refusal, book: &[u8]) -> Refusal {
    match (fault, refusal.number) {
        (Fault::NoSheetBeforeCells, 5..=8) if in_cells(FORBIDDEN, book) > 0 => no_sheet(usize::from(cells_of(book).1)),
        (Fault::NoSheetOfType, 9) => no_sheet(refusal.cell),
        (Fault::NoSheetBeforeSize, 10) if reaches_other(book) => no_sheet(refusal.cell),
        _ => refusal,
    }
}

/// What is found in the root that no sheet has.
fn found(fault: Fault, root: &Term) -> Vec<&Term> {
    let forbidden = forbidden(fault);
    let has_type = |e: &Term| matches!(e.shape(), TermShape::Annotation(_, by) if has_function(by));
    let is_found = |e: &&Term| forbidden.contains(&kind_of(e)) || fault == Fault::FunctionTypesForbidden && has_type(e);
    terms(fault, is_searched, root).into_iter().filter(is_found).collect()
}

fn has_function(t: &Type) -> bool {
    let within = |part: &Part| matches!(part, Part::Type(t) if has_function(t));
    matches!(t.shape(), TypeShape::Function(..)) || t.node().fields.iter().any(within)
}

/// The refusal of a book that is no sheet.
fn tested(fault: Fault, book: &[u8], root: &Term, version: Version) -> Result<(), Refusal> {
    let found = found(fault, root);
    let beside = match fault {
        Fault::ForbiddenUnreached => in_cells(FORBIDDEN, book) > 0,
        Fault::ValuesNoSheet => root.is_value(),
        Fault::WideNoSheet => version == Version::Two,
        _ => false,
    };
    if found.is_empty() && !beside {
        return Ok(());
    }
    let first = found.iter().map(|e| e.cell()).min().unwrap_or(0);
    Err(match fault {
        Fault::NoSheetCellZero => no_sheet(0),
        Fault::NoSheetNamesFirst => no_sheet(first),
        Fault::NoSheetNamesLast => no_sheet(book.len() / CELL - 2),
        Fault::NoSheetAsUnbound => Refusal { number: 11, cell: root.cell() },
        Fault::NoSheetAsFull => Refusal { number: 16, cell: 0 },
        _ => no_sheet(root.cell()),
    })
}

/// What a term of a kind that is counted counts for, its parts left out.
fn weight(fault: Fault, e: &Term) -> u32 {
    let is_merge = |part: &Term| matches!(part.shape(), TermShape::Merge(..));
    match (fault, e.shape()) {
        (Fault::TypesCounted, TermShape::Annotation(_, by)) => 1 + by.size() as u32,
        (Fault::PartsCounted, TermShape::Annotation(_, by)) => type_parts(by).len() as u32,
        (Fault::TopLikeUncounted, TermShape::Annotation(_, by)) if top_like(by) => 0,
        (Fault::OwnTypeUncounted, TermShape::Annotation(v, by)) if kind_of(v) == kind::NUMBER && *by == Type::int() => 0,
        (Fault::AnnotatedAgainUncounted, TermShape::Annotation(v, _)) if kind_of(v) == kind::ANNOTATION => 0,
        (Fault::ReadsOfMergesTwice, TermShape::Projection(_, of)) if is_merge(of) => 2,
        (Fault::ReadsOfTopUncounted, TermShape::Projection(_, of)) if kind_of(of) == kind::TOP_VALUE => 0,
        (Fault::SumsOfMergesTwice, TermShape::Sum(a, b)) if is_merge(a) || is_merge(b) => 2,
        (Fault::SumsOfSumsUncounted, TermShape::Sum(a, b)) if [a, b].map(kind_of).contains(&kind::SUM) => 0,
        _ => 1,
    }
}

/// The count, by the terms of the root.
fn by_terms(fault: Fault, root: &Term) -> u32 {
    let (kinds, mut known) = (counted(fault), HashSet::new());
    let terms = terms(fault, is_counted, root).into_iter().filter(|e| kinds.contains(&kind_of(e)));
    terms.filter(|e| fault != Fault::SharedCountedOnce || known.insert(e.address())).map(|e| weight(fault, e)).sum()
}

/// The count of a sheet that is accepted.
fn steps(fault: Fault, book: &[u8], root: &Term, size: u32, version: Version) -> u32 {
    let count = by_terms(fault, root);
    match fault {
        Fault::CountOfRoot => root.size() as u32,
        Fault::CountOfType => size,
        Fault::CountOfBook => (book.len() / CELL) as u32 - 1,
        Fault::UnreachedCounted => in_cells(COUNTED, book) as u32,
        Fault::CountOneMore => count + 1,
        Fault::CountOneLess => count.saturating_sub(1),
        Fault::NothingCounted => 0,
        Fault::CountLowByte => count % 256,
        Fault::CountHeld => count.min(HELD),
        Fault::WideUncounted if version == Version::Two => 0,
        _ => count,
    }
}

/// The bytes that an acceptance leaves.
fn left(fault: Fault, book: &[u8], root: &Term, inferred: &Type, version: Version) -> Vec<u8> {
    match fault {
        Fault::SheetLeavesValue => {
            let mut work = vec![0; WORK];
            run(book, &mut work, u32::MAX);
            work
        }
        Fault::SheetLeavesRoot => encode_term(root, version),
        Fault::SheetLeavesNothing => Vec::new(),
        Fault::SheetOfVersion1 => encode_type(inferred, Version::One),
        _ => encode_type(inferred, version),
    }
}

fn judged(fault: Fault, book: &[u8]) -> Result<(Answer, Vec<u8>), Refusal> {
    let (root, version) = decode(book).map_err(|refusal| before(fault, refusal, book))?;
    let inferred = type_of_root(&root, version);
    if fault == Fault::NoSheetAfterTyping {
        inferred.as_ref().map_err(|refusal| *refusal)?;
    }
    tested(fault, book, &root, version)?;
    let inferred = match (fault, inferred) {
        (Fault::IllTypedNoSheet, Err(_)) => return Err(no_sheet(root.cell())),
        (Fault::IllTypedAccepted, Err(_)) => Type::top(),
        (_, inferred) => inferred?,
    };
    let size = inferred.size() as u32;
    let steps = steps(fault, book, &root, size, version);
    let [size, steps] = if fault == Fault::CountAsSize { [steps, size] } else { [size, steps] };
    Ok((Answer::Sheet { size: size as usize, steps }, left(fault, book, &root, &inferred, version)))
}

pub fn sheet(fault: Fault, book: &[u8], work: &mut [u8]) -> Answer {
    let before = work.to_vec();
    let answer = answers::answer(work, || judged(fault, book));
    match (fault, answer) {
        (Fault::NoSheetLeavesWork, Answer::Refused { number: 17, .. })
        | (Fault::IllTypedLeavesWork, Answer::Refused { number: 11..=15, .. }) => work.copy_from_slice(&before),
        (Fault::WrongWorkOfSheetZeroed, Answer::Refused { number: 1, .. }) => work.fill(0),
        (Fault::SheetLeavesRest, Answer::Sheet { size, .. }) => {
            let past = (size + 1) * CELL;
            work[past..].copy_from_slice(&before[past..]);
        }
        (Fault::NoSheetBeforeWork, Answer::Refused { number: 1, .. }) => {
            if let Err(Refusal { number: number @ 17, cell }) = on_large_stack(|| sheets::judged(book)) {
                return Answer::Refused { number, cell };
            }
        }
        _ => {}
    }
    answer
}
