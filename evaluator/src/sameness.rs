//! Functions that are the same: those "with the same body and input type, as trees". Whether a part of both is one cell or two, and what
//! the outputs are, does not matter. And numbers that are.

use crate::faults::{current, planted_in, Fault};
use crate::kinds::{kind, Row, Sort};
use crate::terms::{Node, Part, Term, Type};
use crate::typing::subtype;
use crate::versions::Version;
use std::collections::BTreeSet;

/// The bits of a number that stand in the fields a, b and c of a cell of version 2, the sign's with c.
const FIELDS: [i64; 3] = [0xFFFF, 0xFFFF_0000, !0xFFFF_FFFF];

/// The bits that are not compared, of numbers of version 2: those of a field that one of these faults ignores.
fn ignored_bits(faults: [Fault; 3]) -> i64 {
    let planted = faults.into_iter().zip(FIELDS).find(|(fault, _)| planted_in(Version::Two, *fault));
    planted.map_or(0, |(_, bits)| bits)
}

/// "Equal numbers."
pub fn same_number(m: i64, n: i64) -> bool {
    (m ^ n) & !ignored_bits([Fault::ConsistentWithoutA, Fault::ConsistentWithoutB, Fault::ConsistentWithoutC]) == 0
}

/// A function's body, input type and output type.
pub type Function<'a> = (&'a Term, &'a Type, &'a Type);

pub fn same_function(one: Function, other: Function) -> bool {
    let ((e, i, o), (f, j, p)) = (one, other);
    let first_cell = |t: &Type| (t.node().row.kind, t.node().label);
    match current() {
        None => i == j && e == f,
        Some(Fault::InputsIgnored) => e == f,
        Some(Fault::InputsByFirstCell) => first_cell(i) == first_cell(j) && e == f,
        Some(Fault::OutputsCompared) => i == j && o == p && e == f,
        Some(Fault::LeftOutputBelow) => i == j && subtype(o, p) && e == f,
        Some(Fault::InputSharingCompared) => i == j && e == f && one_for_one(Part::Type(i), Part::Type(j)) == [true; 2],
        Some(Fault::BodiesByCell) => i == j && e.address() == f.address(),
        Some(Fault::BodiesByLowByte) => i == j && (e.cell() as u8 == f.cell() as u8 || e == f),
        Some(fault @ (Fault::SharingCompared | Fault::OneForSeveral | Fault::SeveralForOne)) => {
            let allowed = [Fault::OneForSeveral, Fault::SeveralForOne].map(|one_way| fault == one_way);
            i == j && e == f && one_for_one(Part::Term(e), Part::Term(f)).into_iter().zip(allowed).all(|(one, or)| one || or)
        }
        Some(fault) => i == j && walk(fault, 0, &e.node(), &f.node()).map_or_else(|answer| answer, |()| true),
    }
}

/// The kinds that a fault does not tell apart.
fn alike(fault: Fault) -> &'static [u8] {
    match fault {
        Fault::PairsAlike => &[kind::APPLICATION, kind::MERGE, kind::SUM],
        Fault::RecordsAsReads => &[kind::RECORD, kind::PROJECTION],
        Fault::AnnotationsAsFixpoints => &[kind::ANNOTATION, kind::FIXPOINT],
        Fault::FunctionTypesAsIntersections => &[kind::FUNCTION_TYPE, kind::INTERSECTION],
        Fault::IntAsTop => &[kind::INT, kind::TOP],
        _ => &[],
    }
}

/// A fault does not compare this field.
fn ignored(fault: Fault, row: &Row, field: usize) -> bool {
    let last = row.fields[field].sort().is_some() && row.fields[field + 1..].iter().all(|field| field.sort().is_none());
    match fault {
        Fault::EqualByTwoParts => (row.kind, field) == (kind::CHOICE, 2),
        Fault::FunctionsByTwoParts => (row.kind, field) == (kind::FUNCTION, 2),
        Fault::FirstIgnored => field == 0 && row.fields[0].sort().is_some() && !last,
        Fault::SecondOfTwoIgnored => field == 1 && last,
        Fault::TypesIgnored => row.sort == Sort::Term && row.fields[field].sort() == Some(Sort::Type),
        Fault::VariablesAlike => row.kind == kind::VARIABLE,
        _ => false,
    }
}

/// The bits of numbers in bodies that a fault does not compare.
fn ignored_in_bodies(fault: Fault) -> i64 {
    match fault {
        Fault::LowHalfIgnored => 0xFFFF,
        Fault::HighHalfIgnored => !0xFFFF,
        _ => ignored_bits([Fault::BodiesWithoutA, Fault::BodiesWithoutB, Fault::BodiesWithoutC]),
    }
}

/// The bits of a plain field that a fault compares.
fn compared(fault: Fault, row: &Row) -> u16 {
    if fault == Fault::VariablesByLowByte && row.kind == kind::VARIABLE {
        0xFF
    } else {
        u16::MAX
    }
}

/// Bodies are compared to this level, where a fault has that.
const LEVELS: usize = 8;

/// Both trees compared from here on, this level, as a fault has it. An error is the answer.
fn walk(fault: Fault, level: usize, one: &Node, other: &Node) -> Result<(), bool> {
    if fault == Fault::EightLevels && level == LEVELS {
        return Ok(());
    }
    let [one_kind, other_kind] = [one, other].map(|node| node.row.kind);
    let kinds = one_kind == other_kind || [one_kind, other_kind].iter().all(|kind| alike(fault).contains(kind));
    if !kinds || one.label != other.label && fault != Fault::LabelsIgnored {
        return Err(false);
    }
    for (field, parts) in one.fields.into_iter().zip(other.fields).enumerate() {
        if ignored(fault, one.row, field) {
            continue;
        }
        match (fault, one_cell(parts)) {
            (Fault::BodiesByBytes, Some(false)) => return Err(false),
            (Fault::SharedPartEnough, Some(true)) => return Err(true),
            _ => {}
        }
        match parts {
            (Part::Type(t), Part::Type(u)) => walk(fault, level + 1, &t.node(), &u.node())?,
            (Part::Term(e), Part::Term(f)) => walk(fault, level + 1, &e.node(), &f.node())?,
            (Part::Plain(m), Part::Plain(n)) if (m ^ n) & compared(fault, one.row) != 0 => return Err(false),
            (Part::Number(m), Part::Number(n)) if (m ^ n) & !ignored_in_bodies(fault) != 0 => return Err(false),
            _ => {}
        }
    }
    Ok(())
}

/// Whether two parts are one cell; none if they are no parts.
fn one_cell(parts: (Part, Part)) -> Option<bool> {
    let [(one, _), (other, _)] = [cell(parts.0)?, cell(parts.1)?];
    Some(one == other)
}

/// The cell that a part is: its address and what is in it.
fn cell(part: Part) -> Option<(*const (), Node)> {
    match part {
        Part::Type(t) => Some((t.address(), t.node())),
        Part::Term(e) => Some((e.address(), e.node())),
        _ => None,
    }
}

/// The addresses of all cells of a tree, each as often as it stands there.
fn addresses(part: Part, all: &mut Vec<*const ()>) {
    if let Some((address, node)) = cell(part) {
        all.push(address);
        node.fields.into_iter().for_each(|part| addresses(part, all));
    }
}

/// Of two equal trees: whether each cell of the one stands where only one of the other does, and the reverse.
fn one_for_one(one: Part, other: Part) -> [bool; 2] {
    let [ones, others] = [one, other].map(|part| {
        let mut all = Vec::new();
        addresses(part, &mut all);
        all
    });
    let pairs: BTreeSet<_> = ones.iter().zip(&others).collect();
    [ones.iter(), others.iter()].map(|all| all.collect::<BTreeSet<_>>().len() == pairs.len())
}
