//! The faults of marks.

use crate::book::{decode, CELL, SIZE_LIMIT};
use crate::faults::{current, Fault};
use crate::marks::Stop;
use crate::running::Machine;
use crate::terms::{Part, Term, TermShape};
use crate::versions::Version;
use std::collections::HashSet;

/// Beyond the limit, a run is followed for so many steps.
const FOLLOWED: usize = 10_000;
/// `HundredMarked` counts the terms after at most so many steps.
const HUNDRED: usize = 100;

/// What a run with a fault of marks knows of the terms that it has reached, the first at the start.
pub struct Mismark {
    fault: Fault,
    sizes: Vec<u64>,
    /// What each counts for.
    counted: Vec<u64>,
    /// The part that stepped last, and what it became.
    stepped: Option<[Term; 2]>,
}

impl Mismark {
    /// None unless a fault of marks is planted.
    pub fn of(machine: &Machine, book: &[u8]) -> Option<Mismark> {
        let fault = current().filter(|fault| fault.is_of_marks())?;
        let size = machine.size();
        let [left, right] = machine.beside();
        let counted = match fault {
            Fault::MarkOfBook => (book.len() / CELL - 1) as u64,
            Fault::MarkOfReached => decode(book).map_or(0, |(root, _)| reached(&root)),
            Fault::MarkWithoutTypes => size - types_in(&machine.clone().term()),
            Fault::MarkWithoutLeft => size - left,
            Fault::MarkWithoutRight => size - right,
            _ => size,
        };
        Some(Mismark { fault, sizes: vec![size], counted: vec![counted], stepped: None })
    }

    pub fn step(&mut self, machine: &Machine, part: &Term) {
        self.stepped = Some([machine.focus().clone(), part.clone()]);
    }

    pub fn enter(&mut self, machine: &Machine) {
        let size = machine.size();
        self.sizes.push(size);
        self.counted.push(self.stepped.as_ref().map_or(size, |stepped| self.counts(machine, stepped)));
    }

    /// What a term counts for that a step has given: nothing, if it is not counted.
    fn counts(&self, machine: &Machine, [from, to]: &[Term; 2]) -> u64 {
        let size = machine.size();
        let [left, right] = machine.beside();
        match (self.fault, from.shape(), machine.focus().shape()) {
            (Fault::MarkOfPart, ..) => to.size(),
            (Fault::MarkOfBothParts, ..) => (size + from.size()).min(SIZE_LIMIT),
            (Fault::MarkWithoutLeft, ..) => size - left,
            (Fault::MarkWithoutRight, ..) => size - right,
            (Fault::MarkWithoutTypes, ..) => size - types_in(&machine.clone().term()),
            (Fault::FixpointsUnmarked, TermShape::Fixpoint(..), _) => 0,
            (Fault::ApplicationsUnmarked, TermShape::Application(..), _) => 0,
            (Fault::ReadingsUnmarked, TermShape::Annotation(..), _) => 0,
            (Fault::ChoicesUnmarked, _, TermShape::Choice(..)) => 0,
            _ => size,
        }
    }

    /// The steps and the mark that are reported.
    pub fn reported(&self, stop: Stop, steps: u32, machine: &Machine) -> (u32, u64) {
        match self.fault {
            Fault::MarkAsSteps => (greatest(&self.sizes) as u32, u64::from(steps)),
            _ => (steps, self.by_terms(stop, machine).unwrap_or_else(|| self.by_mark(stop))),
        }
    }

    /// The mark of a fault that takes some terms for others; none of another fault.
    fn by_terms(&self, stop: Stop, machine: &Machine) -> Option<u64> {
        let (sizes, all) = (&self.sizes[..], greatest(&self.counted));
        let (first, last) = (sizes[0], sizes[sizes.len() - 1]);
        let beyond = |count, most| greatest(&beyond(machine, count, most)).max(all);
        Some(match (self.fault, stop) {
            (Fault::MarkOfLast, _) => last,
            (Fault::MarkOfEnds, _) => first.max(last),
            (Fault::MarkOfFirst, _) => first,
            (Fault::WideMarkOfFirst, _) if machine.version() == Version::Two => first,
            (Fault::FirstUnmarked, _) => greatest(sizes.get(1..).filter(|later| !later.is_empty()).unwrap_or(sizes)),
            (Fault::LastUnmarked, Stop::Spent) | (Fault::ValueUnmarked, Stop::Value) => {
                greatest(&sizes[..(sizes.len() - 1).max(1)])
            }
            (Fault::LastTwoMarked, _) => greatest(&sizes[sizes.len().saturating_sub(2)..]),
            (Fault::EveryOtherMarked, _) => greatest(&sizes.iter().copied().step_by(2).collect::<Vec<_>>()),
            (Fault::HundredMarked, _) => greatest(&sizes[..sizes.len().min(HUNDRED + 1)]),
            (Fault::MarkBegunAgain, _) => {
                let again = sizes.windows(2).rposition(|two| two[1] < two[0] / 2).map_or(0, |place| place + 1);
                greatest(&sizes[again..])
            }
            (Fault::LeastMarked, _) => sizes.iter().copied().fold(first, u64::min),
            (Fault::RoomlessMarked, Stop::Room) => beyond(1, u64::MAX),
            (Fault::OneBeyondMarked, Stop::Spent) => beyond(1, SIZE_LIMIT),
            (Fault::ChainMarked, Stop::Spent) => beyond(FOLLOWED, SIZE_LIMIT),
            _ => return None,
        })
    }

    /// The mark of a fault that makes another of the right one.
    fn by_mark(&self, stop: Stop) -> u64 {
        let mark = greatest(&self.counted);
        let last = self.sizes[self.sizes.len() - 1];
        match (self.fault, stop) {
            (Fault::RoomlessFull, Stop::Room) => SIZE_LIMIT,
            (Fault::ValueMarkedOne, Stop::Value) => 1,
            (Fault::SpentMarkedOne, Stop::Spent) | (Fault::RoomMarkedOne, Stop::Room) => 1,
            (Fault::MarkNothing, _) => 0,
            (Fault::MarkOneMore, _) => mark + 1,
            (Fault::MarkOneLess, _) if mark == last && mark > self.sizes[0] => mark - 1,
            (Fault::MarkHeldShort, _) => mark.min(SIZE_LIMIT - 1),
            (Fault::MarkLowByte, _) => mark % 256,
            (Fault::MarkInBytes, _) => (mark + 1) * CELL as u64,
            _ => mark,
        }
    }
}

fn greatest(sizes: &[u64]) -> u64 {
    sizes.iter().copied().fold(0, u64::max)
}

/// The sizes of the terms that follow, so many at most, as far as none is above this one.
fn beyond(machine: &Machine, count: usize, most: u64) -> Vec<u64> {
    let mut machine = machine.clone();
    let mut sizes = Vec::new();
    while sizes.len() < count && !machine.is_value() {
        let Some(next) = machine.next().pop().filter(|(_, size)| *size <= most) else { break };
        sizes.push(next.1);
        machine.step(next);
    }
    sizes
}

/// How many cells the term has that are types.
fn types_in(e: &Term) -> u64 {
    let in_part = |part: &Part| match part {
        Part::Type(t) => t.size(),
        Part::Term(e) => types_in(e),
        _ => 0,
    };
    e.node().fields.iter().map(in_part).sum()
}

/// How many cells the root was decoded from.
fn reached(root: &Term) -> u64 {
    let (mut known, mut waiting) = (HashSet::new(), vec![Part::Term(root)]);
    while let Some(part) = waiting.pop() {
        let (address, node) = match part {
            Part::Type(t) => (t.address(), t.node()),
            Part::Term(e) => (e.address(), e.node()),
            _ => continue,
        };
        if known.insert(address) {
            waiting.extend(node.fields);
        }
    }
    known.len() as u64
}
