//! The mark of a run. Document 02, (viii): "The state of a run carries the greatest size of any term so far, the first included, and each
//! run answer reports it."

use crate::answers::Answer;
use crate::mismarking::Mismark;
use crate::running::Machine;
use crate::terms::Term;

/// Why a run that is not refused stops.
#[derive(Clone, Copy, PartialEq, Eq)]
pub enum Stop {
    Value,
    Spent,
    Room,
}

impl Stop {
    fn answer(self, (steps, mark): (u32, u64)) -> Answer {
        match self {
            Stop::Value => Answer::Value { steps, mark },
            Stop::Spent => Answer::Spent { steps, mark },
            Stop::Room => Answer::Room { steps, mark },
        }
    }
}

/// "The mark equals the maximum over the terms that the run reaches in the calculus, not over the buffer": of the sizes of whole terms,
/// sharing opened.
pub struct Marks {
    greatest: u64,
    /// Where a fault of marks is planted.
    faulty: Option<Mismark>,
}

impl Marks {
    /// "The first included."
    pub fn of(machine: &Machine, book: &[u8]) -> Marks {
        Marks { greatest: machine.size(), faulty: Mismark::of(machine, book) }
    }

    /// The part in focus is about to become this one.
    pub fn step(&mut self, machine: &Machine, part: &Term) {
        if let Some(faulty) = &mut self.faulty {
            faulty.step(machine, part);
        }
    }

    /// Counts a term that the run has reached. "A successor that found no room is not counted."
    pub fn enter(&mut self, machine: &Machine) {
        self.greatest = self.greatest.max(machine.size());
        if let Some(faulty) = &mut self.faulty {
            faulty.enter(machine);
        }
    }

    /// "Each run answer reports it": what the run says at the term in the machine.
    pub fn answer(&self, stop: Stop, steps: u32, machine: &Machine) -> Answer {
        stop.answer(match &self.faulty {
            Some(faulty) => faulty.reported(stop, steps, machine),
            None => (steps, self.greatest),
        })
    }
}
