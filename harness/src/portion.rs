//! What a portion of a scan answers: five numbers, of which a step has the first two.

use crate::step::{Answer, Kind, Step};
use std::fmt::{Display, Formatter, Result};

/// The numbers of include/qsense.h.
#[repr(C)]
#[derive(Clone, Copy, Debug, Default, PartialEq)]
pub struct PortionAnswer {
    pub refusal: u32,
    pub freed: u32,
    pub examined: u32,
    pub next: u32,
    pub left: u32,
}

impl PortionAnswer {
    pub fn from_numbers([refusal, freed, examined, next, left]: [u32; 5]) -> PortionAnswer {
        PortionAnswer { refusal, freed, examined, next, left }
    }

    pub fn refused(refusal: u32) -> PortionAnswer {
        PortionAnswer { refusal, ..PortionAnswer::default() }
    }

    /// What the same is answered as a step.
    pub fn as_step(self) -> Answer {
        Answer { refusal: self.refusal, value: self.freed }
    }
}

impl Display for PortionAnswer {
    fn fmt(&self, f: &mut Formatter) -> Result {
        let PortionAnswer { refusal, freed, examined, next, left } = self;
        write!(f, "{refusal} {freed} {examined} {next} {left}")
    }
}

/// The numbers that a portion is asked for with.
#[derive(Clone, Copy, Debug, PartialEq)]
pub struct Portion {
    pub process: u32,
    pub start: u32,
    pub limit: u32,
}

impl Portion {
    /// The least and the greatest limit that is taken.
    pub const LIMITS: [u32; 2] = [1, 256];

    pub fn new(process: u32, start: u32, limit: u32) -> Portion {
        Portion { process, start, limit }
    }

    /// What a step asks for, if it is a portion.
    pub fn of(step: Step) -> Option<Portion> {
        let Step { kind, process, node: start, guest: limit, .. } = step;
        (kind == Kind::Portion as u32).then_some(Portion { process, start, limit })
    }

    pub fn step(self) -> Step {
        Step::new(Kind::Portion, self.process, 0, self.start, self.limit)
    }
}

impl Display for Portion {
    fn fmt(&self, f: &mut Formatter) -> Result {
        write!(f, "portion of process {} from node {}, limit {}", self.process, self.start, self.limit)
    }
}
