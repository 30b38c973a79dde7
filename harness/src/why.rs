//! Why a node is still waiting: what is answered, the eight numbers of the call, and the line of the program `why`.

use crate::step::State;
use std::fmt::{Display, Formatter, Result};

/// The first that is true of a node.
#[derive(Clone, Copy, Debug, PartialEq)]
pub enum Reason {
    NotRetired(State),
    /// so many ticks until a scan could free it
    Young(u32),
    /// seen by its owner in the lowest such hazard of the lowest such process
    Visible {
        process: u32,
        hazard: u32,
    },
    Ready,
}

/// The lowest present process that is at another epoch than the global one.
#[derive(Clone, Copy, Debug, PartialEq)]
pub enum Behind {
    NotAsked,
    Nobody,
    Process(u32),
}

#[derive(Clone, Copy, Debug, PartialEq)]
pub enum Why {
    Refused(u32),
    Told(Reason, Behind),
}

/// The numbers of include/qsense.h.
#[repr(C)]
#[derive(Clone, Copy, Debug, Default, PartialEq)]
pub struct WhyAnswer {
    pub refusal: u32,
    pub answer: u32,
    pub state: u32,
    pub ticks: u32,
    pub process: u32,
    pub hazard: u32,
    pub behind: u32,
    pub behind_process: u32,
}

impl WhyAnswer {
    pub fn from_numbers(numbers: [u32; 8]) -> WhyAnswer {
        let [refusal, answer, state, ticks, process, hazard, behind, behind_process] = numbers;
        WhyAnswer { refusal, answer, state, ticks, process, hazard, behind, behind_process }
    }
}

impl Display for WhyAnswer {
    fn fmt(&self, f: &mut Formatter) -> Result {
        let WhyAnswer { refusal, answer, state, ticks, process, hazard, behind, behind_process } = self;
        write!(f, "{refusal} {answer} {state} {ticks} {process} {hazard} {behind} {behind_process}")
    }
}

impl Why {
    /// The numbers of the call.
    pub fn answer(self) -> WhyAnswer {
        let (reason, behind) = match self {
            Why::Refused(refusal) => return WhyAnswer { refusal, ..WhyAnswer::default() },
            Why::Told(reason, behind) => (reason, behind),
        };
        let (behind, behind_process) = match behind {
            Behind::NotAsked => (0, 0),
            Behind::Nobody => (1, 0),
            Behind::Process(process) => (2, process),
        };
        let told = WhyAnswer { behind, behind_process, ..WhyAnswer::default() };
        match reason {
            Reason::NotRetired(state) => WhyAnswer { answer: 1, state: state as u32, ..told },
            Reason::Young(ticks) => WhyAnswer { answer: 2, ticks, ..told },
            Reason::Visible { process, hazard } => WhyAnswer { answer: 3, process, hazard, ..told },
            Reason::Ready => WhyAnswer { answer: 4, ..told },
        }
    }

    /// The line that is printed of a card.
    pub fn line(self, card: u32) -> String {
        match self {
            Why::Refused(number) => format!("refused {number}\n"),
            Why::Told(reason, behind) => format!("card {card}: {reason}{behind}\n"),
        }
    }
}

impl Display for Reason {
    fn fmt(&self, f: &mut Formatter) -> Result {
        match self {
            Reason::NotRetired(state) => write!(f, "not Retired, it is {state:?}"),
            Reason::Young(1) => write!(f, "too young, 1 tick until a scan can free it"),
            Reason::Young(ticks) => write!(f, "too young, {ticks} ticks until a scan can free it"),
            Reason::Visible { process, hazard } => {
                write!(f, "on the board as its owner sees it, worker {process} slot {hazard} names it")
            }
            Reason::Ready => write!(f, "ready, a scan by its owner would free it now"),
        }
    }
}

impl Display for Behind {
    fn fmt(&self, f: &mut Formatter) -> Result {
        match self {
            Behind::NotAsked => Ok(()),
            Behind::Nobody => write!(f, "; every present worker has seen the new epoch"),
            Behind::Process(process) => write!(f, "; worker {process} has not seen the new epoch"),
        }
    }
}
