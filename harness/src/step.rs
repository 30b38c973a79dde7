//! A step as five numbers, its kind with the table of kinds, and an answer as two.

use crate::layout::STEP;
use std::fmt::{Display, Formatter, Result};

#[repr(C)]
#[derive(Clone, Copy, Debug, PartialEq)]
pub struct Answer {
    pub refusal: u32,
    pub value: u32,
}

impl Answer {
    pub fn refused(refusal: u32) -> Answer {
        Answer { refusal, value: 0 }
    }

    pub fn accepted(value: u32) -> Answer {
        Answer { refusal: 0, value }
    }
}

impl Display for Answer {
    fn fmt(&self, f: &mut Formatter) -> Result {
        write!(f, "{} {}", self.refusal, self.value)
    }
}

/// What a kind may read of a step.
#[derive(Clone, Copy, PartialEq)]
pub enum Field {
    Process,
    Hazard,
    Node,
    Guest,
}

impl Field {
    pub const ALL: [Field; 4] = [Field::Process, Field::Hazard, Field::Node, Field::Guest];
}

#[derive(Clone, Copy, PartialEq)]
pub struct Step {
    pub kind: u32,
    pub process: u32,
    pub hazard: u32,
    pub node: u32,
    pub guest: u32,
}

impl Step {
    /// A step of no kind.
    pub const UNKNOWN: Step = Step { kind: 0, process: 0, hazard: 0, node: 0, guest: 0 };

    pub fn new(kind: Kind, process: u32, hazard: u32, node: u32, guest: u32) -> Step {
        Step { kind: kind as u32, process, hazard, node, guest }
    }

    pub fn from_numbers([kind, process, hazard, node, guest]: [u32; STEP]) -> Step {
        Step { kind, process, hazard, node, guest }
    }

    pub fn numbers(self) -> [u32; STEP] {
        [self.kind, self.process, self.hazard, self.node, self.guest]
    }

    pub fn field_mut(&mut self, field: Field) -> &mut u32 {
        match field {
            Field::Process => &mut self.process,
            Field::Hazard => &mut self.hazard,
            Field::Node => &mut self.node,
            Field::Guest => &mut self.guest,
        }
    }
}

impl Display for Step {
    fn fmt(&self, f: &mut Formatter) -> Result {
        let [kind, process, hazard, node, guest] = self.numbers();
        write!(f, "{kind} {process} {hazard} {node} {guest}")
    }
}

/// The states of a node, in the order of their numbers.
#[derive(Clone, Copy, Debug, PartialEq)]
pub enum State {
    Free,
    Allocated,
    Reachable,
    Removed,
    Retired,
}

use State::*;

/// What a kind reads, the state of its node that it needs, whether the process must own that node, whether a second process stands in the
/// place of the node, and how often a random schedule has the kind.
pub struct Row {
    reads: &'static [Field],
    pub needs: Option<State>,
    pub owns: bool,
    pub heir: bool,
    pub weight: u32,
}

/// The parts of a row that only some kinds have.
const fn row(reads: &'static [Field], weight: u32) -> Row {
    Row { reads, needs: None, owns: false, heir: false, weight }
}

impl Row {
    const fn needs(self, state: State) -> Row {
        Row { needs: Some(state), ..self }
    }

    const fn owns(self) -> Row {
        Row { owns: true, ..self }
    }

    const fn heir(self) -> Row {
        Row { heir: true, ..self }
    }
}

macro_rules! kinds {
    ($($(#[$doc:meta])* $number:literal $name:ident [$($field:ident)*] $weight:literal $($part:ident ($($state:ident)?))*;)*) => {
        #[derive(Clone, Copy, Debug, PartialEq)]
        pub enum Kind {
            $($(#[$doc])* $name = $number,)*
        }

        impl Kind {
            pub const ALL: &'static [Kind] = &[$(Kind::$name,)*];

            pub fn row(self) -> &'static Row {
                match self {
                    $(Kind::$name => const { &row(&[$(Field::$field,)*], $weight)$(.$part($($state)?))* },)*
                }
            }
        }
    };
}

// The table: a kind's number and name, what it reads, its weight, what it needs of its node, and whether that is a process.
kinds! {
    1 Allocate [Process Node Guest] 8 needs(Free);
    2 Publish [Process Node] 8 needs(Allocated) owns();
    3 Protect [Process Hazard Node] 8;
    4 Check [Process Hazard] 12;
    5 Use [Process Hazard] 4;
    6 Clear [Process Hazard] 4;
    7 Remove [Process Node] 6 needs(Reachable);
    8 Retire [Process Node] 8 needs(Removed) owns();
    9 Drain [Process] 3;
    /// the paper's rooster
    10 Flush [Process] 2;
    11 Tick [] 6;
    12 Manage [Process] 8;
    /// the paper's roll call
    13 ClearPresence [] 1;
    /// the paper's repost
    14 Reinsert [Process Node] 3 needs(Removed) owns();
    15 Leave [Process Node] 2 heir();
    16 Join [Process] 3;
    /// the node is the start, the guest the limit
    17 Portion [Process Node Guest] 1;
}

impl Kind {
    /// The greatest number of a kind.
    pub const LAST: usize = Kind::ALL[Kind::ALL.len() - 1] as usize;

    pub fn from_number(number: u32) -> Option<Kind> {
        Kind::ALL.iter().copied().find(|&kind| kind as u32 == number)
    }

    pub fn reads(self, field: Field) -> bool {
        self.row().reads.contains(&field)
    }

    /// Whether the node of a step is a node to this kind.
    pub fn reads_node(self) -> bool {
        self.reads(Field::Node) && !self.row().heir
    }
}
