//! Well-formed domains that no run need reach: every field has any value that the paper's shape allows.

use crate::layout::BUFFER;
use crate::model::domain::{Domain, Hazard, Node, Path, Process, Store};
use crate::params::Params;
use crate::random::Random;

pub fn domain(random: &mut Random, params: Params) -> Domain {
    let clock = match random.below(6) {
        0 => 0,
        1 => u32::MAX,
        2 => u32::MAX - random.below(3),
        3 => random.word(),
        _ => random.below(20),
    };
    let mut shape = Shape { params, clock, random };
    Domain {
        params,
        clock,
        path: if shape.random.chance(50) { Path::Fast } else { Path::Fallback },
        epoch: shape.random.below(3),
        processes: (0..params.processes).map(|_| shape.process()).collect(),
        nodes: (0..params.nodes).map(|_| shape.node()).collect(),
    }
}

struct Shape<'a> {
    params: Params,
    clock: u32,
    random: &'a mut Random,
}

impl Shape<'_> {
    fn process(&mut self) -> Process {
        let pending = *self.random.of(&[0, 0, 1, 2, 5, BUFFER - 1, BUFFER]);
        let idle = self.random.chance(30);
        let lead = Process::lead_limits(self.params).map(|most| self.random.up_to(most));
        Process {
            presence: self.random.chance(70),
            present: self.random.chance(75),
            hazards: (0..self.params.hazards).map(|_| self.hazard(idle)).collect(),
            buffer: (0..pending).map(|_| self.store()).collect(),
            ..Process::of_lead(self.params, lead)
        }
    }

    fn hazard(&mut self, idle: bool) -> Hazard {
        let assigned = if idle { None } else { self.stored() };
        Hazard { visible: self.stored(), assigned, validated: assigned.is_some() && self.random.chance(50) }
    }

    fn stored(&mut self) -> Option<u32> {
        self.random.up_to(self.params.nodes).checked_sub(1)
    }

    fn store(&mut self) -> Store {
        Store { hazard: self.random.below(self.params.hazards), node: self.stored(), time: self.time() }
    }

    /// A time at most the clock, mostly about the delay ago.
    fn time(&mut self) -> u32 {
        match self.random.below(4) {
            0 => self.random.up_to(self.clock),
            1 => self.clock,
            _ => self.clock.saturating_sub(self.random.up_to(self.params.delay() + 1)),
        }
    }

    fn node(&mut self) -> Node {
        let owner = self.random.below(self.params.processes);
        let guest = *self.random.of(&[0, 1, 70, u32::MAX]);
        match self.random.below(8) {
            0 => Node::Free,
            1 => Node::Allocated { owner, guest },
            2 => Node::Reachable { guest },
            3 => Node::Removed { owner, guest },
            _ => Node::Retired { owner, guest, retired_at: self.time(), limbo: self.random.below(3) },
        }
    }
}
