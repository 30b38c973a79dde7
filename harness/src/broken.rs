//! Every way to make good words malformed by one word: pushed out of its range, or against a condition between words.

use crate::layout::{BUFFER, LEAD_CALLS, STORE};
use crate::model::domain::{Domain, Node, Process};
use crate::params::Params;

pub struct Broken {
    pub index: usize,
    pub value: u32,
    /// what the word now breaks
    pub condition: &'static str,
}

/// All conditions that a single word can break.
pub const CONDITIONS: [&str; 12] = [
    "in range",
    "length by the parameters",
    "validated only where a node is assigned",
    "stores past the length are 0",
    "time of a store at most the clock",
    "retired_at at most the clock",
    "retired_at 0 outside Retired",
    "limbo 0 outside Retired",
    "owner of a Free node 0",
    "owner of a Reachable node 0",
    "guest of a Free node 0",
    "calls below Q",
];

/// The single words that break a domain's words, by the range that the rest of the domain leaves to each.
pub fn every_word(domain: &Domain) -> Vec<Broken> {
    let mut walk = Walk { index: 0, broken: Vec::new() };
    walk.head(domain);
    for process in &domain.processes {
        // another number of stores within the range is left to random words: it may be well formed
        for (place, limit) in Process::lead_limits(domain.params).into_iter().enumerate() {
            walk.at_most(limit, if place == LEAD_CALLS { "calls below Q" } else { "in range" });
        }
        for hazard in &process.hazards {
            walk.at_most(domain.params.nodes, "in range");
            if hazard.validated {
                walk.push(0, "validated only where a node is assigned");
            }
            walk.at_most(domain.params.nodes, "in range");
            match hazard.assigned {
                Some(_) => walk.at_most(1, "in range"),
                None => walk.at_most(0, "validated only where a node is assigned"),
            }
        }
        for _ in &process.buffer {
            walk.at_most(domain.params.hazards - 1, "in range");
            walk.at_most(domain.params.nodes, "in range");
            walk.at_most(domain.clock, "time of a store at most the clock");
        }
        for _ in 0..STORE * (BUFFER - process.buffer.len()) {
            walk.at_most(0, "stores past the length are 0");
        }
    }
    for node in &domain.nodes {
        walk.node(node, domain);
    }
    walk.broken
}

struct Walk {
    index: usize,
    broken: Vec<Broken>,
}

impl Walk {
    fn push(&mut self, value: u32, condition: &'static str) {
        self.broken.push(Broken { index: self.index, value, condition });
    }

    /// The next word, which may be `least` to `most`.
    fn between(&mut self, least: u32, most: u32, condition: &'static str) {
        if least > 0 {
            self.push(least - 1, condition);
        }
        if most < u32::MAX {
            self.push(most + 1, condition);
            self.push(u32::MAX, condition);
        }
        self.index += 1;
    }

    fn at_most(&mut self, most: u32, condition: &'static str) {
        self.between(0, most, condition);
    }

    fn head(&mut self, domain: &Domain) {
        let Params { processes, hazards, nodes, .. } = domain.params;
        let sizes = [processes, hazards, nodes];
        let limits = Params::LEAST.numbers().into_iter().zip(Params::MOST.numbers());
        for (place, (least, most)) in limits.enumerate() {
            if let Some(size) = sizes.get(place) {
                for other in [size - 1, size + 1] {
                    self.push(other, "length by the parameters");
                }
            }
            self.between(least, most, "in range");
        }
        self.index += 1; // the clock, which may be anything
        self.at_most(1, "in range");
        self.at_most(2, "in range");
    }

    fn node(&mut self, node: &Node, domain: &Domain) {
        self.at_most(4, "in range");
        match node {
            Node::Free => self.at_most(0, "owner of a Free node 0"),
            Node::Reachable { .. } => self.at_most(0, "owner of a Reachable node 0"),
            _ => self.at_most(domain.params.processes - 1, "in range"),
        }
        match node {
            Node::Free => self.at_most(0, "guest of a Free node 0"),
            _ => self.index += 1, // any guest
        }
        if node.is_retired() {
            self.at_most(domain.clock, "retired_at at most the clock");
            self.at_most(2, "in range");
        } else {
            self.at_most(0, "retired_at 0 outside Retired");
            self.at_most(0, "limbo 0 outside Retired");
        }
    }
}
