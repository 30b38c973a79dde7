//! A domain's words: written from its records, and read back where they are well formed.

use super::domain::{Domain, Hazard, Node, Path, Process, Store};
use super::mistake::{Mistake, Rules};
use crate::layout::{word_count, BUFFER, CLOCK, LEAD, LEAD_CALLS, LEAD_PRESENT, LEAD_STORES, NODE, STORE};
use crate::params::Params;
use std::array::from_fn;

/// Replaces what `words` holds by the domain's words.
pub fn encode(domain: &Domain, words: &mut Vec<u32>) {
    words.clear();
    words.extend(domain.params.numbers());
    words.extend([domain.clock, (domain.path == Path::Fallback) as u32, domain.epoch]);
    for process in &domain.processes {
        words.extend(process.lead());
        for hazard in &process.hazards {
            words.extend([stored(hazard.visible), stored(hazard.assigned), hazard.validated as u32]);
        }
        for store in &process.buffer {
            words.extend([store.hazard, stored(store.node), store.time]);
        }
        words.extend(std::iter::repeat_n(0, STORE * (BUFFER - process.buffer.len())));
    }
    for node in &domain.nodes {
        let (retired_at, limbo) = match *node {
            Node::Retired { retired_at, limbo, .. } => (retired_at, limbo),
            _ => (0, 0),
        };
        let words_of_node: [u32; NODE] =
            [node.state() as u32, node.owner().unwrap_or(0), node.guest(), retired_at, limbo];
        words.extend(words_of_node);
    }
}

/// The domain's words.
pub fn words_of(domain: &Domain) -> Vec<u32> {
    let mut words = Vec::new();
    encode(domain, &mut words);
    words
}

fn stored(node: Option<u32>) -> u32 {
    node.map_or(0, |id| id + 1)
}

/// The parameters that the words start with, if they are in range and the words are as many as a domain with them has.
pub fn params(words: &[u32], rules: Rules) -> Option<Params> {
    let params = Params::from_numbers(words.get(..Params::COUNT)?.try_into().ok()?);
    if !params.in_range() {
        return None;
    }
    let longer = words.len() > word_count(params) && !rules.have(Mistake::TakesLongerSlices);
    (!longer && words.len() >= word_count(params)).then_some(params)
}

/// The node that its own words are, if they are well formed in a domain with these parameters and this clock.
pub fn node(words: &[u32], params: Params, clock: u32, rules: Rules) -> Option<Node> {
    Reader { words: words.iter(), params, clock, rules }.node()
}

/// The domain that the words are, if they are well formed.
pub fn decode(words: &[u32], rules: Rules) -> Option<Domain> {
    let params = params(words, rules)?;
    let mut reader = Reader { words: words[Params::COUNT..].iter(), params, clock: words[CLOCK], rules };
    let clock = reader.any()?;
    let path = if reader.flag()? { Path::Fallback } else { Path::Fast };
    let epoch = reader.at_most(2)?;
    let processes = (0..params.processes).map(|_| reader.process()).collect::<Option<_>>()?;
    let nodes = (0..params.nodes).map(|_| reader.node()).collect::<Option<_>>()?;
    Some(Domain { params, clock, path, epoch, processes, nodes })
}

/// Reads words one after another; None where one is not as it must be.
struct Reader<'a> {
    words: std::slice::Iter<'a, u32>,
    params: Params,
    clock: u32,
    rules: Rules,
}

impl Reader<'_> {
    fn any(&mut self) -> Option<u32> {
        self.words.next().copied()
    }

    fn at_most(&mut self, limit: u32) -> Option<u32> {
        self.any().filter(|&word| word <= limit)
    }

    fn flag(&mut self) -> Option<bool> {
        Some(self.at_most(1)? == 1)
    }

    /// A word that is 0, unless a mistake lets it be anything.
    fn nought(&mut self, unless: Mistake) -> Option<()> {
        let word = self.any()?;
        (word == 0 || self.rules.have(unless)).then_some(())
    }

    fn stored(&mut self) -> Option<Option<u32>> {
        let last = self.params.nodes - self.rules.have(Mistake::RefusesLastNode) as u32;
        Some(self.at_most(last)?.checked_sub(1))
    }

    fn process(&mut self) -> Option<Process> {
        let mut limits = Process::lead_limits(self.params);
        limits[LEAD_CALLS] += self.rules.have(Mistake::TakesCallsOfQ) as u32;
        limits[LEAD_PRESENT] += self.rules.have(Mistake::TakesPresentOfTwo) as u32;
        let lead = limits.map(|limit| self.at_most(limit));
        if lead.contains(&None) {
            return None;
        }
        let lead: [u32; LEAD] = from_fn(|place| lead[place].unwrap_or(0));
        let (mut process, pending) = (Process::of_lead(self.params, lead), lead[LEAD_STORES]);
        for hazard in &mut process.hazards {
            *hazard = self.hazard()?;
        }
        for _ in 0..pending {
            process.buffer.push_back(self.store()?);
        }
        for _ in 0..STORE * (BUFFER - pending as usize) {
            self.nought(Mistake::TakesStoresPastLength)?;
        }
        Some(process)
    }

    fn hazard(&mut self) -> Option<Hazard> {
        let hazard = Hazard { visible: self.stored()?, assigned: self.stored()?, validated: self.flag()? };
        let sound = !hazard.validated || hazard.assigned.is_some();
        (sound || self.rules.have(Mistake::TakesValidatedUnassigned)).then_some(hazard)
    }

    fn store(&mut self) -> Option<Store> {
        let last = self.params.hazards - 1;
        let hazard = self.at_most(last + self.rules.have(Mistake::TakesStoreToHazardK) as u32)?.min(last);
        let node = self.stored()?;
        let time = self.any()?;
        let early = time <= self.clock || self.rules.have(Mistake::TakesTimePastClock);
        let taken = early && !(self.rules.have(Mistake::RefusesTimeOfNow) && time == self.clock);
        taken.then_some(Store { hazard, node, time })
    }

    fn node(&mut self) -> Option<Node> {
        match self.any()? {
            0 => {
                self.nought(Mistake::TakesOwnerOfFree)?;
                self.nought(Mistake::TakesGuestOfFree)?;
                self.not_retired()?;
                Some(Node::Free)
            }
            1 => {
                let (owner, guest) = (self.owner()?, self.any()?);
                self.not_retired()?;
                Some(Node::Allocated { owner, guest })
            }
            2 => {
                self.nought(Mistake::TakesOwnerOfReachable)?;
                let guest = self.any()?;
                self.not_retired()?;
                Some(Node::Reachable { guest })
            }
            3 => {
                let (owner, guest) = (self.owner()?, self.any()?);
                self.not_retired()?;
                Some(Node::Removed { owner, guest })
            }
            4 => {
                let (owner, guest) = (self.owner()?, self.any()?);
                let late = self.rules.have(Mistake::TakesRetiredAtPastClock);
                let retired_at = self.at_most(if late { u32::MAX } else { self.clock })?;
                let limbo = self.at_most(2 + self.rules.have(Mistake::TakesFourthLimbo) as u32)?;
                Some(Node::Retired { owner, guest, retired_at, limbo })
            }
            _ => None,
        }
    }

    fn owner(&mut self) -> Option<u32> {
        self.at_most(self.params.processes - 1)
    }

    fn not_retired(&mut self) -> Option<()> {
        self.nought(Mistake::TakesRetiredAtOutsideRetired)?;
        self.nought(Mistake::TakesLimboOutsideRetired)
    }
}
