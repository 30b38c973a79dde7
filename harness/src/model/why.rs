//! Why a node is still waiting, by the paper: a scan is tried to see whether it is ready, and ages to see how long it is too young.

use super::domain::{Node, Path};
use super::mistake::{Mistake, Rules};
use super::{words, Model};
use crate::layout::NODES;
use crate::why::{Behind, Reason, Why};
use std::cmp::Reverse;

impl Model {
    /// Why a node is still waiting.
    pub fn why(&self, node: u32) -> Why {
        match node < self.domain.params.nodes {
            true => Why::Told(self.reason(node), self.behind()),
            false => Why::Refused(7),
        }
    }

    fn reason(&self, id: u32) -> Reason {
        let Node::Retired { owner, retired_at, .. } = *self.domain.node(id) else {
            return Reason::NotRetired(self.domain.node(id).state());
        };
        let mut scanned = Model { rules: self.scanning(), domain: self.domain.clone() };
        scanned.scan(owner);
        if !scanned.domain.node(id).is_retired() {
            return Reason::Ready;
        }
        match scanned.ticks_left(retired_at) {
            0 => self.lowest(&scanned.showing(owner, id)),
            ticks => Reason::Young(ticks - self.rules.have(Mistake::WhyYoungOneShort) as u32),
        }
    }

    /// The rules of the scan that is tried. Mistakes in a scan of the domain itself are left out, so that they must show there.
    fn scanning(&self) -> Rules {
        match self.rules {
            rules if rules.have(Mistake::WhyReadyWithoutHazards) => Rules::with(Mistake::NoVisibleTest),
            rules if rules.have(Mistake::WhyForgetsOwnStores) => Rules::with(Mistake::OwnStoresUnknown),
            _ => Rules::default(),
        }
    }

    /// The least number of ticks by which the node must be older: the clock need not come to it.
    fn ticks_left(&self, retired_at: u32) -> u32 {
        let (age, old) = (self.domain.clock.saturating_sub(retired_at), u64::from(self.least_age()));
        (0..).find(|&ticks| u64::from(age) + u64::from(ticks) >= old).expect("an age that is old")
    }

    /// The hazards, process by process, in which the owner sees the node.
    fn showing(&self, owner: u32, id: u32) -> Vec<(u32, u32)> {
        let mut showing = Vec::new();
        for (process, of) in (0..).zip(&self.domain.processes) {
            let sees = |&hazard: &u32| self.seen_in(of, hazard as usize, process == owner) == Some(id);
            showing.extend((0..self.domain.params.hazards).filter(sees).map(|hazard| (process, hazard)));
        }
        showing
    }

    fn lowest(&self, showing: &[(u32, u32)]) -> Reason {
        let lowest = match self.rules {
            rules if rules.have(Mistake::WhyHighestProcess) => showing.iter().min_by_key(|(p, h)| (Reverse(p), h)),
            rules if rules.have(Mistake::WhyHighestHazard) => showing.iter().min_by_key(|(p, h)| (p, Reverse(h))),
            _ => showing.first(),
        };
        let &(process, hazard) = lowest.expect("an old node that is kept is in a hazard");
        Reason::Visible { process, hazard }
    }

    fn behind(&self) -> Behind {
        if self.domain.path == Path::Fallback && !self.rules.have(Mistake::WhyAsksOnFallback) {
            return Behind::NotAsked;
        }
        let differs = |id: &u32| {
            let process = self.domain.process(*id);
            let asked = process.present || self.rules.have(Mistake::WhyNamesAbsent);
            asked && process.epoch != self.domain.epoch
        };
        let mut behind = (0..self.domain.params.processes).filter(differs);
        let named = if self.rules.have(Mistake::WhyHighestBehind) { behind.next_back() } else { behind.next() };
        named.map_or(Behind::Nobody, Behind::Process)
    }
}

/// Why each of these nodes waits, by words.
pub fn why_words<const COUNT: usize>(words: &[u32], nodes: [u32; COUNT], rules: Rules) -> [Why; COUNT] {
    let model = words::decode(words, rules).map(|domain| Model { rules, domain });
    nodes.map(|node| match &model {
        _ if rules.have(Mistake::WhyAsksNodeFirst) && words.get(NODES).is_some_and(|&m| node >= m) => Why::Refused(7),
        Some(model) => model.why(node),
        None => Why::Refused(3),
    })
}
