//! A portion of a scan, by the paper: a whole scan is tried, and what it frees is freed among the nodes that the portion examines.

use super::domain::Node;
use super::mistake::{Mistake, Rules};
use super::{words, Model};
use crate::portion::{Portion, PortionAnswer};

impl Model {
    /// A step of this kind, with all that it answers.
    pub fn portion(&mut self, asked: Portion) -> PortionAnswer {
        match self.refusal(asked.step()) {
            0 => self.examine(asked),
            refusal => self.turned_away(asked, refusal),
        }
    }

    fn turned_away(&self, asked: Portion, refusal: u32) -> PortionAnswer {
        let next = if self.rules.have(Mistake::PortionNextWhereRefused) { asked.start } else { 0 };
        PortionAnswer { next, ..PortionAnswer::refused(refusal) }
    }

    /// An accepted portion.
    pub(super) fn examine(&mut self, asked: Portion) -> PortionAnswer {
        let met = self.met_from(asked);
        let next = self.end_of(asked, &met);
        let (examined, left): (Vec<u32>, Vec<u32>) = met.iter().partition(|&&id| id < next);
        let freed = self.free_among(asked.process, &examined);
        let mut answer =
            PortionAnswer { refusal: 0, freed, examined: examined.len() as u32, next, left: left.len() as u32 };
        match self.rules {
            rules if rules.have(Mistake::PortionExaminedAreFreed) => answer.examined = freed,
            rules if rules.have(Mistake::PortionLeftFromStart) => answer.left = met.len() as u32,
            rules if rules.have(Mistake::PortionNextIsLast) && examined.len() as u32 == asked.limit => answer.next -= 1,
            _ => {}
        }
        answer
    }

    /// The Retired nodes of the process from the start upward.
    fn met_from(&self, Portion { process, start, .. }: Portion) -> Vec<u32> {
        let of_all = self.rules.have(Mistake::PortionOfAll);
        let counts = |node: &Node| node.is_retired() && (of_all || node.owner() == Some(process));
        (start..self.domain.params.nodes).filter(|&id| counts(self.domain.node(id))).collect()
    }

    /// The node after the L-th of those that are met, or M where they are fewer.
    fn end_of(&self, Portion { start, limit, .. }: Portion, met: &[u32]) -> u32 {
        let nodes = self.domain.params.nodes;
        if self.rules.have(Mistake::PortionLimitsNodes) {
            return nodes.min(start + limit);
        }
        let fewer = met.len() < limit as usize + self.rules.have(Mistake::PortionNextPastLastRetired) as usize;
        match met.iter().take(limit as usize).next_back() {
            Some(last) if !fewer => last + 1,
            None if !fewer => start,
            _ => nodes,
        }
    }

    /// Frees what a scan by the process frees among these nodes, and counts it.
    fn free_among(&mut self, process: u32, examined: &[u32]) -> u32 {
        let mut scanned = Model { rules: self.tried(), domain: self.domain.clone() };
        scanned.scan(process);
        let everywhere = self.rules.have(Mistake::PortionFreesPastNext);
        let mut freed = 0;
        for id in 0..self.domain.params.nodes {
            let node = &mut self.domain.nodes[id as usize];
            if (everywhere || examined.contains(&id)) && node.is_retired() && !scanned.domain.node(id).is_retired() {
                *node = Node::Free;
                freed += 1;
            }
        }
        freed
    }

    /// The rules of the scan that is tried. Mistakes in a scan of the domain itself are left out, so that they must show there.
    fn tried(&self) -> Rules {
        let mistakes = [
            (Mistake::PortionWithoutAge, Mistake::NoAgeTest),
            (Mistake::PortionWithoutHazards, Mistake::NoVisibleTest),
            (Mistake::PortionForgetsOwnStores, Mistake::OwnStoresUnknown),
            (Mistake::PortionOfAll, Mistake::ScansNodesOfAll),
        ];
        let made = mistakes.into_iter().find(|&(mistake, _)| self.rules.have(mistake));
        made.map_or(Rules::default(), |(_, of_scan)| Rules::with(of_scan))
    }
}

/// A portion on words, as the library's call does it.
pub fn portion_words(words: &mut Vec<u32>, asked: Portion, rules: Rules) -> PortionAnswer {
    let Some(domain) = words::decode(words, rules) else {
        return PortionAnswer::refused(3);
    };
    let mut model = Model { rules, domain };
    let answer = model.portion(asked);
    words::encode(&model.domain, words);
    answer
}
