//! The panel's number, of a domain and of words.

use super::domain::Node;
use super::mistake::{Mistake, Rules};
use super::{words, Model};
use crate::layout::{node_start, CLOCK, NODE};
use crate::step::{Answer, State};

impl Model {
    /// How many nodes are Reachable.
    pub fn panel(&self) -> u32 {
        let (domain, last) = (&self.domain, self.domain.nodes.last().map(Node::state));
        match self.rules {
            rules if rules.have(Mistake::PanelCountsRemoved) => domain.reachable() + domain.count(State::Removed),
            rules if rules.have(Mistake::PanelLeavesOutLast) => {
                domain.reachable() - (last == Some(State::Reachable)) as u32
            }
            _ => domain.reachable(),
        }
    }
}

/// The panel's answer on words.
pub fn reachable_words(words: &[u32], rules: Rules) -> Answer {
    let mended = rules.have(Mistake::PanelWellAgain).then(|| mended(words, rules));
    match words::decode(mended.as_deref().unwrap_or(words), rules) {
        Some(domain) => Answer::accepted(Model { rules, domain }.panel()),
        None => Answer::refused(3),
    }
}

/// The words with every malformed node but the last made Free: what a pass takes them for in which a well-formed node makes all well
/// again. A malformed node is so never counted, whatever its state.
fn mended(words: &[u32], rules: Rules) -> Vec<u32> {
    let mut mended = words.to_vec();
    if let Some(params) = words::params(words, rules) {
        let nodes = mended[node_start(params, 0)..].chunks_exact_mut(NODE);
        for node in nodes.take(params.nodes as usize - 1) {
            if words::node(node, params, words[CLOCK], rules).is_none() {
                node.fill(0);
            }
        }
    }
    mended
}
