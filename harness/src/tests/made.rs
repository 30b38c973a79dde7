//! Domains made by hand, on the fast path at epoch 0 with nobody behind.

use crate::model::domain::{Domain, Node, Store};
use crate::params::Params;

/// These nodes first, and Free ones after them.
pub fn domain(params: &[u32], clock: u32, nodes: &[Node]) -> Domain {
    let mut domain = Domain { clock, ..Domain::fresh(Params::of(params)) };
    domain.nodes[..nodes.len()].clone_from_slice(nodes);
    domain
}

pub fn retired(owner: u32, retired_at: u32) -> Node {
    Node::Retired { owner, guest: 70, retired_at, limbo: 0 }
}

pub fn show(domain: &mut Domain, process: usize, hazard: usize, node: u32) {
    domain.processes[process].hazards[hazard].visible = Some(node);
}

pub fn store(domain: &mut Domain, process: usize, hazard: u32, node: Option<u32>) {
    let time = domain.clock;
    domain.processes[process].buffer.push_back(Store { hazard, node, time });
}
