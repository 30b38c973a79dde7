//! Where things stand in a domain's words: the words of each row, and where the rows start.

use crate::params::Params;

/// The parameters, the clock, the path, the global epoch.
pub const HEAD: usize = Params::COUNT + 3;
/// M
pub const NODES: usize = 2;
pub const CLOCK: usize = Params::COUNT;
pub const PATH: usize = Params::COUNT + 1;
/// A process before its hazards: local epoch, calls, presence, how many stores are pending, present.
pub const LEAD: usize = 5;
pub const LEAD_CALLS: usize = 1;
pub const LEAD_PRESENCE: usize = 2;
pub const LEAD_STORES: usize = 3;
pub const LEAD_PRESENT: usize = 4;
/// Visible node, assigned node, validated.
pub const HAZARD: usize = 3;
/// Hazard, node, time.
pub const STORE: usize = 3;
/// Greatest number of pending stores of a process.
pub const BUFFER: usize = 8;
/// State, owner, guest, when it was retired, limbo list.
pub const NODE: usize = 5;

/// A step in a list of steps: kind, process, hazard, node, guest. An answer in a list of answers: refusal, value.
pub const STEP: usize = 5;
pub const ANSWER: usize = 2;

pub fn process_width(params: Params) -> usize {
    LEAD + HAZARD * params.hazards as usize + STORE * BUFFER
}

pub fn process_start(params: Params, process: usize) -> usize {
    HEAD + process * process_width(params)
}

pub fn hazard_start(params: Params, process: usize, hazard: usize) -> usize {
    process_start(params, process) + LEAD + HAZARD * hazard
}

pub fn node_start(params: Params, node: usize) -> usize {
    process_start(params, params.processes as usize) + NODE * node
}

/// How many words a domain takes; for parameters in range.
pub fn word_count(params: Params) -> usize {
    node_start(params, params.nodes as usize)
}
