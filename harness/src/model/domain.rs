//! A domain as records: document 01's desk, without its words.

use crate::layout::{BUFFER, LEAD};
use crate::params::Params;
use crate::step::State;
use std::collections::VecDeque;

#[derive(Clone, Debug, PartialEq)]
pub struct Domain {
    pub params: Params,
    pub clock: u32,
    pub path: Path,
    pub epoch: u32,
    pub processes: Vec<Process>,
    pub nodes: Vec<Node>,
}

#[derive(Clone, Copy, Debug, PartialEq, Eq)]
pub enum Path {
    Fast,
    Fallback,
}

#[derive(Clone, Debug, PartialEq)]
pub struct Process {
    pub epoch: u32,
    pub calls: u32,
    /// checked in since presence was last cleared
    pub presence: bool,
    /// takes part at all
    pub present: bool,
    pub hazards: Vec<Hazard>,
    pub buffer: VecDeque<Store>,
}

#[derive(Clone, Debug, PartialEq, Default)]
pub struct Hazard {
    pub visible: Option<u32>,
    pub assigned: Option<u32>,
    pub validated: bool,
}

/// A pending store to a hazard.
#[derive(Clone, Debug, PartialEq)]
pub struct Store {
    pub hazard: u32,
    pub node: Option<u32>,
    pub time: u32,
}

/// `OwnedReachable` is Reachable with an owner: no well-formed domain has it, and only a mistake makes it.
#[derive(Clone, Debug, PartialEq)]
pub enum Node {
    Free,
    Allocated { owner: u32, guest: u32 },
    Reachable { guest: u32 },
    OwnedReachable { owner: u32, guest: u32 },
    Removed { owner: u32, guest: u32 },
    Retired { owner: u32, guest: u32, retired_at: u32, limbo: u32 },
}

impl Node {
    pub fn owner(&self) -> Option<u32> {
        match *self {
            Node::Free | Node::Reachable { .. } => None,
            Node::Allocated { owner, .. }
            | Node::OwnedReachable { owner, .. }
            | Node::Removed { owner, .. }
            | Node::Retired { owner, .. } => Some(owner),
        }
    }

    pub fn guest(&self) -> u32 {
        match *self {
            Node::Free => 0,
            Node::Allocated { guest, .. }
            | Node::Reachable { guest }
            | Node::OwnedReachable { guest, .. }
            | Node::Removed { guest, .. }
            | Node::Retired { guest, .. } => guest,
        }
    }

    pub fn state(&self) -> State {
        match self {
            Node::Free => State::Free,
            Node::Allocated { .. } => State::Allocated,
            Node::Reachable { .. } | Node::OwnedReachable { .. } => State::Reachable,
            Node::Removed { .. } => State::Removed,
            Node::Retired { .. } => State::Retired,
        }
    }

    pub fn is_retired(&self) -> bool {
        self.state() == State::Retired
    }
}

impl Process {
    /// The words before the hazards, of a fresh domain.
    const FRESH: [u32; LEAD] = [0, 0, 0, 0, 1];

    /// Its words before its hazards.
    pub fn lead(&self) -> [u32; LEAD] {
        [self.epoch, self.calls, self.presence as u32, self.buffer.len() as u32, self.present as u32]
    }

    /// The greatest value of each.
    pub fn lead_limits(params: Params) -> [u32; LEAD] {
        [2, params.quiescence_threshold - 1, 1, BUFFER as u32, 1]
    }

    /// A process with these words, K empty hazards, and so many stores to come.
    pub fn of_lead(params: Params, [epoch, calls, presence, stores, present]: [u32; LEAD]) -> Process {
        Process {
            epoch,
            calls,
            presence: presence == 1,
            present: present == 1,
            hazards: vec![Hazard::default(); params.hazards as usize],
            buffer: VecDeque::with_capacity(stores as usize),
        }
    }

    pub fn has_assigned(&self) -> bool {
        self.hazards.iter().any(|hazard| hazard.assigned.is_some())
    }
}

impl Domain {
    pub fn fresh(params: Params) -> Domain {
        Domain {
            params,
            clock: 0,
            path: Path::Fast,
            epoch: 0,
            processes: vec![Process::of_lead(params, Process::FRESH); params.processes as usize],
            nodes: vec![Node::Free; params.nodes as usize],
        }
    }

    pub fn node(&self, id: u32) -> &Node {
        &self.nodes[id as usize]
    }

    pub fn process(&self, id: u32) -> &Process {
        &self.processes[id as usize]
    }

    pub fn hazard(&self, process: u32, hazard: u32) -> &Hazard {
        &self.process(process).hazards[hazard as usize]
    }

    pub fn all_hazards(&self) -> impl Iterator<Item = &Hazard> {
        self.processes.iter().flat_map(|process| &process.hazards)
    }

    /// What a process may not leave with, and whether it has it: an assigned hazard, a pending store, an Allocated and a Removed node.
    pub fn ties(&self, id: u32) -> [bool; 4] {
        let process = self.process(id);
        let owns = |state| self.nodes.iter().any(|node| node.state() == state && node.owner() == Some(id));
        [process.has_assigned(), !process.buffer.is_empty(), owns(State::Allocated), owns(State::Removed)]
    }

    /// How many Retired nodes a process has.
    pub fn retired_by(&self, id: u32) -> u32 {
        self.nodes.iter().filter(|node| node.is_retired() && node.owner() == Some(id)).count() as u32
    }

    /// How many nodes are in a state.
    pub fn count(&self, state: State) -> u32 {
        self.nodes.iter().filter(|node| node.state() == state).count() as u32
    }

    /// The panel's number.
    pub fn reachable(&self) -> u32 {
        self.count(State::Reachable)
    }
}
