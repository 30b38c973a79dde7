//! What the library's times are to be beside others': a row's greatest ratio, by what is timed and at which shape.

use crate::table::Row;
use harness::params::Params;

#[derive(Clone, Copy)]
pub enum Beside {
    /// plain C, which checks the words before each step
    C,
    /// plain C that checks the words once, at the start of a run
    COnce,
    /// a program that does nothing
    Nothing,
    /// the library's own fastest of the same
    Fastest,
    /// the call that the library had before, in the same race
    OldCall,
    /// the library's check of the words, in the same race
    Check,
    /// the library's retire with a scan of all other nodes, in the same race; both less their check
    WholeScan,
}

impl Beside {
    pub fn name(self) -> &'static str {
        match self {
            Beside::C => "C",
            Beside::COnce => "C once",
            Beside::Nothing => "a program that does nothing",
            Beside::Fastest => "the fastest",
            Beside::OldCall => "the old call",
            Beside::Check => "the check alone",
            Beside::WholeScan => "a retire with scan",
        }
    }
}

#[derive(Clone, Copy)]
pub struct Goal {
    pub beside: Beside,
    pub at_most: f64,
}

impl Goal {
    pub fn ratio(self, row: &Row) -> f64 {
        let other = match self.beside {
            Beside::C => Some(row.plain),
            Beside::COnce => row.trusting,
            Beside::Nothing => row.nothing,
            Beside::Fastest | Beside::OldCall | Beside::Check | Beside::WholeScan => None,
        };
        row.library / other.expect("the row has what its goal is beside")
    }

    /// Held to the ratio as it is printed, with two digits.
    pub fn met(self, ratio: f64) -> bool {
        (ratio * 100.0).round() <= (self.at_most * 100.0).round()
    }
}

fn least(params: Params) -> bool {
    params.nodes == 1
}

fn greatest(params: Params) -> bool {
    params.nodes == Params::MOST.nodes
}

fn beside(beside: Beside, at_most: f64) -> Option<Goal> {
    Some(Goal { beside, at_most })
}

pub fn check(params: Params, domains: usize) -> Option<Goal> {
    let at_most = match (greatest(params), domains) {
        (true, 1) => 0.46,
        (true, _) => 0.21,
        _ if least(params) => 1.25,
        _ => 1.0,
    };
    beside(Beside::C, at_most)
}

/// A step, a portion, or the reachable count.
pub fn call(params: Params) -> Option<Goal> {
    beside(Beside::C, if least(params) { 1.25 } else { 1.0 })
}

/// The reachable count in one pass, beside that in two.
pub fn count_beside_old(params: Params) -> Option<Goal> {
    beside(Beside::OldCall, if greatest(params) { 0.95 } else { 1.0 })
}

/// The reachable count beside an unknown step.
pub fn count_beside_check(params: Params) -> Option<Goal> {
    if greatest(params) {
        beside(Beside::Check, 1.08)
    } else {
        None
    }
}

/// Why a node waits, beside an unknown step.
pub fn why_beside_check(params: Params) -> Option<Goal> {
    if greatest(params) {
        beside(Beside::Check, 1.15)
    } else {
        None
    }
}

/// A portion of few nodes on a full domain beside a scan of all.
pub fn portion_beside_scan(params: Params) -> Option<Goal> {
    if greatest(params) {
        beside(Beside::WholeScan, 0.6)
    } else {
        None
    }
}

pub fn mixed_run(params: Params) -> Option<Goal> {
    beside(Beside::COnce, if greatest(params) { 1.0 } else { 1.2 })
}

/// A run of a cycle of steps again and again.
pub fn cycle(name: &str) -> Option<Goal> {
    match name {
        "manage" => beside(Beside::COnce, 1.5),
        "allocate to retire, manage to free" => None,
        _ => beside(Beside::COnce, 1.2),
    }
}

/// The slowest retire or leave of a shape beside the fastest, over how many nodes are due or handed over.
pub fn spread(params: Params) -> Option<Goal> {
    if greatest(params) {
        beside(Beside::Fastest, 1.2)
    } else {
        None
    }
}

/// A book as a process.
pub fn book(params: Params) -> Option<Goal> {
    if params.nodes <= 2 {
        beside(Beside::Nothing, 1.5)
    } else {
        beside(Beside::C, 0.3)
    }
}
