//! A retire that scans all nodes with every hazard set, when few, many or all of the nodes are due, and no store of the scanning process
//! is pending or its buffer is full.

use crate::goals;
use crate::single::{rows, spread, Act, Load};
use crate::table::Table;
use harness::layout::BUFFER;
use harness::model::domain::{Domain, Node, Path, Store};
use harness::model::words::words_of;
use harness::params::Params;
use harness::random::Random;
use harness::step::{Kind, Step};

/// How many nodes are due, and how many stores of the scanning process are pending.
#[derive(Clone, Copy)]
struct Due {
    nodes: usize,
    pending: usize,
}

impl Due {
    /// Few, a quarter and all of the nodes due, each with no store pending and with as many as there is room for.
    fn all(params: Params) -> Vec<Due> {
        // the node in hand is 0 ticks old, so at most all the others are due
        let most = params.nodes as usize - 1;
        let mut dues = vec![most.min(3), most * 67 / 255, most];
        dues.sort();
        dues.dedup();
        let with = |pending| dues.iter().map(move |&nodes| Due { nodes, pending });
        with(0).chain(with(BUFFER)).collect()
    }

    fn name(self) -> String {
        let buffer = if self.pending == 0 { "" } else { ", full buffer" };
        format!("{} nodes due{buffer}", self.nodes)
    }
}

pub fn all(params: Params, table: &mut Table) {
    let load = |due: Due| Load {
        act: Act::Step(Step::new(Kind::Retire, 0, 0, 0, 0)),
        what: "retire with scan",
        name: format!(", {}", due.name()),
        words: Box::new(move |seed| scanning(params, due, &mut Random::new(seed, due.nodes as u64))),
        goal: None,
    };
    let loads: Vec<Load> = Due::all(params).into_iter().map(load).collect();
    let library = rows(table, params, &loads);
    spread(table, params, "retires", &library, goals::spread(params));
}

/// A domain on the fallback path whose every hazard has a node visible. Process 0 has removed node 0 and retired the others, those that
/// are due long ago; its pending stores are to any of its hazards.
fn scanning(params: Params, due: Due, random: &mut Random) -> Vec<u32> {
    let mut domain = Domain::fresh(params);
    (domain.clock, domain.path) = (100, Path::Fallback);
    for hazard in domain.processes.iter_mut().flat_map(|process| &mut process.hazards) {
        hazard.visible = Some(random.below(params.nodes));
        hazard.assigned = hazard.visible;
    }
    for _ in 0..due.pending {
        let (hazard, node) = (random.below(params.hazards), Some(random.below(params.nodes)));
        domain.processes[0].buffer.push_back(Store { hazard, node, time: domain.clock });
    }
    domain.nodes.fill(Node::Retired { owner: 0, guest: 70, retired_at: 100, limbo: 0 });
    domain.nodes[0] = Node::Removed { owner: 0, guest: 70 };
    let mut left = due.nodes;
    while left > 0 {
        let place = 1 + random.below(params.nodes - 1) as usize;
        if domain.nodes[place] == (Node::Retired { owner: 0, guest: 70, retired_at: 100, limbo: 0 }) {
            domain.nodes[place] = Node::Retired { owner: 0, guest: 70, retired_at: 10, limbo: 0 };
            left -= 1;
        }
    }
    words_of(&domain)
}
