//! A leave that hands over none, many or all of the nodes, and a join.

use crate::goals;
use crate::single::{rows, spread, Act, Load};
use crate::table::Table;
use harness::model::domain::{Domain, Node};
use harness::model::words::words_of;
use harness::params::Params;
use harness::random::Random;
use harness::step::{Kind, Step};

const LEAVER: u32 = 0;
const HEIR: u32 = 1;
const CLOCK: u32 = 100;

pub fn all(params: Params, table: &mut Table) {
    // where there is no second process, a leave is refused
    if params.processes > HEIR {
        let loads: Vec<Load> = counts(params).into_iter().map(|count| handing_over(params, count)).collect();
        let library = rows(table, params, &loads);
        spread(table, params, "leaves", &library, goals::spread(params));
    }
    let join = Load {
        act: Act::Step(Step::new(Kind::Join, LEAVER, 0, 0, 0)),
        what: "join",
        name: String::new(),
        words: Box::new(move |_| absent(params)),
        goal: goals::call(params),
    };
    rows(table, params, &[join]);
}

/// None, a quarter and all of the nodes.
fn counts(params: Params) -> Vec<u32> {
    let mut counts = vec![0, params.nodes * 67 / Params::MOST.nodes, params.nodes];
    counts.dedup();
    counts
}

fn handing_over(params: Params, count: u32) -> Load {
    let words = move |seed| leaving(params, count, &mut Random::new(seed, count.into()));
    Load {
        act: Act::Step(Step::new(Kind::Leave, LEAVER, 0, HEIR, 0)),
        what: "leave",
        name: format!(", {count} nodes handed over"),
        words: Box::new(words),
        goal: None,
    }
}

/// A domain in which all nodes are Retired, so many of the leaver and the rest of the heir.
fn leaving(params: Params, count: u32, random: &mut Random) -> Vec<u32> {
    let mut domain = Domain::fresh(params);
    domain.clock = CLOCK;
    let retired = |owner| Node::Retired { owner, guest: 70, retired_at: CLOCK / 2, limbo: 0 };
    domain.nodes.fill(retired(HEIR));
    let mut left = count;
    while left > 0 {
        let node = &mut domain.nodes[random.below(params.nodes) as usize];
        left -= (*node != retired(LEAVER)) as u32;
        *node = retired(LEAVER);
    }
    words_of(&domain)
}

fn absent(params: Params) -> Vec<u32> {
    let mut domain = Domain::fresh(params);
    domain.processes[LEAVER as usize].present = false;
    words_of(&domain)
}
