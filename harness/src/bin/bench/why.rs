//! Why a node waits, on full domains where nobody is behind: a ready one, for which every hazard is looked at, and one in the last hazard.

use crate::callers::{ByModel, Caller};
use crate::goals;
use crate::race::{race, Checks, Steps, Whys, Work};
use crate::rows::{model, name, ROUNDS, STEPS};
use crate::table::{Row, Table};
use harness::arbitrary;
use harness::layout::BUFFER;
use harness::library::{PLAIN, QSENSE};
use harness::model::domain::{Domain, Node, Path, Store};
use harness::model::words::words_of;
use harness::params::Params;
use harness::random::Random;
use harness::step::Step;
use harness::why::{Behind, Reason, Why};

/// Domains, and the node of each that is asked about.
struct Asked {
    domains: Vec<Vec<u32>>,
    nodes: Vec<u32>,
}

impl Asked {
    fn new(params: Params, count: usize, reason: Reason) -> Asked {
        let mut asked = Asked { domains: Vec::new(), nodes: Vec::new() };
        for index in 0..count as u64 {
            let (domain, node) = full(params, reason, &mut Random::new(2, index));
            let words = words_of(&domain);
            assert_eq!(ByModel.why(&words, node), Why::Told(reason, Behind::Nobody).answer());
            asked.domains.push(words);
            asked.nodes.push(node);
        }
        asked
    }
}

/// A domain on the fast path with all processes at the global epoch, a Retired node that is old, its owner's buffer full, and other nodes
/// in every hazard and every pending store; where the node is to be visible, it is so in the last hazard alone.
fn full(params: Params, reason: Reason, random: &mut Random) -> (Domain, u32) {
    let mut domain = arbitrary::domain(random, params);
    let (node, owner) = (random.below(params.nodes), random.below(params.processes));
    let mut other = || (params.nodes > 1).then(|| (node + 1 + random.below(params.nodes - 1)) % params.nodes);
    (domain.path, domain.clock) = (Path::Fast, domain.clock.max(params.delay() + 1));
    for process in &mut domain.processes {
        (process.epoch, process.present) = (domain.epoch, true);
        process.hazards.iter_mut().for_each(|hazard| hazard.visible = other());
        process.buffer.iter_mut().for_each(|store| store.node = other());
    }
    let own = &mut domain.processes[owner as usize].buffer;
    while own.len() < BUFFER {
        own.push_back(Store { hazard: own.len() as u32 % params.hazards, node: other(), time: domain.clock });
    }
    if let Reason::Visible { process, hazard } = reason {
        domain.processes[process as usize].hazards[hazard as usize].visible = Some(node);
        if process == owner {
            domain.processes[process as usize].buffer[BUFFER - 1] =
                Store { hazard, node: Some(node), time: domain.clock };
        }
    }
    domain.nodes[node as usize] = Node::Retired { owner, guest: 70, retired_at: 0, limbo: domain.epoch };
    (domain, node)
}

pub fn all(params: Params, table: &mut Table) {
    let last = Reason::Visible { process: params.processes - 1, hazard: params.hazards - 1 };
    for domains in [1, 64] {
        let what = "why, a ready node";
        let [alone, itself] = rows(table, params, what, &Asked::new(params, domains, Reason::Ready));
        table.line(&name(params, "check alone of the same", domains), alone, None);
        table.line(&name(params, "check by itself of the same", domains), itself, None);
        rows(table, params, "why, a node in the last hazard", &Asked::new(params, domains, last));
    }
}

/// The call by the library and by C, with the check alone and by itself: all in turns. The rows of the checks are handed back.
fn rows(table: &mut Table, params: Params, what: &str, Asked { domains, nodes }: &Asked) -> [Row; 2] {
    let unknown: Vec<_> = (0..STEPS).map(|turn| (turn % domains.len(), Step::UNKNOWN)).collect();
    let [mut library, mut plain] = [&QSENSE, &PLAIN].map(|caller| Whys { caller, domains, nodes, turns: STEPS });
    let [mut alone, mut plain_alone] = [&QSENSE, &PLAIN].map(|calls| Steps::new(calls, domains, &unknown));
    let [mut itself, mut plain_itself] = [&QSENSE, &PLAIN].map(|calls| Checks { calls, domains, turns: STEPS });
    let mut works: [&mut dyn Work; 6] =
        [&mut library, &mut plain, &mut alone, &mut plain_alone, &mut itself, &mut plain_itself];
    let best = race(ROUNDS, STEPS, &mut works);
    let by_model = model(STEPS, &mut Whys { caller: &ByModel, domains, nodes, turns: STEPS });
    let checked_by_model = model(STEPS, &mut Steps::new(&ByModel, domains, &unknown));
    let row = |first: usize, model| Row { library: best[first], plain: best[first + 1], model, ..Row::default() };
    let name = name(params, what, domains.len());
    table.line(&name, row(0, by_model), None);
    if let Some(goal) = goals::why_beside_check(params) {
        table.judge(&format!("{name}, beside {}", goal.beside.name()), goal, best[0] / best[2]);
    }
    [row(2, checked_by_model), row(4, checked_by_model)]
}
