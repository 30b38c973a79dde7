//! Portions of a scan on a full domain, by the call and as a step, on one with none Retired, and a retire that scans the whole of it.

use crate::goals;
use crate::rows::shape;
use crate::single::{rows, Act, Load, Times};
use crate::table::Table;
use harness::model::domain::{Domain, Node, Path};
use harness::model::words::words_of;
use harness::params::Params;
use harness::portion::Portion;
use harness::random::Random;
use harness::step::{Kind, Step};

const SCANNER: u32 = 0;
const CLOCK: u32 = 100;
/// That of the goal beside a whole scan.
const FEW: u32 = 8;
const LIMITS: [u32; 7] = [1, 2, 4, FEW, 16, 64, 256];

pub fn all(params: Params, table: &mut Table) {
    let limits = LIMITS.into_iter().filter(|&limit| limit <= params.nodes || limit == Portion::LIMITS[1]);
    let mut loads: Vec<Load> = limits.map(|limit| of_full(params, limit, Act::Portion, "")).collect();
    loads.push(of_empty(params));
    let as_steps = loads.len();
    let few = FEW.min(params.nodes);
    loads.extend(
        [few, Portion::LIMITS[1]].map(|limit| of_full(params, limit, |asked| Act::Step(asked.step()), ", as a step")),
    );
    loads.push(retiring(params));
    let times = rows(table, params, &loads);
    let scan = times.last().expect("a retire");
    let call = LIMITS.iter().position(|&limit| limit == FEW).expect("a limit");
    if let Some(goal) = goals::portion_beside_scan(params) {
        for (what, portion) in [("portion", &times[call]), ("portion as a step", &times[as_steps])] {
            let name = format!("{}, {what}, L = {FEW}, beside {}", shape(params), goal.beside.name());
            table.judge(&name, goal, less(portion) / less(scan));
        }
    }
}

/// The time without its check.
fn less(times: &Times) -> f64 {
    times.whole - times.check
}

fn of_full(params: Params, limit: u32, act: impl Fn(Portion) -> Act, form: &str) -> Load {
    Load {
        act: act(Portion::new(SCANNER, 0, limit)),
        what: "portion from node 0",
        name: format!(", L = {limit}{form}"),
        words: Box::new(move |seed| words_of(&full(params, &mut Random::new(seed, 7)))),
        goal: goals::call(params),
    }
}

fn of_empty(params: Params) -> Load {
    let words = move |seed| {
        let mut domain = full(params, &mut Random::new(seed, 7));
        domain.nodes.fill(Node::Reachable { guest: 70 });
        words_of(&domain)
    };
    let (act, name) = (Act::Portion(Portion::new(SCANNER, 0, FEW)), format!(", L = {FEW}, none Retired"));
    Load { act, what: "portion from node 0", name, words: Box::new(words), goal: goals::call(params) }
}

/// On the fallback path, with a node that is retired now and all others due.
fn retiring(params: Params) -> Load {
    let words = move |seed| {
        let mut domain = Domain { path: Path::Fallback, ..full(params, &mut Random::new(seed, 7)) };
        domain.nodes[0] = Node::Removed { owner: SCANNER, guest: 70 };
        words_of(&domain)
    };
    let act = Act::Step(Step::new(Kind::Retire, SCANNER, 0, 0, 0));
    let name = format!(", the other {} nodes of the same due", params.nodes - 1);
    Load { act, what: "retire with scan", name, words: Box::new(words), goal: None }
}

/// A domain whose nodes are all due to be freed by one process: Retired long ago, and in no visible hazard. Each hazard has one assigned.
fn full(params: Params, random: &mut Random) -> Domain {
    let mut domain = Domain { clock: CLOCK, ..Domain::fresh(params) };
    for hazard in domain.processes.iter_mut().flat_map(|process| &mut process.hazards) {
        hazard.assigned = Some(random.below(params.nodes));
    }
    domain.nodes.fill(Node::Retired { owner: SCANNER, guest: 70, retired_at: CLOCK / 10, limbo: 0 });
    domain
}
