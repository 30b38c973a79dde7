//! Random steps: most of them such as the domain would accept, the rest anything.

use crate::model::domain::{Domain, Hazard, Node, Process};
use crate::model::Model;
use crate::params::Params;
use crate::portion::Portion;
use crate::random::Random;
use crate::step::{Field, Kind, State, Step};

/// How a schedule is drawn. Moods differ, so that what is rare in one run is frequent in another.
pub struct Mood {
    weights: [u32; Kind::ALL.len()],
    accepted_percent: u32,
    unread_percent: u32,
}

/// The weights of the table, by which nodes go round and hazards are claimed.
fn weights() -> [u32; Kind::ALL.len()] {
    std::array::from_fn(|place| Kind::ALL[place].row().weight)
}

impl Mood {
    pub fn random(random: &mut Random) -> Mood {
        let mut weights = weights().map(|weight| weight * random.of(&[1, 2, 4, 8]));
        if random.chance(30) {
            // claims that stay, and stores that stay pending
            for kind in [Kind::Clear, Kind::Drain, Kind::Flush] {
                weights[kind as usize - 1] = 1;
            }
        }
        if random.chance(30) {
            // processes that come and go, and epochs that move on meanwhile
            for kind in [Kind::Leave, Kind::Join, Kind::Manage] {
                weights[kind as usize - 1] *= 4;
            }
        }
        if random.chance(30) {
            // a clock that moves on, so that stores are due and nodes old
            for kind in [Kind::Tick, Kind::Flush] {
                weights[kind as usize - 1] *= 4;
            }
        }
        if random.chance(30) {
            // scans in portions, of nodes that have grown old on the fast path
            weights[Kind::Portion as usize - 1] *= 4;
        }
        if random.chance(50) {
            weights[Kind::ClearPresence as usize - 1] = 0;
        }
        Mood { weights, accepted_percent: *random.of(&[70, 90, 97]), unread_percent: *random.of(&[0, 30]) }
    }

    /// A mood in which nearly all steps are accepted, and fields that are not read are 0.
    pub fn steady() -> Mood {
        Mood { weights: weights(), accepted_percent: 100, unread_percent: 0 }
    }

    /// The same mood without steps of this kind.
    pub fn never(mut self, kind: Kind) -> Mood {
        self.weights[kind as usize - 1] = 0;
        self
    }

    /// The next step for the model's domain.
    pub fn step(&self, random: &mut Random, model: &Model) -> Step {
        let kind = self.kind(random);
        let mut step = anything(random, model, kind);
        if random.chance(self.accepted_percent) {
            for _ in 0..12 {
                let kind = self.kind(random);
                step = likely(random, &model.domain, kind);
                if model.refusal(step) == 0 {
                    break;
                }
            }
        }
        if random.chance(self.unread_percent) {
            fill_unread(random, &mut step);
        }
        step
    }

    fn kind(&self, random: &mut Random) -> Kind {
        let mut left = random.below(self.weights.iter().sum());
        for (kind, &weight) in Kind::ALL.iter().copied().zip(&self.weights) {
            if left < weight {
                return kind;
            }
            left -= weight;
        }
        unreachable!("the weights sum up to more")
    }
}

/// A step of this kind with fields that the domain is likely to accept.
fn likely(random: &mut Random, domain: &Domain, kind: Kind) -> Step {
    let (params, row) = (domain.params, kind.row());
    // now and then a process that may not: it is refused, and a mistake that lets it act shows
    let any = random.chance(10);
    let mut step = Step::new(kind, process_where(random, domain, |process| any || may_act(kind, process)), 0, 0, 0);
    if kind.reads(Field::Hazard) {
        step.hazard = random.below(params.hazards);
    }
    if kind.reads_node() {
        step.node = random.below(params.nodes);
    }
    if kind.reads(Field::Guest) {
        step.guest = if random.chance(10) { random.word() } else { random.below(100) };
    }
    if let Some(state) = row.needs {
        step.node = node_where(random, domain, |node| node.state() == state);
    }
    if row.owns && random.chance(97) {
        step.process = domain.node(step.node).owner().unwrap_or(step.process);
    }
    match kind {
        Kind::Protect if random.chance(85) => {
            step.node = node_where(random, domain, |node| node.state() == State::Reachable);
        }
        Kind::Check | Kind::Clear => at_hazard(random, domain, &mut step, |hazard| hazard.assigned.is_some()),
        Kind::Use => at_hazard(random, domain, &mut step, |hazard| hazard.validated),
        Kind::Drain => step.process = process_where(random, domain, |process| !process.buffer.is_empty()),
        Kind::Manage => {
            step.process = process_where(random, domain, |process| may_act(kind, process) && !process.has_assigned());
        }
        Kind::Leave => {
            step.process = leaver(random, domain);
            step.node = heir(random, domain, step.process);
        }
        Kind::Portion => step = portion(random, domain).step(),
        _ => {}
    }
    step
}

/// A random place from which on, round to it again, the first that fits is taken; if none fits, the place itself.
fn place_where(random: &mut Random, count: u32, fits: impl Fn(u32) -> bool) -> u32 {
    let start = random.below(count);
    (start..count).chain(0..start).find(|&id| fits(id)).unwrap_or(start)
}

fn node_where(random: &mut Random, domain: &Domain, fits: impl Fn(&Node) -> bool) -> u32 {
    place_where(random, domain.params.nodes, |id| fits(domain.node(id)))
}

fn process_where(random: &mut Random, domain: &Domain, fits: impl Fn(&Process) -> bool) -> u32 {
    place_where(random, domain.params.processes, |id| fits(domain.process(id)))
}

/// Whether question 20 is answered yes.
fn may_act(kind: Kind, process: &Process) -> bool {
    process.present == (kind != Kind::Join)
}

/// A process that may leave, one with Retired nodes in half of the cases.
fn leaver(random: &mut Random, domain: &Domain) -> u32 {
    let any = random.chance(50);
    place_where(random, domain.params.processes, |id| {
        domain.process(id).present && domain.ties(id) == [false; 4] && (any || domain.retired_by(id) > 0)
    })
}

/// Mostly another process that is present.
fn heir(random: &mut Random, domain: &Domain, leaver: u32) -> u32 {
    let any = random.chance(25);
    place_where(random, domain.params.processes, |id| any || domain.process(id).present && id != leaver)
}

/// A portion mostly of a process with Retired nodes, from the first node, from a Retired one or from any, with a limit about as many.
pub fn portion(random: &mut Random, domain: &Domain) -> Portion {
    let (nodes, any) = (domain.params.nodes, random.chance(15));
    let has_retired = |id| domain.process(id).present && domain.retired_by(id) > 0;
    let process = place_where(random, domain.params.processes, |id| any || has_retired(id));
    let start = match random.below(4) {
        0 => 0,
        1 => random.below(nodes),
        _ => node_where(random, domain, |node| node.is_retired() && node.owner() == Some(process)),
    };
    let [least, most] = Portion::LIMITS;
    let limit = match random.below(8) {
        0..=1 => 1 + random.below(3),
        2 => 8,
        3 => most,
        4 => (*random.of(&[domain.retired_by(process), nodes - start])).clamp(least, most),
        _ => 1 + random.up_to(domain.retired_by(process).min(most - 1)),
    };
    Portion { process, start, limit }
}

/// A portion with each number in and out of its range.
pub fn any_portion(random: &mut Random, params: Params) -> Portion {
    let (process, start) = (any_below(random, params.processes), any_below(random, params.nodes));
    Portion { process, start, limit: any_limit(random) }
}

/// A number mostly below a limit.
fn any_below(random: &mut Random, limit: u32) -> u32 {
    match random.below(16) {
        0 => limit,
        1 => u32::MAX,
        _ => random.below(limit),
    }
}

/// A limit in and out of its range.
fn any_limit(random: &mut Random) -> u32 {
    let [least, most] = Portion::LIMITS;
    match random.below(4) {
        0 => *random.of(&[least - 1, most + 1, u32::MAX, 1 << 31, most << 8]),
        1 => *random.of(&[least, most]),
        _ => 1 + random.below(most),
    }
}

fn at_hazard(random: &mut Random, domain: &Domain, step: &mut Step, fits: impl Fn(&Hazard) -> bool) {
    step.process = process_where(random, domain, |process| process.hazards.iter().any(&fits));
    step.hazard = place_where(random, domain.params.hazards, |id| fits(domain.hazard(step.process, id)));
}

/// Fields in and out of range, and now and then a kind that is none.
fn anything(random: &mut Random, model: &Model, kind: Kind) -> Step {
    let params = model.domain.params;
    let mut field = |limit| any_below(random, limit);
    let nodes = if kind.row().heir { params.processes } else { params.nodes };
    let (process, hazard, node) = (field(params.processes), field(params.hazards), field(nodes));
    let guest = if kind == Kind::Portion { any_limit(random) } else { random.word() };
    let mut step = Step::new(kind, process, hazard, node, guest);
    if random.chance(8) {
        let next = Kind::LAST as u32 + 1;
        step.kind = *random.of(&[0, next, next + 5, 255, 256 + kind as u32, u32::MAX]);
    }
    if kind == Kind::Leave && random.chance(50) {
        step.process = leaver(random, &model.domain);
    }
    step
}

/// Puts anything into the fields that the step's kind does not read.
fn fill_unread(random: &mut Random, step: &mut Step) {
    let kind = Kind::from_number(step.kind);
    for field in Field::ALL {
        if !kind.is_some_and(|kind| kind.reads(field)) {
            *step.field_mut(field) = random.word();
        }
    }
}
