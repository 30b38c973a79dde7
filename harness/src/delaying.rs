//! Schedules on the fast path in which manages come in such an order that a node is freed as late as it may be.

use crate::layout::BUFFER;
use crate::model::domain::Domain;
use crate::model::mistake::Rules;
use crate::model::words::{encode, words_of};
use crate::model::Model;
use crate::params::Params;
use crate::random::Random;
use crate::rounds::{Rounds, Tally};
use crate::schedule::Mood;
use crate::step::{Kind, Step};

/// Parameters with C above M, by which no retire leaves the fast path; mostly few processes and few manages to a round.
pub fn params(random: &mut Random) -> Params {
    let nodes = *random.of(&[1, 2, 3, 6, 6, 40, 255]);
    let (any_processes, any_threshold) = (1 + random.below(16), 1 + random.below(12));
    Params {
        processes: *random.of(&[1, 2, 2, 3, 4, any_processes]),
        hazards: 1 + random.below(2),
        nodes,
        visibility_bound: 1 + random.below(4),
        quiescence_threshold: *random.of(&[1, 1, 2, 3, any_threshold]),
        fallback_threshold: nodes + 1 + random.up_to(Params::MOST.fallback_threshold - nodes - 1),
        lateness: random.below(3),
    }
}

/// A schedule for a fresh domain of a machine by these rules. Some processes leave at once, and more may in its first part; later all may but
/// the owner of the node whose free is put off. It ends where a node is still Retired after the rounds within which it is to be freed.
pub fn schedule(random: &mut Random, params: Params, rules: Rules) -> Vec<Step> {
    let (mut delay, mut steps) = (Delay::new(random, params, rules), Vec::new());
    let (leave_percent, first_part) = (*random.of(&[0, 0, 40, 80]), *random.of(&[0, 20, 100]));
    let length = (60 * params.processes * params.quiescence_threshold).clamp(300, 3_000);
    for number in 0..params.processes + first_part + length {
        let step = match number.checked_sub(params.processes) {
            None if number > 0 && random.chance(leave_percent) => Step::new(Kind::Leave, number, 0, 0, 0),
            Some(place) if place >= first_part => delay.step(random),
            _ => delay.before.step(random, &delay.model),
        };
        steps.push(step);
        if delay.take(step).is_err() {
            break;
        }
    }
    steps
}

struct Delay {
    model: Model,
    words: Vec<u32>,
    rounds: Rounds,
    /// the mood of the first part
    before: Mood,
    /// of the steps between manages
    between: Mood,
    manage_percent: u32,
    join_percent: u32,
    /// the node whose free is put off
    node: u32,
}

impl Delay {
    fn new(random: &mut Random, params: Params, rules: Rules) -> Delay {
        let model = Model::fresh(params, rules);
        let words = words_of(&model.domain);
        let rounds = Rounds::from(params, &words);
        let mut between = Mood::random(random).never(Kind::Manage).never(Kind::Join);
        if random.chance(70) {
            // they free nodes before their time
            between = between.never(Kind::Portion);
        }
        let (manage_percent, join_percent) = (*random.of(&[20, 50, 80]), *random.of(&[0, 1, 4]));
        Delay { model, words, rounds, before: Mood::random(random), between, manage_percent, join_percent, node: 0 }
    }

    fn take(&mut self, step: Step) -> Result<(), String> {
        let answer = self.model.step(step);
        encode(&self.model.domain, &mut self.words);
        self.rounds.follow(step, answer, &self.words, &mut Tally::default())
    }

    fn step(&mut self, random: &mut Random) -> Step {
        if !self.model.domain.node(self.node).is_retired() {
            self.node = random.below(self.model.domain.params.nodes);
        }
        if random.chance(self.join_percent) {
            return Step::new(Kind::Join, random.below(self.model.domain.params.processes), 0, 0, 0);
        }
        let manager = if random.chance(self.manage_percent) { self.manager(random) } else { None };
        manager.map_or_else(|| self.other(random), |process| manage(&self.model.domain, process))
    }

    /// Of the processes for which the node's round waits mostly one whose manage brings its free least near; none if it does not wait.
    fn manager(&self, random: &mut Random) -> Option<u32> {
        let (domain, any) = (&self.model.domain, random.chance(2));
        let waited_for = (0..domain.params.processes).filter(|&id| self.rounds.wait_for(self.node, id));
        waited_for.min_by_key(|&id| (if any { 0 } else { nearness(domain, self.node, id) }, random.word()))
    }

    /// Any step but a manage and an accepted leave by the owner of the node.
    fn other(&self, random: &mut Random) -> Step {
        let owner = self.model.domain.node(self.node).owner();
        loop {
            let step = self.between.step(random, &self.model);
            if step.kind != Kind::Leave as u32 || owner != Some(step.process) || self.model.refusal(step) != 0 {
                return step;
            }
        }
    }
}

/// How near a manage of this process brings the node's free: not at all if it only counts or waits for others to come to the epoch. The
/// owner is to be last to come to the next one, so it is best if the epoch moves on by its own manage.
fn nearness(domain: &Domain, node: u32, id: u32) -> u32 {
    let (process, owns) = (domain.process(id), domain.node(node).owner() == Some(id));
    let acts = process.calls + 1 == domain.params.quiescence_threshold;
    let behind = domain.processes.iter().any(|process| process.present && process.epoch != domain.epoch);
    match (acts, process.epoch == domain.epoch) {
        (false, _) => 0,
        (true, true) if behind => 0,
        (true, true) => 1 + !owns as u32,
        (true, false) => 3 + owns as u32,
    }
}

/// A manage by this process, or what it needs first: no hazard assigned, and for that a place in the buffer.
fn manage(domain: &Domain, id: u32) -> Step {
    let process = domain.process(id);
    match process.hazards.iter().position(|hazard| hazard.assigned.is_some()) {
        None => Step::new(Kind::Manage, id, 0, 0, 0),
        Some(_) if process.buffer.len() == BUFFER => Step::new(Kind::Drain, id, 0, 0, 0),
        Some(hazard) => Step::new(Kind::Clear, id, hazard as u32, 0, 0),
    }
}
