//! Check, step, run and count at one shape, on one domain and on 64 in turn.

use crate::callers::ByModel;
use crate::goals::{self, Goal};
use crate::race::{race, Checks, Counts, Room, Run, Steps, Work};
use crate::table::{Row, Table};
use harness::arbitrary;
use harness::library::{Calls, PLAIN, QSENSE, TRUSTING};
use harness::model::mistake::Rules;
use harness::model::words::words_of;
use harness::model::Model;
use harness::params::Params;
use harness::random::Random;
use harness::schedule::Mood;
use harness::step::Step;

pub const ROUNDS: u32 = 800;
const MODEL_ROUNDS: u32 = 10;
pub const STEPS: usize = 5_000;

/// Domains with their words and a schedule of mostly accepted steps, which visits them in turn.
struct Plan {
    start: Vec<Vec<u32>>,
    schedule: Vec<(usize, Step)>,
}

impl Plan {
    fn new(params: Params, domains: usize) -> Plan {
        let mut random = Random::new(1, domains as u64);
        let mut models: Vec<Model> = (0..domains).map(|_| running(&mut random, params)).collect();
        let start = models.iter().map(|model| words_of(&model.domain)).collect();
        let mood = Mood::steady();
        let schedule = (0..STEPS).map(|turn| {
            let model = &mut models[turn % domains];
            let step = mood.step(&mut random, model);
            model.step(step);
            (turn % domains, step)
        });
        Plan { schedule: schedule.collect(), start }
    }

    /// Unknown steps, which are answered right after the check.
    fn unknown(&self) -> Vec<(usize, Step)> {
        (0..STEPS).map(|turn| (turn % self.start.len(), Step::UNKNOWN)).collect()
    }
}

/// A domain of any content, with a clock that can go on.
fn running(random: &mut Random, params: Params) -> Model {
    loop {
        let domain = arbitrary::domain(random, params);
        if (10..1 << 31).contains(&domain.clock) {
            return Model { rules: Rules::default(), domain };
        }
    }
}

pub fn all(params: Params, table: &mut Table) {
    for domains in [1, 64] {
        let plan = Plan::new(params, domains);
        let name = |what: &str| name(params, what, domains);
        steps(table, &name("check alone"), &plan.start, &plan.unknown(), goals::check(params, domains));
        steps(table, &name("step"), &plan.start, &plan.schedule, goals::call(params));
        count(table, params, &plan, &name);
        if domains == 1 {
            let name = format!("{}, run of {STEPS} steps", shape(params));
            run(table, &name, &plan.start[0], &plan.schedule, goals::mixed_run(params));
        }
    }
}

/// N, K and M.
pub fn shape(params: Params) -> String {
    format!("{} {} {}", params.processes, params.hazards, params.nodes)
}

/// What a row is called that goes over so many domains.
pub fn name(params: Params, what: &str, domains: usize) -> String {
    format!("{}, {what}, {domains} domain{}", shape(params), if domains == 1 { "" } else { "s in turn" })
}

fn steps(table: &mut Table, name: &str, start: &[Vec<u32>], schedule: &[(usize, Step)], goal: Option<Goal>) {
    let [mut library, mut plain] = [&QSENSE, &PLAIN].map(|calls| Steps::new(calls, start, schedule));
    let best = race(ROUNDS, STEPS, &mut [&mut library, &mut plain]);
    let model = model(STEPS, &mut Steps::new(&ByModel, start, schedule));
    table.line(name, Row { library: best[0], plain: best[1], model, ..Row::default() }, goal);
}

/// The reachable count in one pass and in two and the check by itself, by the library and by C, and the library's check alone: all in
/// turns. The model has one form for all three rows.
fn count(table: &mut Table, params: Params, plan: &Plan, name: &dyn Fn(&str) -> String) {
    let (domains, unknown, in_two) = (&plan.start, plan.unknown(), [&QSENSE, &PLAIN].map(Calls::in_two));
    let [mut library, mut old, mut plain, mut plain_old] =
        [&QSENSE, &in_two[0], &PLAIN, &in_two[1]].map(|caller| Counts { caller, domains, turns: STEPS });
    let [mut itself, mut plain_itself] = [&QSENSE, &PLAIN].map(|calls| Checks { calls, domains, turns: STEPS });
    let mut check = Steps::new(&QSENSE, domains, &unknown);
    let mut works: [&mut dyn Work; 7] =
        [&mut library, &mut old, &mut plain, &mut plain_old, &mut check, &mut itself, &mut plain_itself];
    let best = race(ROUNDS, STEPS, &mut works);
    let model = model(STEPS, &mut Counts { caller: &ByModel, domains, turns: STEPS });
    let row = |library, plain| Row { library, plain, model, ..Row::default() };
    let one = name("reachable count");
    table.line(&one, row(best[0], best[2]), goals::call(params));
    table.line(&name("reachable count in two passes"), row(best[1], best[3]), None);
    table.line(&name("check by itself"), row(best[5], best[6]), None);
    for (goal, other) in [(goals::count_beside_old(params), best[1]), (goals::count_beside_check(params), best[4])] {
        if let Some(goal) = goal {
            table.judge(&format!("{one}, beside {}", goal.beside.name()), goal, best[0] / other);
        }
    }
}

/// A run by the library, by C that checks before each step, by C that checks once and trusts itself, and by the model, which reads the
/// words once.
pub fn run(table: &mut Table, name: &str, start: &[u32], schedule: &[(usize, Step)], goal: Option<Goal>) {
    let steps: Vec<u32> = schedule.iter().flat_map(|(_, step)| step.numbers()).collect();
    let (steps, room) = (&steps, &Room::new(start, &steps));
    let [mut library, mut plain, mut trusting] =
        [&QSENSE, &PLAIN, &TRUSTING].map(|caller| Run { caller, start, steps, room });
    let best = race(ROUNDS, schedule.len(), &mut [&mut library, &mut plain, &mut trusting]);
    let model = model(schedule.len(), &mut Run { caller: &ByModel, start, steps, room });
    let row = Row { library: best[0], plain: best[1], trusting: Some(best[2]), model, ..Row::default() };
    table.line(name, row, goal);
}

/// The model by itself, in fewer rounds.
pub fn model(units: usize, work: &mut dyn Work) -> f64 {
    race(MODEL_ROUNDS, units, &mut [work])[0]
}
