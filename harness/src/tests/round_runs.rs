//! Request 8 on random runs from fresh domains: on the fast path a Retired node is freed within seven rounds, and within six where one
//! process is present; that these are met; and that a machine with a mistake takes more.

use crate::compare::Lockstep;
use crate::coverage::Coverage;
use crate::delaying;
use crate::library::Calls;
use crate::model::mistake::{Mistake, Rules};
use crate::model::words::{encode, words_of};
use crate::model::Model;
use crate::params::Params;
use crate::random::Random;
use crate::report::Report;
use crate::rounds::{Company, Rounds, Tally};
use crate::schedule::Mood;
use crate::step::Step;

pub fn all(report: &mut Report, calls: &Calls, seed: u64) {
    report.test("rounds: frees that are put off", || put_off(calls, seed, 400_000));
    report.test("rounds: manages in any order", || any_order(calls, seed, 400_000));
    for &mistake in Mistake::LATE {
        report.test(&format!("rounds: more with {mistake:?}"), || match by_mistake(mistake, seed, 2_000) {
            (Err(late), _) => Ok(late),
            (Ok(()), tally) => Err(format!("no more: {tally}")),
        });
    }
    report.test("rounds: three at most with FreesListOfBefore, which is too early", || early(seed));
}

/// Parameters, and a schedule for a fresh domain with them.
type Schedule = (Params, Vec<Step>);

/// Runs by schedules that are drawn so, through the library beside the model and the reference, until so many steps were taken.
fn runs(calls: &Calls, seed: u64, steps: u64, draw: fn(&mut Random) -> Schedule) -> Result<(Tally, String), String> {
    let (mut runs, mut tally, mut coverage) = (0, Tally::default(), Coverage::default());
    while coverage.steps < steps {
        let schedule = draw(&mut Random::new(seed, runs));
        one(calls, &schedule, &mut tally, &mut coverage)
            .map_err(|wrong| format!("seed {seed}, run {runs}, {}: {wrong}", schedule.0))?;
        runs += 1;
    }
    let said = format!("{runs} runs, {} steps, {tally}", coverage.steps);
    let is_rare = |(name, count): &(String, u64)| name.starts_with("accepted ") && *count < 100;
    match coverage.counts().into_iter().find(is_rare) {
        Some((name, count)) => Err(format!("{name}: {count} times; {said}")),
        None => Ok((tally, said)),
    }
}

fn one(calls: &Calls, schedule: &Schedule, tally: &mut Tally, coverage: &mut Coverage) -> Result<(), String> {
    let (params, ref steps) = *schedule;
    let mut run = Lockstep::fresh(calls, Rules::default(), params, 7)?;
    let mut rounds = Rounds::from(params, run.words());
    coverage.begin();
    for (number, &step) in steps.iter().enumerate() {
        let answer = run.step(step, coverage);
        let followed = answer.and_then(|answer| rounds.follow(step, answer, run.words(), tally));
        followed.map_err(|wrong| format!("step {number} ({step}): {wrong}"))?;
    }
    Ok(())
}

/// Whoever is present, some node is freed only in the last round in which it may be.
pub fn put_off(calls: &Calls, seed: u64, steps: u64) -> Result<String, String> {
    let (tally, said) = runs(calls, seed ^ 0x70ff, steps, |random| {
        let params = delaying::params(random);
        (params, delaying::schedule(random, params, Rules::default()))
    })?;
    match Company::ALL.into_iter().all(|company| tally.longest(company) == company.most()) {
        true => Ok(said),
        false => Err(format!("no node was freed in the last round: {said}")),
    }
}

/// Half of the runs are on the fast path alone; in all of them processes leave and join. The last rounds are rare here, the fourth is not.
fn any_order(calls: &Calls, seed: u64, steps: u64) -> Result<String, String> {
    let (tally, said) = runs(calls, seed ^ 0xa0d3, steps, |random| {
        let params = if random.chance(50) { delaying::params(random) } else { Params::random(random) };
        let (mut model, mood) = (Model::fresh(params, Rules::default()), Mood::random(random));
        let steps = (0..1_000).map(|_| {
            let step = mood.step(random, &model);
            model.step(step);
            step
        });
        (params, steps.collect())
    })?;
    match Company::ALL.into_iter().all(|company| tally.longest(company) > 3)
        && tally.ended_by_owner.min(tally.ended_by_path) > 0
    {
        true => Ok(said),
        false => Err(format!("too little was met: {said}")),
    }
}

/// What the rounds say of a machine that makes the mistake, without the library.
fn by_mistake(mistake: Mistake, seed: u64, runs: u64) -> (Result<(), String>, Tally) {
    let (rules, mut tally) = (Rules::with(mistake), Tally::default());
    let followed = (0..runs).try_for_each(|run| {
        let random = &mut Random::new(seed ^ 0x3157, run);
        let params = delaying::params(random);
        let schedule = delaying::schedule(random, params, rules);
        follow(rules, params, &schedule, &mut tally).map_err(|wrong| format!("run {run}, {params}: {wrong}"))
    });
    (followed, tally)
}

/// The rounds over a schedule on a fresh domain of a machine by these rules.
pub(super) fn follow(rules: Rules, params: Params, steps: &[Step], tally: &mut Tally) -> Result<(), String> {
    let mut model = Model::fresh(params, rules);
    let mut words = words_of(&model.domain);
    let mut rounds = Rounds::from(params, &words);
    steps.iter().enumerate().try_for_each(|(number, &step)| {
        let answer = model.step(step);
        encode(&model.domain, &mut words);
        rounds.follow(step, answer, &words, tally).map_err(|wrong| format!("step {number} ({step}): {wrong}"))
    })
}

/// Then a process frees a list as it comes to the epoch after that of the list, which it does in the third round at the latest: the rounds
/// see nothing wrong. The reference does: a claim may still be there.
fn early(seed: u64) -> Result<String, String> {
    let (followed, tally) = by_mistake(Mistake::FreesListOfBefore, seed, 300);
    followed?;
    match Company::ALL.map(|company| tally.longest(company)) {
        [2, 3, 0..=3] => Ok(tally.to_string()),
        _ => Err(tally.to_string()),
    }
}
