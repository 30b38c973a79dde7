//! Random runs: the library, the model and, from a fresh domain, the reference step by step.

use crate::arbitrary;
use crate::compare::Lockstep;
use crate::coverage::Coverage;
use crate::library::Calls;
use crate::model::mistake::Rules;
use crate::params::Params;
use crate::random::Random;
use crate::schedule::{any_portion, portion, Mood};

/// Runs from fresh domains, each with its own parameters and mood, until `steps` steps were taken.
pub fn fresh(calls: &Calls, seed: u64, steps: u64, coverage: &mut Coverage) -> Result<String, String> {
    let (mut runs, end) = (0, coverage.steps + steps);
    while coverage.steps < end {
        from_fresh(calls, Rules::default(), &mut Random::new(seed, runs), coverage)
            .map_err(|wrong| format!("seed {seed}, run {runs}: {wrong}"))?;
        runs += 1;
    }
    Ok(format!("{runs} runs, {steps} steps"))
}

/// Short runs from well-formed domains that no run need reach.
pub fn arbitrary(calls: &Calls, seed: u64, steps: u64, coverage: &mut Coverage) -> Result<String, String> {
    let (mut runs, end) = (0, coverage.steps + steps);
    while coverage.steps < end {
        from_arbitrary(calls, Rules::default(), &mut Random::new(!seed, runs), coverage)
            .map_err(|wrong| format!("seed {seed}, domain {runs}: {wrong}"))?;
        runs += 1;
    }
    Ok(format!("{runs} domains, {steps} steps"))
}

pub fn from_fresh(calls: &Calls, rules: Rules, random: &mut Random, coverage: &mut Coverage) -> Result<(), String> {
    let params = Params::random(random);
    let steps = 20 + random.below(1000);
    let run = Lockstep::fresh(calls, rules, params, random.word())?;
    go_on(run, steps, random, coverage)
}

pub fn from_arbitrary(calls: &Calls, rules: Rules, random: &mut Random, coverage: &mut Coverage) -> Result<(), String> {
    let params = Params::random(random);
    let run = Lockstep::from(calls, rules, arbitrary::domain(random, params));
    run.why_all(coverage).map_err(|wrong| format!("{params}, before any step: {wrong}"))?;
    portions(&run, random, coverage).map_err(|wrong| format!("{params}, before any step: {wrong}"))?;
    go_on(run, 12, random, coverage)
}

fn go_on(mut run: Lockstep, steps: u32, random: &mut Random, coverage: &mut Coverage) -> Result<(), String> {
    let mood = Mood::random(random);
    coverage.begin();
    for number in 0..steps {
        let step = mood.step(random, &run.model);
        run.step(step, coverage)
            .map_err(|wrong| format!("{}, step {number} ({step}): {wrong}", run.model.domain.params))?;
    }
    let after = |wrong| format!("{}, after {steps} steps: {wrong}", run.model.domain.params);
    run.why_all(coverage).map_err(after)?;
    portions(&run, random, coverage).map_err(after)
}

/// Some portions of what there is, each for itself.
fn portions(run: &Lockstep, random: &mut Random, coverage: &mut Coverage) -> Result<(), String> {
    for _ in 0..3 {
        run.portion(portion(random, &run.model.domain), coverage)?;
    }
    run.portion(any_portion(random, run.model.domain.params), coverage)
}

/// Whether all was met that the tests are to meet, each at least so often.
pub fn covered(coverage: &Coverage, least: u64) -> Result<String, String> {
    for (name, count) in coverage.counts() {
        println!("        {count:>9}  {name}");
    }
    let missing: Vec<String> =
        coverage.counts().into_iter().filter(|(_, count)| *count < least).map(|(name, _)| name).collect();
    let percent = coverage.accepted_percent();
    match (missing.is_empty(), percent) {
        (true, 50..) => Ok(format!("{} steps, {percent} % accepted, every count at least {least}", coverage.steps)),
        (true, _) => Err(format!("only {percent} % of the steps were accepted")),
        (false, _) => Err(format!("less than {least} of: {}", missing.join(", "))),
    }
}
