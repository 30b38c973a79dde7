//! The comparison is shown to bite: with each mistake switched on in the model, it must find a difference; and the reference must
//! object to a machine that makes one of those that it can see, and follow one that differs only in what it answers.

use super::{malformed, objections, schedules};
use crate::arbitrary;
use crate::broken::CONDITIONS;
use crate::coverage::Coverage;
use crate::library::Calls;
use crate::model::mistake::{Mistake, Rules};
use crate::model::{words, Model};
use crate::params::Params;
use crate::random::Random;
use crate::reference::Reference;
use crate::report::Report;
use crate::schedule::Mood;

const ROUNDS: u64 = 400;

pub fn all(report: &mut Report, calls: &Calls, seed: u64) {
    report.test("not told from the model without a mistake", || alike(calls, seed));
    for &mistake in Mistake::ALL {
        report.test(&format!("told from the model with {mistake:?}"), || found(calls, mistake, seed));
    }
    for &mistake in [Mistake::UNSAFE, Mistake::UNBOUNDED, Mistake::UNFOLLOWED].into_iter().flatten() {
        report.test(&format!("the reference objects to {mistake:?}"), || match objections::by_hand(mistake) {
            Some((params, schedule)) => objections::tried(mistake, params, &schedule),
            None => objected(mistake, seed, 20 * ROUNDS),
        });
    }
    for &mistake in Mistake::UNSEEN {
        report.test(&format!("the reference follows {mistake:?}"), || match objected(mistake, seed, ROUNDS) {
            Ok(objection) => Err(objection),
            Err(none) => Ok(none),
        });
    }
}

fn found(calls: &Calls, mistake: Mistake, seed: u64) -> Result<String, String> {
    let (rules, mut coverage) = (Rules::with(mistake), Coverage::default());
    for round in 0..ROUNDS {
        if let Err(difference) = compare(calls, rules, seed, round, &mut coverage) {
            return Ok(format!("after {} steps, {difference}", coverage.steps));
        }
    }
    Err(format!("no difference in {} steps", coverage.steps))
}

/// The same rounds with the rules as they are: what the others find is their mistake.
fn alike(calls: &Calls, seed: u64) -> Result<String, String> {
    let mut coverage = Coverage::default();
    for round in 0..ROUNDS {
        compare(calls, Rules::default(), seed, round, &mut coverage)?;
    }
    Ok(format!("{} steps", coverage.steps))
}

/// A round of each comparison.
fn compare(calls: &Calls, rules: Rules, seed: u64, round: u64, coverage: &mut Coverage) -> Result<(), String> {
    let random = &mut Random::new(seed ^ 0xb17e, round);
    schedules::from_fresh(calls, rules, random, coverage)?;
    schedules::from_arbitrary(calls, rules, random, coverage)?;
    let params = Params::random(random);
    let domain = arbitrary::domain(random, params);
    malformed::broken_in_turn(calls, rules, &domain, random, coverage, &mut [0; CONDITIONS.len()])?;
    malformed::some_words(calls, rules, seed ^ round, 20, coverage)?;
    match round {
        0 => malformed::lengths(calls, rules, seed, coverage).map(|_| ()),
        _ => Ok(()),
    }
}

/// Runs of a model that makes the mistake, beside the reference: its objection, or that there is none.
fn objected(mistake: Mistake, seed: u64, rounds: u64) -> Result<String, String> {
    let mut steps = 0;
    for round in 0..rounds {
        let random = &mut Random::new(seed ^ 0x0b1e, round);
        let params = Params::random(random);
        let mut model = Model::fresh(params, Rules::with(mistake));
        let (mood, mut reference, mut after) = (Mood::random(random), Reference::new(params), Vec::new());
        for _ in 0..500 {
            let step = mood.step(random, &model);
            let answer = model.step(step);
            words::encode(&model.domain, &mut after);
            steps += 1;
            if let Err(objection) = reference.follow(step, answer, &after) {
                return Ok(format!("after {steps} steps, {objection}"));
            }
        }
    }
    Err(format!("no objection in {steps} steps"))
}
