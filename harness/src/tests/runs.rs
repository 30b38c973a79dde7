//! qsense_run beside qsense_step one by one and beside the model's run, and slices of wrong lengths.

use crate::arbitrary;
use crate::compare::same;
use crate::layout::{ANSWER, STEP};
use crate::library::{Calls, Lent};
use crate::model::domain::Domain;
use crate::model::mistake::Rules;
use crate::model::words::words_of;
use crate::model::{run_words, Model};
use crate::params::Params;
use crate::random::Random;
use crate::schedule::Mood;
use crate::step::{Answer, Step};

/// Runs of 0 to a few hundred steps from fresh, arbitrary and malformed words.
pub fn one_by_one(calls: &Calls, seed: u64, cases: u64) -> Result<String, String> {
    let mut steps = 0;
    for index in 0..cases {
        let mut random = Random::new(seed ^ 0x7a7a, index);
        let (mut words, schedule) = start(&mut random);
        if random.chance(10) {
            let place = random.below(words.len() as u32) as usize;
            words[place] = u32::MAX;
        }
        steps += schedule.len();
        one(calls, &words, &schedule).map_err(|wrong| format!("seed {seed}, case {index}: {wrong}"))?;
    }
    Ok(format!("{cases} runs, {steps} steps"))
}

/// Words of a domain, and a schedule for it.
fn start(random: &mut Random) -> (Vec<u32>, Vec<Step>) {
    let params = Params::random(random);
    let domain = if random.chance(50) { Domain::fresh(params) } else { arbitrary::domain(random, params) };
    let words = words_of(&domain);
    let mut model = Model { rules: Rules::default(), domain };
    let (mood, length) = (Mood::random(random), *random.of(&[0, 1, 2, 10, 300]));
    let schedule = (0..length).map(|_| {
        let step = mood.step(random, &model);
        model.step(step);
        step
    });
    (words, schedule.collect())
}

fn one(calls: &Calls, words: &[u32], schedule: &[Step]) -> Result<(), String> {
    let steps: Vec<u32> = schedule.iter().flat_map(|step| step.numbers()).collect();
    let (mut single, mut batch) = (Lent::new(words), Lent::new(words));
    let expected: Vec<u32> = schedule
        .iter()
        .map(|&step| calls.step(single.words_mut(), step))
        .flat_map(|answer| [answer.refusal, answer.value])
        .collect();
    let mut answers = Lent::new(&vec![0xAAAA; expected.len()]);
    if !calls.run(batch.words_mut(), &steps, answers.words_mut()) {
        return Err("the run was not taken".into());
    }
    if answers.words() != expected || !answers.is_intact() {
        return Err("run answers otherwise than steps".into());
    }
    let (mut by_model, mut model_answers) = (words.to_vec(), vec![0; expected.len()]);
    if !run_words(&mut by_model, &steps, &mut model_answers, Rules::default()) || model_answers != expected {
        return Err("the model's run answers otherwise than steps".into());
    }
    same("run beside the model's", Answer::accepted(0), &batch, Answer::accepted(0), &by_model)?;
    same("run", Answer::accepted(0), &batch, Answer::accepted(0), single.words())
}

/// Lengths that do not fit: nothing is written, neither words nor answers.
pub fn wrong_lengths(calls: &Calls, seed: u64) -> Result<String, String> {
    let mut cases = 0;
    for index in 0..20 {
        let mut random = Random::new(seed ^ 0x6b6b, index);
        let (words, _) = start(&mut random);
        let steps: Vec<u32> = (0..64).map(|_| *random.of(&[1, 0, 0, 0, 11, 13, 77])).collect();
        for steps_len in 0..=31 {
            for answers_len in 0..=14 {
                if steps_len % STEP == 0 && answers_len == ANSWER * (steps_len / STEP) {
                    continue;
                }
                let mut lent = Lent::new(&words);
                let mut answers = Lent::new(&vec![0xAAAA; answers_len]);
                let taken = calls.run(lent.words_mut(), &steps[..steps_len], answers.words_mut());
                let model = run_words(&mut words.clone(), &steps[..steps_len], answers.words_mut(), Rules::default());
                let untouched = answers.is_intact() && answers.words().iter().all(|&word| word == 0xAAAA);
                same("run", Answer::accepted(0), &lent, Answer::accepted(0), &words)?;
                if taken || model || !untouched {
                    return Err(format!(
                        "{steps_len} step words, {answers_len} answer words: {taken}, {:?}",
                        answers.words()
                    ));
                }
                cases += 1;
            }
        }
    }
    Ok(format!("{cases} pairs of lengths"))
}
