//! Words that are no domain: by one word, by random words, by the slice's length.

use crate::arbitrary;
use crate::broken::{every_word, CONDITIONS};
use crate::compare::{on_words, same};
use crate::coverage::Coverage;
use crate::layout::word_count;
use crate::library::{Calls, Lent};
use crate::model::domain::Domain;
use crate::model::mistake::Rules;
use crate::model::words::words_of;
use crate::params::Params;
use crate::portion::PortionAnswer;
use crate::random::Random;
use crate::step::{Answer, Kind, Step};
use crate::why::Why;

/// Every word of many domains pushed out in turn, each condition among them.
pub fn one_word(calls: &Calls, seed: u64, coverage: &mut Coverage) -> Result<String, String> {
    let mut counts = [0; CONDITIONS.len()];
    for index in 0..60 {
        let mut random = Random::new(seed ^ 0x0b10, index);
        let params = if index == 0 { Params::MOST } else { Params::random(&mut random) };
        let domain = arbitrary::domain(&mut random, params);
        broken_in_turn(calls, Rules::default(), &domain, &mut random, coverage, &mut counts)
            .map_err(|wrong| format!("seed {seed}, domain {index}, {params}: {wrong}"))?;
    }
    let least = counts.iter().min().expect("conditions");
    match least {
        0 => Err(format!("a condition was never broken: {counts:?} of {CONDITIONS:?}")),
        _ => Ok(format!(
            "{} words broken, each of {} conditions at least {least} times",
            counts.iter().sum::<u32>(),
            counts.len()
        )),
    }
}

/// Each word of a domain broken in turn: step, count and run all answer 3 and change nothing.
pub fn broken_in_turn(
    calls: &Calls,
    rules: Rules,
    domain: &Domain,
    random: &mut Random,
    coverage: &mut Coverage,
    counts: &mut [u32; CONDITIONS.len()],
) -> Result<(), String> {
    let good = words_of(domain);
    for broken in every_word(domain) {
        let mut words = good.clone();
        words[broken.index] = broken.value;
        refused(calls, rules, &words, any_step(random), coverage)
            .map_err(|wrong| format!("word {} = {} ({}): {wrong}", broken.index, broken.value, broken.condition))?;
        counts[CONDITIONS.iter().position(|&name| name == broken.condition).expect("a listed condition")] += 1;
    }
    Ok(())
}

/// Words that must be refused with 3 by every call.
fn refused(calls: &Calls, rules: Rules, words: &[u32], step: Step, coverage: &mut Coverage) -> Result<(), String> {
    let answer = on_words(calls, rules, words, step)?;
    coverage.on_words(answer);
    if answer != Answer::refused(3) {
        return Err(format!("{answer} by both, expected 3"));
    }
    let mut lent = Lent::new(words);
    let steps = [step.numbers(), Step::new(Kind::Tick, 0, 0, 0, 0).numbers()].concat();
    let mut answers = [7; 4];
    let taken = calls.run(lent.words_mut(), &steps, &mut answers);
    same("run", Answer { refusal: answers[0], value: answers[1] }, &lent, answer, words)?;
    match (taken, answers) {
        (true, [3, 0, 3, 0]) => Ok(()),
        _ => Err(format!("run: {taken}, {answers:?}")),
    }
}

fn any_step(random: &mut Random) -> Step {
    Step::new(*random.of(Kind::ALL), 0, 0, 0, random.word())
}

/// Well-formed words with one to three words replaced by small or large ones: the model says what they are.
pub fn some_words(
    calls: &Calls,
    rules: Rules,
    seed: u64,
    cases: u64,
    coverage: &mut Coverage,
) -> Result<String, String> {
    let mut still_good = 0;
    for index in 0..cases {
        let mut random = Random::new(seed ^ 0x5011, index);
        let params = Params::random(&mut random);
        let mut words = words_of(&arbitrary::domain(&mut random, params));
        for _ in 0..1 + random.below(3) {
            let place = random.below(words.len() as u32) as usize;
            words[place] = *random.of(&[0, 1, 2, 3, 4, 5, 8, params.nodes, params.processes, u32::MAX]);
        }
        let answer = on_words(calls, rules, &words, any_step(&mut random))
            .map_err(|wrong| format!("seed {seed}, case {index}: {wrong}"))?;
        coverage.on_words(answer);
        still_good += (answer.refusal != 3) as u64;
    }
    Ok(format!("{cases} cases, {still_good} of them still well formed"))
}

/// Slices that are short by any number of words, longer, or empty.
pub fn lengths(calls: &Calls, rules: Rules, seed: u64, coverage: &mut Coverage) -> Result<String, String> {
    let mut cases = 0;
    for index in 0..200 {
        let mut random = Random::new(seed ^ 0x1e47, index);
        let params = Params::random(&mut random);
        let mut words = words_of(&arbitrary::domain(&mut random, params));
        let count = words.len();
        words.extend([0; 5]);
        let shorter =
            [0, 1, 6, 7, 8, 9, 10, 11, word_count(Params::LEAST) - 1, count / 2, count - 5, count - 2, count - 1];
        let longer = [count + 1, count + 2, count + 5];
        for length in shorter.into_iter().chain(longer) {
            if length == count {
                continue;
            }
            refused(calls, rules, &words[..length], any_step(&mut random), coverage)
                .map_err(|wrong| format!("seed {seed}, {length} of {count} words: {wrong}"))?;
            cases += 1;
        }
    }
    Ok(format!("{cases} slices"))
}

/// No words at all: a null pointer with length 0.
pub fn nothing(calls: &Calls) -> Result<String, String> {
    let expected = ([2, 3, 3, 3].map(Answer::refused), Why::Refused(3).answer(), PortionAnswer::refused(3), true);
    match calls.on_nothing() {
        found if found == expected => {
            Ok("make 2, step 3, reachable 3 in one pass and in two, why 3, portion 3, an empty run taken".into())
        }
        found => Err(format!("{found:?}, expected {expected:?}")),
    }
}
