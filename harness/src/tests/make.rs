//! qsense_length and qsense_make.

use crate::compare::same;
use crate::layout::word_count;
use crate::library::{Calls, Lent};
use crate::model::domain::Domain;
use crate::model::words::encode;
use crate::params::Params;
use crate::random::Random;
use crate::step::Answer;

/// Every shape in range, and numbers out of range in each place.
pub fn length(calls: &Calls) -> Result<String, String> {
    let outside = [0, 17, 257, 65_536, 1 << 31, u32::MAX - 8, u32::MAX];
    let numbers = |limit: u32| (1..=limit).chain(outside.into_iter().filter(move |&x| x == 0 || x > limit));
    let mut cases = 0;
    for n in numbers(Params::MOST.processes) {
        for k in numbers(Params::MOST.hazards) {
            for m in numbers(Params::MOST.nodes) {
                let params = Params { processes: n, hazards: k, nodes: m, ..Params::LEAST };
                let expected = if params.in_range() { word_count(params) as u32 } else { 0 };
                let found = calls.length(n, k, m);
                if found != expected {
                    return Err(format!("length({n}, {k}, {m}) is {found}, expected {expected}"));
                }
                cases += 1;
            }
        }
    }
    Ok(format!("{cases} shapes"))
}

/// Parameters in and out of range with slices of right and wrong lengths.
pub fn make(calls: &Calls, seed: u64) -> Result<String, String> {
    let mut answers = [0; 3];
    for index in 0..20_000 {
        let mut random = Random::new(seed ^ 0x3a4e, index);
        let params = some_params(&mut random);
        let right =
            if params.in_range() { word_count(params) } else { word_count(Params::LEAST) + random.below(400) as usize };
        let length = match random.below(4) {
            0 => *random.of(&[0, 1, 7, 9, 10, right - 1, right + 1, right + 5]),
            _ => right,
        };
        let answer = one(calls, params, &vec![random.word(); length])
            .map_err(|wrong| format!("seed {seed}, case {index}, {params}, {length} words: {wrong}"))?;
        answers[answer.refusal as usize] += 1;
    }
    match answers.iter().all(|&count| count > 1000) {
        true => Ok(format!("{} made, {} refused with 1, {} with 2", answers[0], answers[1], answers[2])),
        false => Err(format!("too few of an answer: {answers:?}")),
    }
}

fn some_params(random: &mut Random) -> Params {
    let mut numbers = Params::random(random).numbers();
    if random.chance(30) {
        let place = random.below(Params::COUNT as u32) as usize;
        let most = Params::MOST.numbers()[place];
        numbers[place] = *random.of(&[0, 1, most, most + 1, 1 << 31, u32::MAX]);
    }
    Params::from_numbers(numbers)
}

fn one(calls: &Calls, params: Params, before: &[u32]) -> Result<Answer, String> {
    let mut lent = Lent::new(before);
    let mut expected = before.to_vec();
    let expected_answer = match params.in_range() {
        false => Answer::refused(1),
        true if before.len() != word_count(params) => Answer::refused(2),
        true => {
            encode(&Domain::fresh(params), &mut expected);
            Answer::accepted(0)
        }
    };
    let answer = calls.make(lent.words_mut(), params);
    same("make", answer, &lent, expected_answer, &expected)?;
    Ok(answer)
}
