//! The rules of document 01 on records, written from the paper and from nothing else here.

pub mod domain;
mod effects;
pub mod mistake;
pub mod panel;
pub mod portion;
pub mod questions;
pub mod why;
pub mod words;

use crate::layout::{ANSWER, STEP};
use crate::params::Params;
use crate::step::{Answer, Kind, Step};
use domain::Domain;
use mistake::{Mistake, Rules};

pub struct Model {
    pub rules: Rules,
    pub domain: Domain,
}

impl Model {
    pub fn fresh(params: Params, rules: Rules) -> Model {
        Model { rules, domain: Domain::fresh(params) }
    }

    pub fn step(&mut self, step: Step) -> Answer {
        let refusal = self.refusal(step);
        match Kind::from_number(step.kind) {
            Some(kind) if refusal == 0 => Answer::accepted(self.act(kind, step)),
            _ => {
                if refusal == 11 && self.rules.have(Mistake::RefusedCheckClearsValidated) {
                    let process = &mut self.domain.processes[step.process as usize];
                    process.hazards[step.hazard as usize].validated = false;
                }
                Answer::refused(refusal)
            }
        }
    }

    /// T + E; a mistake counts E twice, and `without` leaves it out.
    fn delay(&self, without: Mistake) -> u32 {
        let times = match self.rules {
            rules if rules.have(without) => 0,
            rules if rules.have(Mistake::LatenessTwice) => 2,
            _ => 1,
        };
        let params = self.domain.params;
        Params { lateness: times * params.lateness, ..params }.delay()
    }
}

/// Takes a step on words, as the library does.
pub fn step_words(words: &mut Vec<u32>, step: Step, rules: Rules) -> Answer {
    let Some(domain) = words::decode(words, rules) else {
        return Answer::refused(3);
    };
    let mut model = Model { rules, domain };
    let answer = model.step(step);
    words::encode(&model.domain, words);
    answer
}

/// Takes steps on words, five numbers each, and writes their answers, two numbers each, as the library's run does. The words are read
/// once, before the first step, and written once, after the last. False, and nothing written, where the lengths do not fit.
pub fn run_words(words: &mut Vec<u32>, steps: &[u32], answers: &mut [u32], rules: Rules) -> bool {
    if !steps.len().is_multiple_of(STEP) || answers.len() != steps.len() / STEP * ANSWER {
        return false;
    }
    let mut model = words::decode(words, rules).map(|domain| Model { rules, domain });
    for (numbers, answer) in steps.chunks_exact(STEP).zip(answers.chunks_exact_mut(ANSWER)) {
        let step = Step::from_numbers(numbers.try_into().expect("five numbers"));
        let Answer { refusal, value } = model.as_mut().map_or(Answer::refused(3), |model| model.step(step));
        answer.copy_from_slice(&[refusal, value]);
    }
    if let Some(model) = model {
        words::encode(&model.domain, words);
    }
    true
}
