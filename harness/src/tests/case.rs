//! A case with answers and words written by hand from the papers: tried on the library and on the model.

use crate::layout::{
    process_start, word_count, BUFFER, HAZARD, HEAD, LEAD, LEAD_CALLS, LEAD_PRESENCE, LEAD_PRESENT, LEAD_STORES, NODE,
    PATH, STORE,
};
use crate::library::Calls;
use crate::model::mistake::Rules;
use crate::model::step_words;
use crate::params::Params;
use crate::report::Report;
use crate::step::{Answer, Kind, Step};

pub struct Case {
    pub name: &'static str,
    pub words: Vec<u32>,
    pub steps: Vec<Step>,
    /// the answers that are not (0, 0): number of the step, refusal, value
    pub answers: Vec<(usize, u32, u32)>,
    /// words afterwards: index, value
    pub after: Vec<(usize, u32)>,
}

pub const EPOCH: usize = PATH + 1;
// of process 0 where K = 1
pub const CALLS: usize = HEAD + LEAD_CALLS;
pub const PRESENCE: usize = HEAD + LEAD_PRESENCE;
pub const PENDING: usize = HEAD + LEAD_STORES;
pub const ASSIGNED: usize = HEAD + LEAD + 1;
pub const VALIDATED: usize = HEAD + LEAD + 2;
pub const FIRST_STORE: usize = HEAD + LEAD + HAZARD;
// of a process where K = 1: all its words
pub const PROCESS: usize = LEAD + HAZARD + STORE * BUFFER;
// of nodes where N = K = 1: its state
pub const NODES: [usize; 2] = [HEAD + PROCESS, HEAD + PROCESS + NODE];
// of nodes where N = 2 and K = 1: the state of the first
pub const NODES_OF_TWO: usize = HEAD + 2 * PROCESS;

pub fn tried(report: &mut Report, calls: &Calls, cases: impl IntoIterator<Item = Case>) {
    for case in cases {
        report.test(&format!("edge: {}", case.name), || check(calls, &case));
    }
}

pub fn check(calls: &Calls, case: &Case) -> Result<String, String> {
    let mut words = case.words.clone();
    holds("library", case, &mut words, |words, step| calls.step(words, step))?;
    let mut words = case.words.clone();
    holds("model", case, &mut words, |words, step| step_words(words, step, Rules::default()))?;
    Ok(format!("{} steps", case.steps.len()))
}

fn holds(
    who: &str,
    case: &Case,
    words: &mut Vec<u32>,
    mut take: impl FnMut(&mut Vec<u32>, Step) -> Answer,
) -> Result<(), String> {
    for (number, &step) in case.steps.iter().enumerate() {
        let special = case.answers.iter().find(|answer| answer.0 == number);
        let expected = special.map_or(Answer::accepted(0), |&(_, refusal, value)| Answer { refusal, value });
        let answer = take(words, step);
        if answer != expected {
            return Err(format!("{who}, step {number}: {answer}, expected {expected}"));
        }
    }
    match case.after.iter().find(|&&(index, value)| words[index] != value) {
        Some(&(index, value)) => Err(format!("{who}: word {index} is {}, expected {value}", words[index])),
        None => Ok(()),
    }
}

pub fn fresh(params: Params) -> Vec<u32> {
    let mut words = params.numbers().to_vec();
    words.resize(word_count(params), 0);
    for process in 0..params.processes as usize {
        words[process_start(params, process) + LEAD_PRESENT] = 1;
    }
    words
}

pub fn of(kind: Kind) -> Step {
    by(0, kind, 0)
}

pub fn by(process: u32, kind: Kind, node: u32) -> Step {
    Step::new(kind, process, 0, node, 0)
}

/// A node from Free to Retired.
pub fn turnover(process: u32, node: u32, guest: u32) -> Vec<Step> {
    let kinds = [Kind::Allocate, Kind::Publish, Kind::Remove, Kind::Retire];
    kinds.map(|kind| Step::new(kind, process, 0, node, guest)).to_vec()
}

/// Node 0 retired at clock 0, then ticks, then a retire of node 1, which scans, where C = 1.
pub fn scan_after(ticks: usize) -> Vec<Step> {
    [turnover(0, 0, 70), vec![of(Kind::Tick); ticks], turnover(0, 1, 60)].concat()
}

/// A case from a fresh domain.
pub fn case(
    name: &'static str,
    params: Params,
    steps: Vec<Step>,
    answers: &[(usize, u32, u32)],
    after: &[(usize, u32)],
) -> Case {
    Case { name, words: fresh(params), steps, answers: answers.to_vec(), after: after.to_vec() }
}

/// A case in which every word is looked at afterwards.
pub fn whole(
    name: &'static str,
    words: Vec<u32>,
    steps: &[Step],
    answers: &[(usize, u32, u32)],
    after: Vec<u32>,
) -> Case {
    Case {
        name,
        words,
        steps: steps.to_vec(),
        answers: answers.to_vec(),
        after: after.into_iter().enumerate().collect(),
    }
}
