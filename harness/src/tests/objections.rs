//! Schedules by hand, each for a mistake that random ones seldom show: the reference objects to a machine that makes it, and follows one
//! that does not.

use super::case::{by, of, turnover};
use crate::compare::counted;
use crate::model::mistake::{Mistake, Rules};
use crate::model::{words, Model};
use crate::params::Params;
use crate::reference::Reference;
use crate::step::{Kind, Step};

/// The schedule for a mistake, if it has one. Node 0 is claimed, retired, and freed under the claim; Q = 1, so every manage acts.
pub fn by_hand(mistake: Mistake) -> Option<(Params, Vec<Step>)> {
    let (two, three) = (Params::of(&[2, 1, 1, 1, 1, 2]), Params::of(&[3, 1, 1, 1, 1, 2]));
    match mistake {
        Mistake::FreesListOfBefore => Some((two, claimed_an_epoch_on())),
        Mistake::AbsentMayAct => Some((two, absent_claims())),
        Mistake::LeaveWithAssigned => Some((two, leaver_claims())),
        Mistake::JoinKeepsEpoch => Some((two, joined_behind())),
        Mistake::LeaveKeepsLimbo => Some((three, handed_to_one_behind())),
        Mistake::LeaveToAbsent => Some((three, handed_to_absent())),
        Mistake::ScanWithoutLateness => Some((Params::of(&[2, 1, 2, 1, 1, 1, 1]), flushed_late())),
        _ => None,
    }
}

fn steps(list: &[(u32, Kind)]) -> Vec<Step> {
    list.iter().map(|&(process, kind)| by(process, kind, 0)).collect()
}

use Kind::*;

/// Process 1 claims at epoch 0. Process 0 retires to list 0 and comes to epoch 1.
fn claimed_an_epoch_on() -> Vec<Step> {
    let claimed = [(0, Allocate), (0, Publish), (1, Protect), (1, Check), (0, Remove), (0, Retire)];
    steps(&[&claimed[..], &[(0, Manage), (0, Manage)]].concat())
}

/// Process 1 is absent, so the epochs do not wait for its claim.
fn absent_claims() -> Vec<Step> {
    let claimed = [(1, Leave), (0, Allocate), (0, Publish), (1, Protect), (1, Check), (0, Remove), (0, Retire)];
    [steps(&claimed), vec![of(Manage); 6]].concat()
}

/// The same, but process 1 leaves with its claim.
fn leaver_claims() -> Vec<Step> {
    let claimed =
        [(0, Allocate), (0, Publish), (1, Protect), (1, Check), (1, Flush), (1, Leave), (0, Remove), (0, Retire)];
    [steps(&claimed), vec![of(Manage); 6]].concat()
}

/// Process 0 comes to epoch 2 and claims. Process 1 joins with epoch 0, retires to list 0, comes to epoch 2 and then to 0.
fn joined_behind() -> Vec<Step> {
    let claimed = steps(&[(0, Allocate), (0, Publish), (0, Protect), (0, Check)]);
    let retired = steps(&[(1, Join), (1, Remove), (1, Retire)]);
    [steps(&[(1, Leave)]), vec![of(Manage); 4], claimed, retired, vec![by(1, Manage, 0); 3]].concat()
}

/// Process 2 claims at epoch 0. Process 1 comes to epoch 1, retires to list 1 and leaves to process 0, which comes to epoch 1 after that.
fn handed_to_one_behind() -> Vec<Step> {
    let claimed = [(0, Allocate), (0, Publish), (2, Protect), (2, Check)];
    let handed = [(1, Manage), (1, Manage), (1, Remove), (1, Retire), (1, Leave), (0, Manage)];
    steps(&[&claimed[..], &handed[..]].concat())
}

/// Process 0 is absent, with epoch 0. Process 2 claims at epoch 2; process 1 retires and leaves to process 0, so to list 0; that joins at
/// epoch 2 and comes to epoch 0.
fn handed_to_absent() -> Vec<Step> {
    let epoch_two = [(1, Manage), (1, Manage), (2, Manage), (1, Manage), (1, Manage), (2, Manage)];
    let claimed = [(1, Allocate), (1, Publish), (2, Protect), (2, Check), (1, Remove), (1, Retire)];
    let handed = [(1, Leave), (0, Join), (0, Manage), (0, Manage)];
    [vec![by(0, Leave, 1)], steps(&epoch_two), steps(&claimed), steps(&handed)].concat()
}

/// Process 1 claims, and its store is still pending after T + E = 2 ticks; process 0 scans then, when node 0 is 2 ticks old.
fn flushed_late() -> Vec<Step> {
    let claimed = [(0, Allocate), (0, Publish), (1, Protect), (1, Check), (0, Remove), (0, Retire)];
    [steps(&claimed), vec![of(Tick); 2], turnover(0, 1, 60)].concat()
}

/// What the reference says of a machine by these rules on a schedule, with the number of the step, or that the panel's number is wrong.
fn objection(rules: Rules, params: Params, schedule: &[Step]) -> Option<(usize, String)> {
    let (mut model, mut reference, mut panel) = (Model::fresh(params, rules), Reference::new(params), 0);
    schedule.iter().enumerate().find_map(|(number, &step)| {
        let answer = model.step(step);
        panel = counted(panel, step, answer);
        if model.domain.reachable() != panel {
            return Some((number, format!("the panel shows {}, not {panel}", model.domain.reachable())));
        }
        let followed = reference.follow(step, answer, &words::words_of(&model.domain));
        followed.err().map(|objection| (number, objection))
    })
}

/// Whether the reference objects to the mistake at the last step, because node 0 is freed under a claim, and follows the rules to the end;
/// the panel's number is right with both.
pub fn tried(mistake: Mistake, params: Params, schedule: &[Step]) -> Result<String, String> {
    if let Some((number, objection)) = objection(Rules::default(), params, schedule) {
        return Err(format!("without the mistake, at step {number}, {objection}"));
    }
    let expected = (schedule.len() - 1, "node 0 was freed under a process that has validated it".to_string());
    match objection(Rules::with(mistake), params, schedule) {
        Some(found) if found == expected => Ok(format!("at step {}, {}", found.0, found.1)),
        other => Err(format!("{other:?}, expected {expected:?}")),
    }
}
