//! Request 8 by hand: in which round node 0, the only one, is freed; that it may wait for longer where a premise does not hold; and what
//! the rounds say of machines with a mistake. K = 1 throughout.

use super::case::{by, case, check, of, turnover, Case, PROCESS};
use super::round_runs::follow;
use crate::layout::{HEAD, PATH};
use crate::library::Calls;
use crate::model::mistake::{Mistake, Rules};
use crate::params::Params;
use crate::report::Report;
use crate::rounds::{Company, Rounds, Tally};
use crate::step::{Kind, Step};

pub fn all(report: &mut Report, calls: &Calls) {
    for by_hand in [tight(), alone(), premises(), joins(), others()].into_iter().flatten() {
        report.test(&format!("rounds by hand: {}", by_hand.case.name), || counted(calls, &by_hand));
    }
    report.test("rounds by hand: seven for every N above 1, six for N = 1", || every_size(calls));
    for mistake in [Mistake::AdvanceWaitsForOneMore, Mistake::CountsToOneMoreThanQ] {
        report.test(&format!("rounds by hand: still Retired after seven with {mistake:?}"), || late(mistake));
    }
    report.test("rounds by hand: freed in the second with FreesListOfBefore", early);
}

struct ByHand {
    case: Case,
    /// in which rounds the node is freed
    freed: Vec<usize>,
    /// how many rounds are over since it waits, if it does
    waits: Option<usize>,
}

/// The node is Retired after these steps, and so many rounds are over.
fn waits(name: &'static str, params: Params, steps: Vec<Step>, complete: usize) -> ByHand {
    let case = case(name, params, steps, &[], &[(state(params), 4)]);
    ByHand { case, freed: Vec::new(), waits: Some(complete) }
}

/// The last of these steps frees it, in this round.
fn freed(name: &'static str, params: Params, steps: Vec<Step>, round: usize) -> ByHand {
    let last = steps.len() - 1;
    let case = case(name, params, steps, &[(last, 0, 1)], &[(state(params), 0)]);
    ByHand { case, freed: vec![round], waits: None }
}

/// The word that is the node's state.
fn state(params: Params) -> usize {
    HEAD + params.processes as usize * PROCESS
}

fn manages(order: &[u32]) -> Vec<Step> {
    order.iter().map(|&process| by(process, Kind::Manage, 0)).collect()
}

/// Where Q = 1: process 0 comes to epoch 1 and retires the node to list 1, with the others at epoch 0.
fn ahead() -> Vec<Step> {
    [manages(&[0, 0]), turnover(0, 0, 70)].concat()
}

/// Rounds of two processes from there on: 0 does nothing, 1 comes to epoch 1; 1 moves it on, 0 comes to epoch 2; 0 does nothing, 1 comes to
/// it; 1 moves it on, 0 comes to epoch 0; 0 does nothing, 1 comes to it; 0 moves it on, 1 comes to epoch 1; 0 comes to it.
const ROUNDS: [[u32; 2]; 7] = [[0, 1], [1, 0], [0, 1], [1, 0], [0, 1], [0, 1], [0, 1]];

fn rounds(count: usize) -> Vec<Step> {
    [ahead(), manages(&ROUNDS[..count].concat())].concat()
}

fn tight() -> Vec<ByHand> {
    let params = Params::of(&[2, 1, 1, 3, 1, 2]);
    vec![
        waits("of two processes six leave it Retired", params, rounds(6), 6),
        freed("and the seventh frees it", params, [rounds(6), manages(&[0])].concat(), 7),
        among_refused(params),
    ]
}

/// A manage, a leave and a join that are refused after each round change nothing of it.
fn among_refused(params: Params) -> ByHand {
    let refused = [by(2, Kind::Manage, 0), by(0, Kind::Leave, 0), by(1, Kind::Join, 0)];
    let round = |order: &[u32; 2]| [manages(order), refused.to_vec()].concat();
    let steps = [ahead(), ROUNDS[..6].iter().flat_map(round).collect()].concat();
    let numbers = |round: usize| [(8, 5), (9, 22), (10, 20)].map(|(place, number)| (5 * round + place, number, 0));
    let mut among = waits("six with refused steps among them leave it Retired", params, steps, 6);
    among.case.answers = (0..6).flat_map(numbers).collect();
    among
}

fn alone() -> Vec<ByHand> {
    let (one, two) = (Params::of(&[1, 1, 1, 1, 3, 2]), Params::of(&[2, 1, 1, 1, 1, 2]));
    let managed = |count| [turnover(0, 0, 70), vec![of(Kind::Manage); count]].concat();
    let left = |count| [vec![by(1, Kind::Leave, 0)], managed(count)].concat();
    vec![
        waits("of one, with Q = 3, five leave it Retired", one, managed(15), 5),
        freed("and the sixth frees it", one, managed(18), 6),
        waits("of one while the other is absent five leave it Retired", two, left(5), 5),
        freed("and the sixth frees it there too", two, left(6), 6),
    ]
}

/// Seven stretches in which each process that is present at the start manages; but the path is not fast, the owner leaves, a process manages
/// less than Q times, or its manages are refused.
fn premises() -> Vec<ByHand> {
    let (params, twice) = (Params::of(&[2, 1, 1, 3, 1, 2]), Params::of(&[2, 1, 1, 3, 2, 2]));
    // all are at epoch 2, so the node passes to list 2
    let left = |alone| [rounds(3), vec![by(0, Kind::Leave, 1)], manages(&vec![1; alone])].concat();
    let mut over_leave = waits("seven with a leave in the third leave it Retired", params, left(4), 4);
    over_leave.case.after = (state(params)..).zip([4, 1, 70, 0, 2]).collect();
    let too_few = [turnover(0, 0, 70), manages(&[0, 1].repeat(7))].concat();
    vec![
        on_fallback(),
        over_leave,
        freed("and the sixth from there on frees it", params, left(6), 6),
        waits("seven with a manage less than Q = 2 each leave it Retired", twice, too_few, 3),
        refused(),
    ]
}

/// C = 1, so the retire falls back; and the processes are never seen present at once.
fn on_fallback() -> ByHand {
    let params = Params::of(&[2, 1, 1, 3, 1, 1]);
    let apart = [by(0, Kind::Manage, 0), of(Kind::ClearPresence), by(1, Kind::Manage, 0), of(Kind::ClearPresence)];
    let steps = [turnover(0, 0, 70), apart.repeat(7)].concat();
    let mut on_fallback = waits("seven on the fallback path leave it Retired", params, steps, 0);
    on_fallback.case.after.push((PATH, 1));
    on_fallback
}

/// Process 1 has a hazard assigned.
fn refused() -> ByHand {
    let shown = [of(Kind::Allocate), of(Kind::Publish), by(1, Kind::Protect, 0), of(Kind::Remove), of(Kind::Retire)];
    let steps = [shown.to_vec(), manages(&[0, 1].repeat(7))].concat();
    let mut refused = waits("seven with refused manages leave it Retired", Params::of(&[2, 1, 1, 3, 1, 2]), steps, 0);
    refused.case.answers = (0..7).map(|round| (6 + 2 * round, 17, 0)).collect();
    refused
}

/// Process 2 is absent, and joins in the second round, before the epoch moves on; that round does not wait for it, the later ones do. And of
/// two the one that is not the owner leaves in the sixth, without its manage.
fn joins() -> Vec<ByHand> {
    let params = Params::of(&[3, 1, 1, 3, 1, 2]);
    let first = [vec![by(2, Kind::Leave, 0)], rounds(1)].concat();
    let second = [vec![by(2, Kind::Join, 0)], manages(&[1, 0])].concat();
    let later = manages(&[[0, 2, 1], [1, 0, 2], [0, 2, 1], [0, 1, 2]].concat());
    let six = [first, second, later].concat();
    let seven = [six.clone(), manages(&[1, 2, 0])].concat();
    let other_leaves = [rounds(5), manages(&[0]), vec![by(1, Kind::Leave, 0)], manages(&[0])].concat();
    vec![
        waits("six with a join in the second leave it Retired", params, six, 6),
        freed("and the seventh frees it all the same", params, seven, 7),
        freed("and so where the other leaves in the sixth", Params::of(&[2, 1, 1, 3, 1, 2]), other_leaves, 7),
    ]
}

fn others() -> Vec<ByHand> {
    let (one, two) = (Params::of(&[1, 1, 1, 1, 1, 2]), Params::of(&[2, 1, 1, 1, 1, 2]));
    let portion = vec![of(Kind::Tick), of(Kind::Tick), Step::new(Kind::Portion, 0, 0, 0, 1)];
    let managed = |count| [turnover(0, 0, 70), vec![of(Kind::Manage); count]].concat();
    let mut again =
        waits("freed by the sixth, retired again: five leave it", one, [managed(6), managed(5)].concat(), 5);
    (again.case.answers, again.freed) = (vec![(9, 0, 1)], vec![6]);
    // C = 1: the retire falls back; the first manage switches back and moves the epoch on
    let back = Params::of(&[1, 1, 1, 1, 1, 1]);
    vec![
        freed("a portion frees it in the second", two, [rounds(1), portion].concat(), 2),
        again,
        freed("the fifth from a switch back on frees it", back, managed(6), 5),
    ]
}

/// Whether library and model answer as the case says, and the rounds end so.
fn counted(calls: &Calls, by_hand: &ByHand) -> Result<String, String> {
    let case = &by_hand.case;
    check(calls, case)?;
    let (mut words, mut tally) = (case.words.clone(), Tally::default());
    let params = Params::from_numbers(words[..Params::COUNT].try_into().expect("the parameters"));
    let mut rounds = Rounds::from(params, &words);
    for &step in &case.steps {
        let answer = calls.step(&mut words, step);
        rounds.follow(step, answer, &words, &mut tally)?;
    }
    match (freed_in(&tally), rounds.complete(0)) {
        (freed, waits) if freed == by_hand.freed && waits == by_hand.waits => Ok(format!("{} steps", case.steps.len())),
        found => Err(format!("{found:?}, expected {:?} and {:?}", by_hand.freed, by_hand.waits)),
    }
}

/// The rounds in which nodes were freed, each as often as that.
fn freed_in(tally: &Tally) -> Vec<usize> {
    let by_round = |company| (1..).zip(tally.by_round(company));
    let counts = Company::ALL.into_iter().flat_map(by_round);
    counts.flat_map(|(round, &count)| vec![round; count as usize]).collect()
}

/// Each process acts once a round, the owner first in a round by which the epoch moves on and last in the next: it comes to each epoch as
/// late as it may, and the last manage of all frees the node.
fn every_size(calls: &Calls) -> Result<String, String> {
    let sizes = (1..=16).flat_map(|processes| [1, 2, 3, 12].map(|threshold| (processes, threshold)));
    let sizes: Vec<_> = sizes.chain([(2, 1000)]).collect();
    for &(processes, threshold) in &sizes {
        let acts = |id| manages(&vec![id; threshold as usize]);
        let first: Vec<_> = (0..processes).flat_map(acts).collect();
        let last: Vec<_> = (1..processes).chain([0]).flat_map(acts).collect();
        let rounds = match processes {
            1 => vec![first; 6],
            _ => vec![first.clone(), first.clone(), last.clone(), first.clone(), last.clone(), first, last],
        };
        let steps = [acts(0), acts(0), turnover(0, 0, 70), rounds.concat()].concat();
        let params = Params::of(&[processes, 1, 1, 1, threshold, 2]);
        counted(calls, &freed("", params, steps, rounds.len())).map_err(|wrong| format!("{params}: {wrong}"))?;
    }
    Ok(format!("{} sizes", sizes.len()))
}

/// What the rounds say of seven rounds that are tight, by a machine with these rules, and in which the node was freed.
fn tight_by(rules: Rules) -> (Result<(), String>, Vec<usize>) {
    let mut tally = Tally::default();
    let followed = follow(rules, Params::of(&[2, 1, 1, 3, 1, 2]), &rounds(7), &mut tally);
    (followed, freed_in(&tally))
}

fn late(mistake: Mistake) -> Result<String, String> {
    let expected = "step 19 (12 1 0 0 0): node 0 is still Retired after 7 rounds";
    match (tight_by(Rules::default()), tight_by(Rules::with(mistake))) {
        ((Ok(()), freed), (Err(late), none)) if freed == [7] && none.is_empty() && late == expected => Ok(late),
        other => Err(format!("{other:?}")),
    }
}

/// Process 0 comes to epoch 2 and frees list 1, so the rounds have nothing against it; but a claim may still be there.
fn early() -> Result<String, String> {
    match tight_by(Rules::with(Mistake::FreesListOfBefore)) {
        (Ok(()), freed) if freed == [2] => Ok("the rounds do not see it, the reference does".into()),
        other => Err(format!("{other:?}")),
    }
}
