//! Request 8 in all orders of manages, joins, leaves, roll calls and turnovers of a single node, in small domains: on the fast path it is
//! freed within seven rounds. How many the slowest order takes is known by hand.

use super::case::{by, fresh, of, turnover};
use crate::library::Calls;
use crate::params::Params;
use crate::report::Report;
use crate::rounds::{Company, Rounds, Tally};
use crate::step::{Kind, Step};
use std::collections::HashSet;

/// N, Q, C, and the most rounds: of one process alone at the start, of the same processes, and where some joined or left. Somebody must be
/// behind as a node is retired for the seventh round to be needed, and nobody is where one is alone; another may leave in the sixth instead
/// of managing. If C = 1, a node waits on the fast path from a manage on by which the path is fast again; that of one alone acts too, which
/// saves a round.
const SIZES: [(u32, u32, u32, [usize; 3]); 9] = [
    (1, 1, 2, [6, 0, 0]),
    (1, 3, 2, [6, 0, 0]),
    (1, 1, 1, [5, 0, 0]),
    (2, 1, 2, [6, 7, 7]),
    (2, 3, 2, [6, 7, 7]),
    (2, 1, 1, [6, 7, 7]),
    (2, 2, 1, [6, 7, 7]),
    (3, 1, 2, [6, 7, 7]),
    (3, 1, 1, [6, 7, 7]),
];

pub fn all(report: &mut Report, calls: &Calls) {
    for (processes, threshold, fallback, most) in SIZES {
        let name = format!("rounds in all orders, N = {processes}, Q = {threshold}, C = {fallback}");
        let params = Params::of(&[processes, 1, 1, 1, threshold, fallback]);
        report.test(&name, || explored(calls, params, most));
    }
}

/// What may come next, each a list of steps.
fn turns(params: Params) -> Vec<Vec<Step>> {
    let of_each = |id| {
        let heirs = (0..params.processes).map(move |heir| vec![by(id, Kind::Leave, heir)]);
        [vec![by(id, Kind::Manage, 0)], vec![by(id, Kind::Join, 0)], turnover(id, 0, 70)].into_iter().chain(heirs)
    };
    (0..params.processes).flat_map(of_each).chain([vec![of(Kind::ClearPresence)]]).collect()
}

/// Takes every turn on all words, with their rounds, that turns lead to from a fresh domain.
fn explored(calls: &Calls, params: Params, most: [usize; 3]) -> Result<String, String> {
    let (turns, mut tally, words) = (turns(params), Tally::default(), fresh(params));
    let start = (Rounds::from(params, &words), words);
    let (mut met, mut to_do) = (HashSet::from([start.clone()]), vec![start]);
    while let Some(state) = to_do.pop() {
        for turn in &turns {
            let (mut rounds, mut words) = state.clone();
            for &step in turn {
                let answer = calls.step(&mut words, step);
                rounds.follow(step, answer, &words, &mut tally)?;
            }
            if met.insert((rounds.clone(), words.clone())) {
                to_do.push((rounds, words));
            }
        }
    }
    match Company::ALL.map(|company| tally.longest(company)) {
        found if found == most => Ok(format!("{} domains with their rounds, {tally}", met.len())),
        found => Err(format!("{found:?} rounds at most, expected {most:?}: {tally}")),
    }
}
