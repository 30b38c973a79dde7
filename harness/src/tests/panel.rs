//! The panel's number on domains made by hand, in one pass over the nodes and in two: what it is follows from how they are made.

use crate::compare::same;
use crate::layout::{node_start, NODE};
use crate::library::{Calls, Lent};
use crate::model::domain::{Domain, Node};
use crate::model::words::words_of;
use crate::params::Params;
use crate::random::Random;
use crate::report::Report;
use crate::step::Answer;

/// N and K: the least and the greatest.
const SHAPES: [[u32; 2]; 2] = [[1, 1], [16, 8]];
const CLOCK: u32 = 9;

pub fn all(report: &mut Report, calls: &Calls, seed: u64) {
    report.test("panel: every number of nodes", || sizes(calls));
    report.test("panel: a malformed node at every place", || one_malformed(calls));
    report.test("panel: two malformed nodes", || two_malformed(calls, seed, 4_000));
}

/// The words of a domain in which the nodes at these places are Reachable and the others in every other state in turn.
fn words_where(params: Params, is_reachable: impl Fn(u32) -> bool) -> Vec<u32> {
    let mut domain = Domain { clock: CLOCK, ..Domain::fresh(params) };
    let (owner, guest) = (params.processes - 1, 70);
    let others = [
        Node::Free,
        Node::Allocated { owner, guest },
        Node::Removed { owner, guest },
        Node::Retired { owner, guest, retired_at: CLOCK, limbo: 2 },
    ];
    for (place, node) in (0..).zip(&mut domain.nodes) {
        *node = if is_reachable(place) { Node::Reachable { guest } } else { others[place as usize % 4].clone() };
    }
    words_of(&domain)
}

/// Both calls answer so, and change nothing.
fn answered(calls: &Calls, words: &[u32], expected: Answer) -> Result<(), String> {
    let lent = Lent::new(words);
    calls.panel(lent.words()).into_iter().try_for_each(|(call, answer)| same(call, answer, &lent, expected, words))
}

/// All nodes Reachable, none, only the first, only the last, every second; with every number of nodes.
fn sizes(calls: &Calls) -> Result<String, String> {
    let mut domains = 0;
    for [n, k] in SHAPES {
        for m in 1..=Params::MOST.nodes {
            let params = Params::of(&[n, k, m]);
            let tried = |what: &str, words: Vec<u32>, count| {
                answered(calls, &words, Answer::accepted(count)).map_err(|wrong| format!("{params}, {what}: {wrong}"))
            };
            tried("all", words_where(params, |_| true), m)?;
            tried("none", words_where(params, |_| false), 0)?;
            tried("only the first", words_where(params, |place| place == 0), 1)?;
            tried("only the last", words_where(params, |place| place == m - 1), 1)?;
            tried("every second", words_where(params, |place| place % 2 == 1), m / 2)?;
            domains += 5;
        }
    }
    Ok(format!("{domains} domains"))
}

/// The words of malformed nodes where there are so many processes: of no state, an owned Reachable one, a Free one with a guest.
fn malformed(processes: u32) -> [[u32; NODE]; 4] {
    [[5, 0, 0, 0, 0], [u32::MAX, 0, 0, 0, 0], [2, processes, 70, 0, 0], [0, 0, 70, 0, 0]]
}

fn put(words: &mut [u32], params: Params, place: u32, node: [u32; NODE]) {
    words[node_start(params, place as usize)..][..NODE].copy_from_slice(&node);
}

/// Each malformed node at each place of small domains and of the greatest; all others are Reachable, or only those after it.
fn one_malformed(calls: &Calls) -> Result<String, String> {
    let mut cases = 0;
    for [n, k] in SHAPES {
        for m in (1..=20).chain([Params::MOST.nodes]) {
            let params = Params::of(&[n, k, m]);
            for place in 0..m {
                for mut start in [words_where(params, |_| true), words_where(params, |other| other > place)] {
                    for node in malformed(n) {
                        put(&mut start, params, place, node);
                        answered(calls, &start, Answer::refused(3))
                            .map_err(|wrong| format!("{params}, node {place} {node:?}: {wrong}"))?;
                        cases += 1;
                    }
                }
            }
        }
    }
    Ok(format!("{cases} cases"))
}

/// Two malformed nodes at random places; the others are Reachable or not at random.
fn two_malformed(calls: &Calls, seed: u64, cases: u64) -> Result<String, String> {
    for case in 0..cases {
        let random = &mut Random::new(seed ^ 0x9a2e, case);
        let [n, k] = *random.of(&SHAPES);
        let m = 2 + random.up_to(Params::MOST.nodes - 2);
        let (params, first) = (Params::of(&[n, k, m]), random.below(m));
        let second = (first + 1 + random.below(m - 1)) % m;
        let pattern: Vec<bool> = (0..m).map(|_| random.chance(50)).collect();
        let mut words = words_where(params, |place| pattern[place as usize]);
        for place in [first, second] {
            put(&mut words, params, place, *random.of(&malformed(n)));
        }
        answered(calls, &words, Answer::refused(3))
            .map_err(|wrong| format!("seed {seed}, case {case}, {params}, nodes {first} and {second}: {wrong}"))?;
    }
    Ok(format!("{cases} cases"))
}
