//! Request 7: a scan in portions, on domains made by hand, with the five numbers and the nodes that are freed written by hand from the
//! papers. Unless a case says otherwise T = 3 and the clock is 9, so nodes retired at 5 or earlier are old, and those at 6 or later young.

use super::made::{domain, retired, show, store};
use crate::compare::{same, same_portion};
use crate::layout::{node_start, NODE};
use crate::library::{Calls, Lent};
use crate::model::domain::{Domain, Node, Path};
use crate::model::mistake::Rules;
use crate::model::portion::portion_words;
use crate::model::step_words;
use crate::model::words::words_of;
use crate::params::Params;
use crate::portion::{Portion, PortionAnswer};
use crate::report::Report;
use crate::step::{Answer, Kind, Step};

/// Process, start and limit; then refusal, freed, examined, next and left; then the nodes that are freed.
type Asked = ([u32; 3], [u32; 5], Vec<u32>);

struct Case {
    name: &'static str,
    words: Vec<u32>,
    /// where the nodes start
    nodes: usize,
    /// each asked of the same words
    asked: Vec<Asked>,
}

pub fn all(report: &mut Report, calls: &Calls) {
    let ends = [ends(), last_nodes(), greatest()];
    let freed = [ages(), last_clocks(), lists(), hazards(), own_stores(), absent(), paths()];
    for case in ends.into_iter().chain(freed).chain([refused(), malformed()]).flatten() {
        report.test(&format!("portion: {}", case.name), || check(calls, &case));
    }
    report.test("portion: kind 18 gets 4, whatever else is wrong", || unknown(calls));
}

fn check(calls: &Calls, case: &Case) -> Result<String, String> {
    for (asked, numbers, freed) in &case.asked {
        let (asked, expected) = (Portion::new(asked[0], asked[1], asked[2]), PortionAnswer::from_numbers(*numbers));
        let mut after = case.words.clone();
        freed.iter().for_each(|&id| after[case.nodes + NODE * id as usize..][..NODE].fill(0));
        same_portion(calls, &case.words, asked, expected, &after).map_err(|wrong| format!("library, {wrong}"))?;
        by_model(case, asked, expected, &after).map_err(|wrong| format!("model, {asked}: {wrong}"))?;
        let (unread, mut lent) = (Step { hazard: u32::MAX, ..asked.step() }, Lent::new(&case.words));
        same(&format!("{asked}, any hazard"), calls.step(lent.words_mut(), unread), &lent, expected.as_step(), &after)?;
    }
    Ok(format!("{} asked", case.asked.len()))
}

fn by_model(case: &Case, asked: Portion, expected: PortionAnswer, after: &[u32]) -> Result<(), String> {
    let (mut words, mut stepped) = (case.words.clone(), case.words.clone());
    let found = portion_words(&mut words, asked, Rules::default());
    let answer = step_words(&mut stepped, asked.step(), Rules::default());
    match (found == expected, answer == expected.as_step(), words == after, stepped == after) {
        (true, true, true, true) => Ok(()),
        _ => Err(format!("{found}, as a step {answer}, expected {expected}; the words: {}", words == after)),
    }
}

fn case(name: &'static str, domain: &Domain, asked: &[Asked]) -> Case {
    Case { name, words: words_of(domain), nodes: node_start(domain.params, 0), asked: asked.to_vec() }
}

/// Accepted, with freed, examined, next and left; freed is how many are named.
fn taken(asked: [u32; 3], [examined, next, left]: [u32; 3], freed: &[u32]) -> Asked {
    (asked, [0, freed.len() as u32, examined, next, left], freed.to_vec())
}

fn turned_away(asked: [u32; 3], number: u32) -> Asked {
    (asked, [number, 0, 0, 0, 0], Vec::new())
}

/// Retired are nodes 0, 2 and 4, of process 0, and 3, of process 1. Nodes 1 and 5, the last, are of process 0 too, Removed and Allocated.
fn ends() -> Vec<Case> {
    let (old, other) = (retired(0, 5), retired(1, 5));
    let (removed, allocated) = (Node::Removed { owner: 0, guest: 70 }, Node::Allocated { owner: 0, guest: 70 });
    let made = domain(&[2, 1, 6, 3], 9, &[old.clone(), removed, old.clone(), other, old, allocated]);
    let all_met =
        [taken([0, 0, 1], [1, 1, 2], &[0]), taken([0, 0, 2], [2, 3, 1], &[0, 2]), taken([0, 1, 1], [1, 3, 1], &[2])];
    let last_met = [
        taken([0, 0, 3], [3, 5, 0], &[0, 2, 4]),
        taken([0, 1, 2], [2, 5, 0], &[2, 4]),
        taken([0, 3, 1], [1, 5, 0], &[4]),
        taken([1, 0, 1], [1, 4, 0], &[3]),
    ];
    let fewer_met = [
        taken([0, 0, 4], [3, 6, 0], &[0, 2, 4]),
        taken([0, 0, 256], [3, 6, 0], &[0, 2, 4]),
        taken([0, 3, 2], [1, 6, 0], &[4]),
        taken([1, 0, 2], [1, 6, 0], &[3]),
    ];
    let [from_last, from_four] = [[0, 5, 1], [1, 4, 256]].map(|asked| taken(asked, [0, 6, 0], &[]));
    let fresh = [[0, 0, 1], [1, 0, 256], [1, 5, 1]].map(|asked| taken(asked, [0, 6, 0], &[]));
    vec![
        case("the L-th is met, and the next node comes after it", &made, &all_met),
        case("the L-th is the last Retired one of the process, and not the last node", &made, &last_met),
        case("fewer than L are met: M", &made, &fewer_met),
        case("none at all is met: M", &made, &[from_last, from_four]),
        case("none in a fresh domain", &domain(&[2, 1, 6, 3], 9, &[]), &fresh),
    ]
}

/// The L-th is node M - 1.
fn last_nodes() -> Vec<Case> {
    let made = domain(&[1, 1, 4, 3], 9, &[Node::Free, retired(0, 5), Node::Free, retired(0, 5)]);
    let [one, free] = [&[retired(0, 5)], &[Node::Free]].map(|nodes| domain(&[1, 1, 1, 3], 9, nodes));
    vec![
        case(
            "the L-th is the last node: M",
            &made,
            &[
                taken([0, 0, 2], [2, 4, 0], &[1, 3]),
                taken([0, 1, 2], [2, 4, 0], &[1, 3]),
                taken([0, 2, 1], [1, 4, 0], &[3]),
                taken([0, 0, 1], [1, 2, 1], &[1]),
            ],
        ),
        case("from the last node", &made, &[taken([0, 3, 1], [1, 4, 0], &[3]), taken([0, 3, 2], [1, 4, 0], &[3])]),
        case("M = 1, Retired", &one, &[taken([0, 0, 1], [1, 1, 0], &[0]), taken([0, 0, 2], [1, 1, 0], &[0])]),
        case("M = 1, Free", &free, &[taken([0, 0, 1], [0, 1, 0], &[]), taken([0, 0, 256], [0, 1, 0], &[])]),
    ]
}

/// 256 nodes of process 15.
fn greatest() -> Vec<Case> {
    let mut made = domain(&[16, 8, 256, 3], 9, &vec![retired(15, 5); 256]);
    let all: Vec<u32> = (0..256).collect();
    let full = case(
        "256 nodes",
        &made,
        &[
            taken([15, 0, 256], [256, 256, 0], &all),
            taken([15, 0, 255], [255, 255, 1], &all[..255]),
            taken([15, 0, 1], [1, 1, 255], &all[..1]),
            taken([15, 1, 256], [255, 256, 0], &all[1..]),
            taken([15, 128, 64], [64, 192, 64], &all[128..192]),
            taken([15, 255, 256], [1, 256, 0], &all[255..]),
            taken([0, 0, 256], [0, 256, 0], &[]),
            taken([14, 255, 1], [0, 256, 0], &[]),
        ],
    );
    show(&mut made, 0, 0, 0);
    show(&mut made, 14, 7, 255);
    (0..8).for_each(|hazard| store(&mut made, 15, hazard, Some(240 + hazard)));
    let ends = taken([15, 248, 8], [8, 256, 0], &all[248..255]);
    let stored = taken([15, 239, 9], [9, 248, 8], &all[239..240]);
    vec![
        full,
        case(
            "its first and its last hazard, and a full buffer",
            &made,
            &[taken([15, 0, 2], [2, 2, 254], &[1]), ends, stored],
        ),
    ]
}

/// Freed is what is older than T + E; what is not is examined, and kept.
fn ages() -> Vec<Case> {
    let at = |params: &[u32], clock, times: &[u32]| {
        let nodes: Vec<Node> = times.iter().map(|&time| retired(0, time)).collect();
        domain(params, clock, &nodes)
    };
    let late = at(&[1, 1, 4, 3, 1, 1, 2], 9, &[9, 4, 3, 0]);
    let greatest = at(&[1, 1, 3, 1000, 1, 1, 1000], 2001, &[2001, 1, 0]);
    vec![
        case(
            "T = 3, E = 2, ages 0, 5, 6 and 9",
            &late,
            &[
                taken([0, 0, 256], [4, 4, 0], &[2, 3]),
                taken([0, 0, 2], [2, 2, 2], &[]),
                taken([0, 1, 2], [2, 3, 1], &[2]),
                taken([0, 0, 3], [3, 3, 1], &[2]),
            ],
        ),
        case(
            "T = 3, ages 0, 3 and 4",
            &at(&[1, 1, 3, 3], 9, &[9, 6, 5]),
            &[taken([0, 0, 3], [3, 3, 0], &[2]), taken([0, 0, 2], [2, 2, 1], &[])],
        ),
        case("T = E = 1000, ages 0, 2000 and 2001", &greatest, &[taken([0, 0, 256], [3, 3, 0], &[2])]),
        case("T = 1, a node retired at clock 0", &at(&[1, 1, 1], 0, &[0]), &[taken([0, 0, 1], [1, 1, 0], &[])]),
    ]
}

fn last_clocks() -> Vec<Case> {
    let last = u32::MAX;
    let times = [last, last - 2000, last - 2001, 0];
    let made = domain(&[1, 1, 4, 1000, 1, 1, 1000], last, &times.map(|time| retired(0, time)));
    vec![case("the last clock", &made, &[taken([0, 0, 4], [4, 4, 0], &[2, 3]), taken([0, 0, 3], [3, 3, 1], &[2])])]
}

/// Nodes of all three limbo lists and of any guest.
fn lists() -> Vec<Case> {
    let node = |limbo, guest| Node::Retired { owner: 0, guest, retired_at: 0, limbo };
    let mut made = domain(&[2, 1, 3, 3], 9, &[node(1, 0), node(2, u32::MAX), node(0, 71)]);
    (made.epoch, made.processes[0].epoch) = (1, 2);
    vec![case(
        "all three limbo lists",
        &made,
        &[taken([0, 0, 2], [2, 2, 1], &[0, 1]), taken([0, 1, 9], [2, 3, 0], &[1, 2])],
    )]
}

/// All nodes are of process 0. Visible are 0, 2 and 4; 1 and 3 are only assigned or pending elsewhere.
fn hazards() -> Vec<Case> {
    let mut made = domain(&[3, 2, 6, 3], 9, &vec![retired(0, 0); 6]);
    show(&mut made, 0, 0, 0);
    show(&mut made, 1, 1, 2);
    show(&mut made, 2, 0, 4);
    made.processes[1].hazards[0].assigned = Some(1);
    store(&mut made, 1, 0, Some(1));
    store(&mut made, 2, 1, Some(3));
    vec![case(
        "what is visible is examined and kept; what others have assigned or pending is not visible",
        &made,
        &[
            taken([0, 0, 256], [6, 6, 0], &[1, 3, 5]),
            taken([0, 2, 1], [1, 3, 3], &[]),
            taken([0, 2, 2], [2, 4, 2], &[3]),
            taken([0, 4, 1], [1, 5, 1], &[]),
            taken([1, 0, 256], [0, 6, 0], &[]),
        ],
    )]
}

/// The scanning process, 0, sees its own hazards as it has last stored them.
fn own_stores() -> Vec<Case> {
    let mut made = domain(&[2, 2, 5, 3], 9, &vec![retired(0, 0); 5]);
    show(&mut made, 0, 0, 0);
    store(&mut made, 0, 0, None);
    store(&mut made, 0, 1, Some(1));
    store(&mut made, 0, 1, Some(2));
    show(&mut made, 1, 0, 3);
    store(&mut made, 1, 0, None);
    let asked = [taken([0, 0, 256], [5, 5, 0], &[0, 1, 4]), taken([0, 0, 1], [1, 1, 4], &[0])];
    let mut shown = made.clone();
    show(&mut shown, 1, 1, 0);
    vec![
        case(
            "an own pending clear frees, the last own pending store keeps, another's clear does not free",
            &made,
            &asked,
        ),
        case("a clear of its own, and another's hazard still", &shown, &[taken([0, 0, 2], [2, 2, 3], &[1])]),
    ]
}

/// What an absent process shows is kept for others.
fn absent() -> Vec<Case> {
    let mut made = domain(&[2, 1, 3, 3], 9, &[retired(0, 0), retired(0, 0), retired(1, 0)]);
    made.processes[1].present = false;
    show(&mut made, 1, 0, 0);
    vec![case(
        "an absent process's hazard keeps",
        &made,
        &[taken([0, 0, 2], [2, 2, 0], &[1]), turned_away([1, 2, 1], 20)],
    )]
}

/// Neither path makes a difference; C = 1 switches none, and presence stays.
fn paths() -> Vec<Case> {
    [("on the fast path", Path::Fast), ("on the fallback path", Path::Fallback)]
        .map(|(name, path)| {
            let nodes = [retired(0, 5), retired(0, 6), retired(0, 0), retired(1, 0)];
            let mut made = Domain { path, epoch: 2, ..domain(&[2, 1, 5, 3, 2, 1], 9, &nodes) };
            made.processes.iter_mut().for_each(|process| (process.presence, process.calls) = (true, 1));
            case(
                name,
                &made,
                &[
                    taken([0, 0, 2], [2, 2, 1], &[0]),
                    taken([0, 0, 9], [3, 5, 0], &[0, 2]),
                    taken([1, 0, 1], [1, 4, 0], &[3]),
                ],
            )
        })
        .into()
}

/// Of three processes 2 is absent; M = 2.
fn refused() -> Vec<Case> {
    let mut made = domain(&[3, 1, 2, 3], 9, &[retired(0, 0), retired(2, 0)]);
    made.processes[2].present = false;
    let last = u32::MAX;
    let all = |name, number, asked: &[[u32; 3]]| {
        let asked: Vec<Asked> = asked.iter().map(|&asked| turned_away(asked, number)).collect();
        case(name, &made, &asked)
    };
    let limits =
        [[1, 1, 0], [1, 1, 257], [0, 0, 0], [0, 0, 257], [0, 0, 258], [0, 0, 512], [0, 0, 1 << 31], [0, 0, last]];
    let taken = [taken([0, 0, 1], [1, 1, 0], &[0]), taken([0, 0, 256], [1, 2, 0], &[0])];
    vec![
        all("5 for process N and past it, before 7 and 23", 5, &[[3, 0, 1], [last, 0, 1], [3, 2, 0], [4, 0, 257]]),
        all("20 for an absent process, before 7 and 23", 20, &[[2, 0, 1], [2, 2, 1], [2, 0, 0], [2, last, 257]]),
        all("7 for a start of M and past it", 7, &[[0, 2, 1], [0, 3, 256], [1, last, 1]]),
        all("7 before 23", 7, &[[0, 2, 0], [0, 2, 257], [1, last, last]]),
        all("23 for a limit of 0, of 257 and past it", 23, &limits),
        case("limits of 1 and of 256 are taken", &made, &taken),
    ]
}

/// 3 comes before 5, 20, 7 and 23.
fn malformed() -> Vec<Case> {
    let mut good = domain(&[2, 1, 2, 3], 9, &[retired(0, 0), retired(0, 0)]);
    good.processes[1].present = false;
    let (words, nodes) = (words_of(&good), node_start(good.params, 0));
    let three = [[0, 0, 1], [2, 0, 1], [1, 0, 1], [0, 2, 1], [0, 0, 0], [0, 0, 257]].map(|asked| turned_away(asked, 3));
    let bad = |name, words: Vec<u32>| Case { name, words, nodes, asked: three.to_vec() };
    let mut stateless = words.clone();
    stateless[nodes + NODE] = 5;
    vec![
        bad("3 before all others, the last node malformed", stateless),
        bad("3 before all others, a word too many", [&words[..], &[0]].concat()),
        bad("3 before all others, a word too few", words[..words.len() - 1].to_vec()),
        bad("3 before all others, no words", Vec::new()),
    ]
}

fn unknown(calls: &Calls) -> Result<String, String> {
    let words = words_of(&domain(&[2, 1, 2, 3], 9, &[retired(0, 0)]));
    let past = Step { kind: 18, ..Step::new(Kind::Portion, 0, 0, 0, 1) };
    let others = [past, Step { process: 2, ..past }, Step { node: 2, ..past }, Step { guest: 0, ..past }];
    for step in others {
        let mut lent = Lent::new(&words);
        same(&format!("{step}"), calls.step(lent.words_mut(), step), &lent, Answer::refused(4), &words)?;
        let model = step_words(&mut words.clone(), step, Rules::default());
        same("the model's", model, &lent, Answer::refused(4), &words)?;
    }
    Ok(format!("{} steps, of {}", others.len(), Params::of(&[2, 1, 2, 3])))
}
