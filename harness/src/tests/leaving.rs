//! Request 3: processes that leave and join. K = 1 throughout.

use super::case::{by, case, fresh, of, tried, turnover, whole, Case, ASSIGNED, EPOCH, FIRST_STORE, PENDING, PROCESS};
use crate::layout::{CLOCK, HAZARD, HEAD, LEAD, LEAD_PRESENCE, LEAD_PRESENT, LEAD_STORES, NODE, PATH, STORE};
use crate::library::Calls;
use crate::params::Params;
use crate::report::Report;
use crate::step::{Kind, Step};

pub fn all(report: &mut Report, calls: &Calls) {
    report.test("edge: in a fresh domain every process is present, and all else is 0", || made(calls));
    let refusals = [refused_absent(), refused_tied(), refused_heirs(), vec![numbers_first(), malformed()]];
    let effects = [vec![left(), joined()], epochs(), lists(), scans(), paths(), presences(), absent_words()];
    tried(report, calls, refusals.into_iter().chain(effects).flatten());
}

/// A word of a process.
fn lead(process: usize, word: usize) -> usize {
    HEAD + process * PROCESS + word
}

fn hazard(process: usize) -> usize {
    lead(process, LEAD)
}

/// The state of a node where there are so many processes.
fn node(processes: usize, node: usize) -> usize {
    HEAD + processes * PROCESS + node * NODE
}

/// All words of a node afterwards.
fn node_is(processes: usize, id: usize, words: [u32; NODE]) -> Vec<(usize, u32)> {
    (node(processes, id)..).zip(words).collect()
}

fn leave(process: u32, heir: u32) -> Step {
    by(process, Kind::Leave, heir)
}

fn join(process: u32) -> Step {
    by(process, Kind::Join, 0)
}

/// Parameters, clock, path and global epoch; then each process: its lead, a hazard and eight stores; then the nodes.
fn made(calls: &Calls) -> Result<String, String> {
    let process = [[0, 0, 0, 0, 1].to_vec(), vec![0; 27]].concat();
    let expected = [vec![2, 1, 1, 3, 2, 1, 4, 0, 0, 0], process.clone(), process, vec![0; 5]].concat();
    let mut words = vec![7; expected.len()];
    calls.make(&mut words, Params::of(&[2, 1, 1, 3, 2, 1, 4]));
    match words == expected {
        true => Ok(format!("{} words", words.len())),
        false => Err(format!("{words:?}, expected {expected:?}")),
    }
}

/// A case of steps that are refused with these numbers and change no word.
fn refused(name: &'static str, words: Vec<u32>, steps: &[Step], numbers: &[u32]) -> Case {
    assert_eq!(steps.len(), numbers.len(), "{name}");
    let answers: Vec<_> = numbers.iter().enumerate().map(|(step, &number)| (step, number, 0)).collect();
    whole(name, words.clone(), steps, &answers, words)
}

/// Three processes, of which 1 is absent, and five nodes, one in each state, by number; 1, 3 and 4 are of process 0.
fn asleep() -> Vec<u32> {
    let mut words = fresh(Params::of(&[3, 1, 5, 3, 2, 2]));
    (words[CLOCK], words[PATH], words[EPOCH]) = (9, 1, 2);
    words[lead(1, LEAD_PRESENT)] = 0;
    let nodes = [[0, 0, 0, 0, 0], [1, 0, 61, 0, 0], [2, 0, 62, 0, 0], [3, 0, 63, 0, 0], [4, 0, 64, 7, 2]];
    words[node(3, 0)..].copy_from_slice(&nodes.concat());
    words
}

fn refused_absent() -> Vec<Case> {
    use Kind::*;
    let on_nodes =
        [(Allocate, 0), (Publish, 1), (Protect, 2), (Remove, 2), (Retire, 3), (Reinsert, 3), (Leave, 0), (Portion, 4)];
    let on_none = [Check, Use, Clear, Drain, Flush, Manage].map(|kind| by(1, kind, 0));
    let each = [on_nodes.map(|(kind, node)| by(1, kind, node)).to_vec(), on_none.to_vec()].concat();
    let hazards = [Protect, Check, Use, Clear].map(|kind| Step::new(kind, 1, 1, 2, 0));
    let nodes = [by(1, Allocate, 5), by(1, Allocate, 4), by(1, Publish, 0), by(1, Reinsert, u32::MAX)];
    let leaves = [leave(1, 0), leave(1, 1), leave(1, 3)];
    let mut tied = asleep();
    tied[hazard(1) + 1] = 3;
    vec![
        refused("every step of an absent process but a join gets 20", asleep(), &each, &[20; 14]),
        refused("a join of a present process gets 20", asleep(), &[join(0), join(2)], &[20, 20]),
        refused("20 comes before 6", asleep(), &hazards, &[20; 4]),
        refused("20 comes before 7 and 8", asleep(), &nodes, &[20; 4]),
        refused("20 comes before 22", asleep(), &leaves, &[20; 3]),
        refused("20 comes before 21", tied, &leaves, &[20; 3]),
    ]
}

/// The kind is asked for before the process, and that before its presence.
fn numbers_first() -> Case {
    let kind = |kind, process| Step { kind, ..by(process, Kind::Tick, 0) };
    let past = [leave(3, 0), join(3), join(u32::MAX), by(3, Kind::Manage, 0)];
    let next = Kind::LAST as u32 + 1;
    let unknown = [kind(next, 0), kind(next, 1), kind(next, 3), kind(0, 3)];
    let steps = [unknown, past].concat();
    refused("4 comes before 5 and 20, and 5 before 20 to 22", asleep(), &steps, &[4, 4, 4, 4, 5, 5, 5, 5])
}

/// A fresh domain of two processes and a node, with these words changed; process 0 leaves to 1, to itself and to process N.
fn tied(name: &'static str, changed: &[(usize, u32)]) -> Case {
    let mut words = fresh(Params::of(&[2, 1, 1, 3, 1, 1]));
    for &(place, word) in changed {
        words[place] = word;
    }
    refused(name, words, &[leave(0, 1), leave(0, 0), leave(0, 2)], &[21; 3])
}

/// A leave with what it may not leave behind gets 21, before 22.
fn refused_tied() -> Vec<Case> {
    let state = node(2, 0);
    vec![
        tied("a leave with a node assigned gets 21, before 22", &[(ASSIGNED, 1)]),
        tied("and with a pending store", &[(PENDING, 1), (FIRST_STORE + 1, 1)]),
        tied("and with an Allocated node", &[(state, 1), (state + 2, 70)]),
        tied("and with a Removed node", &[(state, 3), (state + 2, 70)]),
    ]
}

fn refused_heirs() -> Vec<Case> {
    let to = |heirs: &[u32]| heirs.iter().map(|&heir| leave(0, heir)).collect::<Vec<_>>();
    let clean = |numbers: &[u32]| fresh(Params::of(numbers));
    let mut absent = clean(&[3, 1, 4, 3, 1, 1]);
    absent[lead(1, LEAD_PRESENT)] = 0;
    let (alone, few) = (clean(&[1, 1, 2, 3, 1, 1]), clean(&[3, 1, 1, 3, 1, 1]));
    vec![
        refused("a leave to process N or past it gets 22", absent.clone(), &to(&[3, 4, u32::MAX]), &[22; 3]),
        refused("a leave to itself gets 22", absent.clone(), &to(&[0]), &[22]),
        refused("a leave to an absent process gets 22", absent, &to(&[1]), &[22]),
        refused("where N = 1 every leave gets 22", alone, &to(&[0, 1, u32::MAX]), &[22; 3]),
        whole("a leave to process M or past it is taken", few.clone(), &[leave(0, 2), join(0)], &[], few),
    ]
}

fn malformed() -> Case {
    let mut words = asleep();
    words[lead(2, LEAD_PRESENT)] = 2;
    refused("a word present of 2 gets 3", words, &[join(1), leave(0, 2), of(Kind::Tick)], &[3; 3])
}

/// Process 1 has two Retired nodes, of other times and lists, and is visible at node 1; process 2 has one. Process 0 is at epoch 1.
fn left() -> Case {
    let mut words = fresh(Params::of(&[3, 1, 5, 3, 3, 2]));
    (words[CLOCK], words[PATH], words[EPOCH]) = (9, 1, 2);
    words[lead(0, 0)] = 1;
    words[lead(1, 0)..][..LEAD].copy_from_slice(&[2, 1, 1, 0, 1]);
    words[hazard(1)] = 2;
    let nodes = [[4, 1, 60, 3, 0], [4, 2, 61, 2, 0], [1, 2, 62, 0, 0], [4, 1, 63, 9, 2], [3, 0, 64, 0, 0]];
    words[node(3, 0)..].copy_from_slice(&nodes.concat());
    let mut after = words.clone();
    after[lead(1, 0)..][..LEAD].copy_from_slice(&[0, 0, 0, 0, 0]);
    after[node(3, 0)..][..NODE].copy_from_slice(&[4, 0, 60, 9, 1]);
    after[node(3, 3)..][..NODE].copy_from_slice(&[4, 0, 63, 9, 1]);
    let unread = Step { hazard: u32::MAX, guest: u32::MAX, ..leave(1, 0) };
    whole("a leave hands over what is Retired, and nothing else", words, &[unread], &[], after)
}

/// Absent process 1 has words that no leave leaves.
fn joined() -> Case {
    let mut words = asleep();
    words[lead(1, 0)..][..LEAD].copy_from_slice(&[1, 1, 1, 0, 0]);
    let mut after = words.clone();
    after[lead(1, 0)..][..LEAD].copy_from_slice(&[2, 1, 1, 0, 1]);
    let unread = Step { hazard: u32::MAX, node: u32::MAX, guest: u32::MAX, ..join(1) };
    whole("a join sets present and the epoch, and keeps calls and presence", words, &[unread], &[], after)
}

fn epochs() -> Vec<Case> {
    let params = Params::of(&[2, 1, 1, 3, 1, 1]);
    let manages = |count| vec![of(Kind::Manage); count];
    let waits = manages(5);
    let goes_on = [manages(5), vec![leave(1, 0)], manages(1)].concat();
    let back = [vec![leave(1, 0)], manages(2), vec![join(1)]].concat();
    let at_once = [back.clone(), vec![by(1, Kind::Manage, 0)]].concat();
    vec![
        case("the epoch waits for a present process", params, waits, &[], &[(EPOCH, 1), (lead(0, 0), 1)]),
        case("and goes on when it has left", params, goes_on, &[], &[(EPOCH, 2), (lead(0, 0), 1)]),
        case("a join is at the epoch of now", params, back, &[], &[(EPOCH, 1), (lead(1, 0), 1)]),
        case("and the epoch goes on from there", params, at_once, &[], &[(EPOCH, 2), (lead(1, 0), 1)]),
    ]
}

/// Process 1 retires to list 1 and leaves to process 0, which is at epoch 0: the node is on list 0 now.
fn lists() -> Vec<Case> {
    let params = Params::of(&[2, 1, 1, 3, 1, 3]);
    let manage = |process| vec![by(process, Kind::Manage, 0)];
    let handed = [manage(0), manage(1), turnover(1, 0, 70), vec![leave(1, 0)]].concat();
    let steps = |count| [handed.clone(), vec![of(Kind::Manage); count]].concat();
    vec![
        case(
            "what is handed over is on the heir's list: kept",
            params,
            steps(4),
            &[],
            &node_is(2, 0, [4, 0, 70, 0, 0]),
        ),
        case("until the heir is there again: freed", params, steps(5), &[(11, 0, 1)], &node_is(2, 0, [0; NODE])),
    ]
}

/// Process 1 retires node 0 at clock 0 and leaves to process 0 at clock 2; T = 3.
fn scans() -> Vec<Case> {
    let params = Params::of(&[2, 1, 2, 3, 1, 1]);
    let ticks = |count| vec![of(Kind::Tick); count];
    let handed = [turnover(1, 0, 70), ticks(2), vec![leave(1, 0)]].concat();
    let scanned = |count| [handed.clone(), ticks(count), turnover(0, 1, 60)].concat();
    let by_leaver = [handed.clone(), ticks(4), vec![join(1)], turnover(1, 1, 60)].concat();
    let kept = node_is(2, 0, [4, 0, 70, 2, 0]);
    vec![
        case("what is handed over is as young as the leave: kept", params, scanned(3), &[], &kept),
        case("T + 1 ticks after the leave: freed", params, scanned(4), &[(14, 0, 1)], &node_is(2, 0, [0; NODE])),
        case("and not by the one that left", params, by_leaver, &[], &kept),
    ]
}

fn paths() -> Vec<Case> {
    let (one, two) = (Params::of(&[2, 1, 2, 3, 1, 1]), Params::of(&[2, 1, 3, 3, 1, 2]));
    let manage = vec![of(Kind::Manage)];
    let fallback = [turnover(0, 0, 70), manage.clone()].concat();
    let left = [fallback.clone(), vec![leave(1, 0)]].concat();
    let fast = [left.clone(), manage].concat();
    let gathered = [turnover(0, 0, 70), turnover(1, 1, 60), vec![leave(1, 0)]].concat();
    let switched = [gathered.clone(), turnover(0, 2, 50)].concat();
    let all_retired = [node_is(2, 0, [4, 0, 70, 0, 0]), node_is(2, 1, [4, 0, 60, 0, 0])].concat();
    vec![
        case("the fallback path waits for a present process", one, fallback, &[], &[(PATH, 1), (EPOCH, 0)]),
        case("its leave switches nothing", one, left, &[], &[(PATH, 1), (EPOCH, 0), (lead(0, LEAD_PRESENCE), 1)]),
        case("the next manage does", one, fast, &[], &[(PATH, 0), (EPOCH, 1), (lead(1, LEAD_PRESENCE), 0)]),
        case(
            "a leave by which the heir has C Retired nodes stays fast",
            two,
            gathered,
            &[],
            &[vec![(PATH, 0)], all_retired].concat(),
        ),
        case("its next retire switches", two, switched, &[], &[(PATH, 1)]),
    ]
}

/// Both processes have checked in, and 1 is absent.
fn presences() -> Vec<Case> {
    let mut words = fresh(Params::of(&[2, 1, 1, 3, 1, 1]));
    (words[lead(0, LEAD_PRESENCE)], words[lead(1, LEAD_PRESENCE)], words[lead(1, LEAD_PRESENT)]) = (1, 1, 0);
    let mut after = words.clone();
    (after[lead(0, LEAD_PRESENCE)], after[lead(1, LEAD_PRESENCE)]) = (0, 0);
    let mut switched = after.clone();
    switched[PATH] = 1;
    switched[node(2, 0)..].copy_from_slice(&[4, 0, 70, 0, 0]);
    vec![
        whole("presence is cleared of an absent process too", words.clone(), &[of(Kind::ClearPresence)], &[], after),
        whole("and by the switch to the fallback path", words, &turnover(0, 0, 70), &[], switched),
    ]
}

/// What still counts of an absent process: visible nodes, and pending stores. No run reaches such a store.
fn absent_words() -> Vec<Case> {
    let absent = |params: &[u32], clock| {
        let mut words = fresh(Params::of(params));
        (words[CLOCK], words[PATH], words[lead(1, LEAD_PRESENT)]) = (clock, 1, 0);
        words
    };
    let scan = |name, visible, freed, nodes: [[u32; NODE]; 2]| {
        let mut words = absent(&[2, 1, 2, 1, 1, 1], 2);
        words[hazard(1)] = visible;
        words[node(2, 0)..].copy_from_slice(&[[4, 0, 70, 0, 0], [3, 0, 60, 0, 0]].concat());
        let mut after = words.clone();
        after[node(2, 0)..].copy_from_slice(&nodes.concat());
        whole(name, words, &[by(0, Kind::Retire, 1)], &[(0, 0, freed)], after)
    };
    let tick = |name, time, refusal, clock| {
        let mut words = absent(&[2, 1, 2, 1, 1, 1], 1);
        words[lead(1, LEAD_STORES)] = 1;
        words[hazard(1) + HAZARD..][..STORE].copy_from_slice(&[0, 1, time]);
        let mut after = words.clone();
        after[CLOCK] = clock;
        whole(name, words, &[of(Kind::Tick)], &[(0, refusal, 0)], after)
    };
    let (kept, new) = ([4, 0, 70, 0, 0], [4, 0, 60, 2, 0]);
    vec![
        scan("a scan keeps what an absent process shows", 1, 0, [kept, new]),
        scan("and frees what it does not show", 2, 1, [[0; NODE], new]),
        tick("a tick waits for a store of an absent process", 0, 16, 1),
        tick("and not for a young one", 1, 0, 2),
    ]
}
