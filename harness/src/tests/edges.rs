//! The cases of 'On the edge' and those of requests 1 and 2.

use super::case::{
    by, case, fresh, of, scan_after, tried, turnover, whole, Case, ASSIGNED, CALLS, EPOCH, FIRST_STORE, NODES,
    NODES_OF_TWO, PENDING, PRESENCE, PROCESS, VALIDATED,
};
use crate::layout::{CLOCK, HAZARD, HEAD, LEAD, NODE, PATH, STORE};
use crate::library::Calls;
use crate::params::Params;
use crate::report::Report;
use crate::step::{Kind, Step};

pub fn all(report: &mut Report, calls: &Calls) {
    report.test("edge: length at 1, 1, 1 and at 16, 8, 256", || {
        match (calls.length(1, 1, 1), calls.length(16, 8, 256)) {
            (47, 2138) => Ok("47 and 2138".into()),
            other => Err(format!("{other:?}")),
        }
    });
    tried(report, calls, cases());
}

fn cases() -> Vec<Case> {
    let first = [scans(), thresholds(), claims(), vec![stopped()]];
    let requests = [own_stores(), vec![stray()], refused_reinserts(), reinserts(), after_reinserts()];
    first.into_iter().chain(requests).flatten().collect()
}

fn scans() -> Vec<Case> {
    let params = Params::of(&[1, 1, 2, 3, 1, 1]);
    let (kept, freed) = ([(NODES[0], 4), (NODES[1], 4)], [(NODES[0], 0), (NODES[1], 4)]);
    let visible = [Kind::Allocate, Kind::Publish, Kind::Protect, Kind::Drain, Kind::Remove, Kind::Retire].map(of);
    let visible = [visible.to_vec(), vec![of(Kind::Tick); 4], turnover(0, 1, 60)].concat();
    vec![
        case("T = 3, a scan at clock 3 keeps the node", params, scan_after(3), &[], &kept),
        case("at clock 4 it frees it", params, scan_after(4), &[(11, 0, 1)], &freed),
        case("and keeps it if visible", params, visible, &[], &kept),
    ]
}

fn thresholds() -> Vec<Case> {
    let full = [vec![of(Kind::Protect); 8], vec![of(Kind::Protect), of(Kind::Clear)]].concat();
    let (one, two) = (turnover(0, 0, 70), [turnover(0, 0, 70), turnover(0, 1, 60)].concat());
    let manages = |count| vec![of(Kind::Manage); count];
    let (counted, acted) = ([(CALLS, 2), (PRESENCE, 0), (EPOCH, 0)], [(CALLS, 0), (PRESENCE, 1), (EPOCH, 1)]);
    let sixth = [turnover(0, 0, 70), manages(6)].concat();
    vec![
        case(
            "the eighth store is taken, the ninth gets 13",
            Params::LEAST,
            full,
            &[(8, 13, 0), (9, 13, 0)],
            &[(PENDING, 8)],
        ),
        case("C = 2, the first retire stays fast", Params::of(&[1, 1, 2, 3, 1, 2]), one, &[], &[(PATH, 0)]),
        case("the second switches", Params::of(&[1, 1, 2, 3, 1, 2]), two, &[], &[(PATH, 1)]),
        case("Q = 3, two manages count", Params::of(&[1, 1, 1, 1, 3, 1]), manages(2), &[], &counted),
        case("the third acts", Params::of(&[1, 1, 1, 1, 3, 1]), manages(3), &[], &acted),
        case("the sixth manage frees", Params::of(&[1, 1, 1, 1, 1, 2]), sixth, &[(9, 0, 1)], &[(NODES[0], 0)]),
    ]
}

fn claims() -> Vec<Case> {
    let published = vec![Step::new(Kind::Allocate, 0, 0, 0, 70), of(Kind::Publish), of(Kind::Protect)];
    let unchecked = [published.clone(), vec![of(Kind::Use)]].concat();
    let removed = [published, [Kind::Check, Kind::Remove, Kind::Check, Kind::Use].map(of).to_vec()].concat();
    let answers = [(5, 11, 0), (6, 0, 70)];
    vec![
        case("use after protect without check gets 12", Params::LEAST, unchecked, &[(3, 12, 0)], &[(VALIDATED, 0)]),
        case("a check refused with 11 keeps an old claim", Params::LEAST, removed, &answers, &[(VALIDATED, 1)]),
    ]
}

/// The last clock, and a pending store to hazard 0 that is 3 = T ticks old.
fn stopped() -> Case {
    let mut words = fresh(Params::of(&[1, 1, 1, 3, 1, 1]));
    (words[CLOCK], words[PENDING], words[FIRST_STORE + 1], words[FIRST_STORE + 2]) = (u32::MAX, 1, 1, u32::MAX - 3);
    Case {
        name: "the last clock with a due store gets 15",
        words,
        steps: vec![of(Kind::Tick)],
        answers: vec![(0, 15, 0)],
        after: vec![(CLOCK, u32::MAX), (PENDING, 1)],
    }
}

/// Request 1: a scanning process knows its own pending stores. Node 0 is 2 ticks old at the last retire, more than T = 1.
fn own_stores() -> Vec<Case> {
    let (one, two) = (Params::of(&[1, 1, 2, 1, 1, 1]), Params::of(&[2, 1, 2, 1, 1, 1]));
    // node 0 stays visible in hazard 0 of this process, which then clears it and does not drain
    let cleared = |id| {
        let by = |kind| Step::new(kind, id, 0, 0, 0);
        let shown = [of(Kind::Allocate), of(Kind::Publish), by(Kind::Protect), by(Kind::Flush)];
        let retired = [of(Kind::Remove), of(Kind::Retire), of(Kind::Tick), of(Kind::Tick), by(Kind::Clear)];
        [shown.to_vec(), retired.to_vec(), turnover(0, 1, 60)].concat()
    };
    let stored = |kinds: [Kind; 2]| {
        [turnover(0, 0, 70), vec![of(Kind::Tick); 2], kinds.map(of).to_vec(), turnover(0, 1, 60)].concat()
    };
    let (freed, kept) = ([(NODES[0], 0), (NODES[1], 4)], [(NODES[0], 4), (NODES[1], 4)]);
    vec![
        case("an own hazard cleared and not drained: freed", one, cleared(0), &[(12, 0, 1)], &freed),
        case(
            "a hazard of another cleared and not drained: kept",
            two,
            cleared(1),
            &[],
            &[(NODES_OF_TWO, 4), (NODES_OF_TWO + NODE, 4)],
        ),
        case("of two own stores the last: none", one, stored([Kind::Protect, Kind::Clear]), &[(11, 0, 1)], &freed),
        case("of two own stores the last: the node", one, stored([Kind::Clear, Kind::Protect]), &[], &kept),
    ]
}

/// A domain that no run reaches: node 0 is in the last own pending store, node 1 assigned, both retired 2 ticks ago.
fn stray() -> Case {
    let mut words = fresh(Params::of(&[1, 1, 3, 1, 1, 1]));
    (words[CLOCK], words[PATH], words[PENDING]) = (2, 1, 1);
    (words[ASSIGNED], words[FIRST_STORE + 1], words[FIRST_STORE + 2]) = (2, 1, 2);
    (words[NODES[0]], words[NODES[1]]) = (4, 4);
    Case {
        name: "of the stored and the assigned node the stored one counts",
        words,
        steps: turnover(0, 2, 60),
        answers: vec![(3, 0, 1)],
        after: vec![(NODES[0], 4), (NODES[1], 0)],
    }
}

/// Two processes and five nodes, one in each state, by number; 1, 3 and 4 are of process 1. Process 0 has node 2 validated, node 4 visible,
/// and a store pending.
fn busy() -> Vec<u32> {
    let mut words = fresh(Params::of(&[2, 1, 5, 3, 2, 2]));
    (words[CLOCK], words[PATH], words[EPOCH]) = (9, 1, 2);
    (words[CALLS], words[PRESENCE], words[PENDING]) = (1, 1, 1);
    words[HEAD + LEAD..][..HAZARD].copy_from_slice(&[5, 3, 1]);
    words[FIRST_STORE..][..STORE].copy_from_slice(&[0, 3, 8]);
    let nodes = [[0, 0, 0, 0, 0], [1, 1, 61, 0, 0], [2, 0, 62, 0, 0], [3, 1, 63, 0, 0], [4, 1, 64, 7, 2]];
    words[NODES_OF_TWO..].copy_from_slice(&nodes.concat());
    words
}

/// Request 2: what a reinsert is refused with. No word is changed.
fn refused_reinserts() -> Vec<Case> {
    let reinsert = |process, node| by(process, Kind::Reinsert, node);
    let refused = |name, steps: &[Step], numbers: &[u32]| {
        let answers: Vec<_> = numbers.iter().enumerate().map(|(step, &number)| (step, number, 0)).collect();
        whole(name, busy(), steps, &answers, busy())
    };
    let past_kinds = |process| Step { kind: Kind::LAST as u32 + 1, ..reinsert(process, 3) };
    let states = [0, 1, 2, 4].map(|node| reinsert(1, node));
    let of_others = [0, 1, 2, 4].map(|node| reinsert(0, node));
    vec![
        refused("the kind past the last gets 4", &[past_kinds(1), past_kinds(2)], &[4, 4]),
        refused("a reinsert by process N gets 5", &[reinsert(2, 3), reinsert(u32::MAX, 3), reinsert(2, 5)], &[5, 5, 5]),
        refused("a reinsert of node M gets 7", &[reinsert(1, 5), reinsert(0, 5), reinsert(1, u32::MAX)], &[7, 7, 7]),
        refused("a reinsert of a Free, Allocated, Reachable or Retired node gets 8", &states, &[8, 8, 8, 8]),
        refused("and so does one by another process", &of_others, &[8, 8, 8, 8]),
        refused("a reinsert by another process than removed the node gets 9", &[reinsert(0, 3)], &[9]),
    ]
}

/// Request 2: the words that an accepted reinsert leaves.
fn reinserts() -> Vec<Case> {
    let unread = Step::new(Kind::Reinsert, 1, u32::MAX, 3, u32::MAX);
    let mut put_back = busy();
    put_back[NODES_OF_TWO + 3 * NODE..][..NODE].copy_from_slice(&[2, 0, 63, 0, 0]);
    let round = |process| [by(process, Kind::Remove, 2), by(process, Kind::Reinsert, 2)];
    vec![
        whole("remove and reinsert give back every word", busy(), &[round(1), round(0)].concat(), &[], busy()),
        whole("a reinsert makes the node Reachable and reads no hazard and no guest", busy(), &[unread], &[], put_back),
    ]
}

/// Request 2: what claims, other processes and retires do once a node has been put back.
fn after_reinserts() -> Vec<Case> {
    use Kind::*;
    let two = Params::of(&[2, 1, 1, 3, 1, 1]);
    let steps = |list: &[(u32, Kind)]| -> Vec<Step> {
        let published = vec![Step::new(Allocate, 0, 0, 0, 70), of(Publish)];
        [published, list.iter().map(|&(process, kind)| by(process, kind, 0)).collect()].concat()
    };
    let claimed = steps(&[(1, Protect), (1, Check), (0, Remove), (1, Use), (0, Reinsert), (1, Use)]);
    let late = steps(&[(0, Remove), (1, Protect), (1, Check), (0, Reinsert), (1, Use), (1, Check), (1, Use)]);
    let passed_on = steps(&[(0, Remove), (0, Reinsert), (1, Remove), (0, Reinsert), (0, Retire)]);
    let retired = steps(&[(0, Remove), (0, Reinsert), (0, Retire), (0, Remove), (0, Retire)]);
    let scanned = [retired.clone(), vec![of(Tick); 4], turnover(0, 1, 60)].concat();
    let managed = [retired, vec![of(Manage); 6]].concat();
    let node = |words: [u32; NODE]| (NODES_OF_TWO..).zip(words).collect::<Vec<_>>();
    let mut kept = node([2, 0, 70, 0, 0]);
    kept.extend([(ASSIGNED + PROCESS, 1), (VALIDATED + PROCESS, 1)]);
    let free = [0, 1, 2, 3, 4].map(|word| (NODES[0] + word, 0));
    vec![
        case("a claim lives through remove and reinsert", two, claimed, &[(5, 0, 70), (7, 0, 70)], &kept),
        case("a check waits for the reinsert", two, late, &[(4, 11, 0), (6, 12, 0), (8, 0, 70)], &kept),
        case("after a reinsert another may remove", two, passed_on, &[(5, 9, 0), (6, 9, 0)], &node([3, 1, 70, 0, 0])),
        case(
            "reinserted, then retired: freed by a scan",
            Params::of(&[1, 1, 2, 3, 1, 1]),
            scanned,
            &[(4, 8, 0), (14, 0, 1)],
            &free,
        ),
        case(
            "reinserted, then retired: freed by an epoch",
            Params::of(&[1, 1, 1, 1, 1, 2]),
            managed,
            &[(4, 8, 0), (12, 0, 1)],
            &free,
        ),
    ]
}
