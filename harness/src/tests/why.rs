//! Request 6: why a node is still waiting, on domains made by hand, with the eight numbers written by hand from the papers; and the call
//! beside the library's own scan.

use super::made::{domain, retired, show, store};
use crate::arbitrary;
use crate::compare::unchanged;
use crate::layout::{node_start, CLOCK, NODE};
use crate::library::{Calls, Lent};
use crate::model::domain::{Domain, Node, Path, Store};
use crate::model::mistake::Rules;
use crate::model::why::why_words;
use crate::model::words::words_of;
use crate::params::Params;
use crate::random::Random;
use crate::report::Report;
use crate::step::{Kind, State, Step};
use crate::why::WhyAnswer;

struct Case {
    name: &'static str,
    words: Vec<u32>,
    /// what a tick is refused with, 0 where it is taken
    tick: u32,
    /// a node, and the numbers: refusal, answer, state, ticks, process, hazard, behind, behind_process
    asked: Vec<(u32, [u32; 8])>,
}

pub fn all(report: &mut Report, calls: &Calls, seed: u64) {
    let cases =
        [reasons(), ages(), last_clocks(), hazards(), own_stores(), absent_owners(), epochs(), ends(), refused()];
    for case in cases.into_iter().flatten() {
        report.test(&format!("why: {}", case.name), || check(calls, &case));
    }
    report.test("why: ready just where a scan frees, young for just so long", || beside_scans(calls, seed, 20_000));
}

fn check(calls: &Calls, case: &Case) -> Result<String, String> {
    let lent = Lent::new(&case.words);
    for &(node, numbers) in &case.asked {
        let expected = WhyAnswer::from_numbers(numbers);
        let model = why_words(&case.words, [node], Rules::default())[0].answer();
        for (who, found) in [("library", calls.why(lent.words(), node)), ("model", model)] {
            if found != expected {
                return Err(format!("{who}, node {node}: {found}, expected {expected}"));
            }
        }
    }
    unchanged("why", &lent, &case.words)?;
    match calls.step(&mut case.words.clone(), Step::new(Kind::Tick, 0, 0, 0, 0)).refusal {
        refusal if refusal == case.tick => Ok(format!("{} asked", case.asked.len())),
        refusal => Err(format!("a tick gets {refusal}, expected {}", case.tick)),
    }
}

fn case(name: &'static str, domain: &Domain, asked: &[(u32, [u32; 8])]) -> Case {
    Case { name, words: words_of(domain), tick: 0, asked: asked.to_vec() }
}

const READY: [u32; 8] = [0, 4, 0, 0, 0, 0, 1, 0];

/// Not Retired, with nobody behind.
fn in_state(state: u32) -> [u32; 8] {
    [0, 1, state, 0, 0, 0, 1, 0]
}

/// Too young, with nobody behind.
fn young(ticks: u32) -> [u32; 8] {
    [0, 2, 0, ticks, 0, 0, 1, 0]
}

/// Visible, with nobody behind.
fn visible(process: u32, hazard: u32) -> [u32; 8] {
    [0, 3, 0, 0, process, hazard, 1, 0]
}

/// The four answers; a hazard shows nodes to which that is no reason, too.
fn reasons() -> Vec<Case> {
    let (owner, guest) = (1, 70);
    let others =
        [Node::Free, Node::Allocated { owner, guest }, Node::Reachable { guest }, Node::Removed { owner, guest }];
    let mut states = domain(&[2, 4, 4, 3], 9, &others);
    (0..4).for_each(|id| show(&mut states, 0, id as usize, id));
    let mut waiting = domain(&[2, 1, 3, 3], 9, &[retired(1, 6), retired(1, 5), retired(1, 5)]);
    let unseen = waiting.clone();
    show(&mut waiting, 0, 0, 1);
    show(&mut waiting, 1, 0, 0);
    vec![
        case("not Retired, in each other state", &states, &[0, 1, 2, 3].map(|id| (id, in_state(id)))),
        case("too young before visible; visible; ready", &waiting, &[(0, young(1)), (1, visible(0, 0)), (2, READY)]),
        case("ready where no hazard shows it", &unseen, &[(0, young(1)), (1, READY), (2, READY)]),
    ]
}

/// Ticks until the age is more than T + E.
fn ages() -> Vec<Case> {
    let at = |params: &[u32], clock, times: &[u32]| {
        let nodes: Vec<Node> = times.iter().map(|&time| retired(0, time)).collect();
        domain(params, clock, &nodes)
    };
    let late = at(&[1, 1, 4, 3, 1, 1, 2], 9, &[9, 6, 4, 3]);
    let mut due = at(&[2, 1, 3, 3], 9, &[9, 6, 5]);
    due.processes[1].buffer.push_back(Store { hazard: 0, node: None, time: 6 });
    let stopped = Case { tick: 16, ..case("16 stops the clock", &due, &[(0, young(4)), (1, young(1)), (2, READY)]) };
    let greatest = at(&[1, 1, 4, 1000, 1, 1, 1000], 2001, &[2001, 2000, 1, 0]);
    vec![
        case("T = 3, ages 0, 1, 3 and 4", &at(&[1, 1, 4, 3], 4, &[4, 3, 1, 0]), &with_ages([4, 3, 1])),
        case("T = 3, E = 2, ages 0, 3, 5 and 6", &late, &with_ages([6, 3, 1])),
        case("T = E = 1000, ages 0, 1, 2000 and 2001", &greatest, &with_ages([2001, 2000, 1])),
        case("T = 1, a node retired at clock 0", &at(&[1, 1, 1], 0, &[0]), &[(0, young(2))]),
        stopped,
    ]
}

/// Three nodes that are young for so many ticks, and one that is ready.
fn with_ages([first, second, third]: [u32; 3]) -> [(u32, [u32; 8]); 4] {
    [(0, young(first)), (1, young(second)), (2, young(third)), (3, READY)]
}

/// The last clock, which 15 stops: a node may have to be older than it can become.
fn last_clocks() -> Vec<Case> {
    let last = u32::MAX;
    let times = |params: &[u32], times: [u32; 4]| domain(params, last, &times.map(|time| retired(0, time)));
    let (short, long) = ([1, 1, 4, 3], [1, 1, 4, 1000, 1, 1, 1000]);
    let stopped = |name, domain: &Domain, ticks| Case { tick: 15, ..case(name, domain, &with_ages(ticks)) };
    vec![
        stopped("15 stops the clock", &times(&short, [last, last - 1, last - 3, last - 4]), [4, 3, 1]),
        stopped("15, T = E = 1000", &times(&long, [last, last - 1, last - 2000, last - 2001]), [2001, 2000, 1]),
        stopped("15, a node retired at clock 0", &times(&short, [last, last - 1, last - 3, 0]), [4, 3, 1]),
    ]
}

/// The lowest process, then the lowest hazard; what a hazard has assigned, or another's pending store, is not visible.
fn hazards() -> Vec<Case> {
    let nodes: Vec<Node> = (0..6).map(|_| retired(0, 0)).collect();
    let mut shown = domain(&[3, 3, 6, 3], 9, &nodes);
    show(&mut shown, 1, 2, 0);
    show(&mut shown, 2, 0, 0);
    show(&mut shown, 1, 1, 1);
    show(&mut shown, 2, 1, 1);
    show(&mut shown, 2, 2, 1);
    show(&mut shown, 0, 2, 2);
    show(&mut shown, 1, 0, 2);
    shown.processes[0].hazards[0].assigned = Some(3);
    shown.processes[1].hazards[1].assigned = Some(3);
    store(&mut shown, 1, 2, Some(4));
    store(&mut shown, 1, 1, None);
    let asked = [(0, visible(1, 2)), (1, visible(1, 1)), (2, visible(0, 2)), (3, READY), (4, READY), (5, READY)];
    let mut one = domain(&[2, 3, 2, 3], 9, &nodes[..2]);
    show(&mut one, 1, 1, 1);
    show(&mut one, 1, 2, 1);
    vec![
        case("the lowest process, then the lowest hazard, of those that are visible", &shown, &asked),
        case("the lower of two hazards of one process", &one, &[(0, READY), (1, visible(1, 1))]),
    ]
}

/// The owner's own hazards count as its last pending store to each.
fn own_stores() -> Vec<Case> {
    let nodes: Vec<Node> = (0..6).map(|_| retired(1, 0)).collect();
    let made = |visible: &[(usize, usize, u32)], stores: &[(u32, Option<u32>)]| {
        let mut domain = domain(&[3, 2, 6, 3], 9, &nodes);
        visible.iter().for_each(|&(process, hazard, node)| show(&mut domain, process, hazard, node));
        stores.iter().for_each(|&(hazard, node)| store(&mut domain, 1, hazard, node));
        domain
    };
    let shows = made(&[], &[(1, Some(0))]);
    let hides = made(&[(1, 0, 0), (1, 1, 1)], &[(0, None), (1, Some(2))]);
    let last = made(&[(1, 0, 3)], &[(0, Some(0)), (1, Some(1)), (0, Some(2)), (1, None), (0, Some(4))]);
    let others = made(&[(1, 0, 0), (2, 1, 0), (0, 0, 1)], &[(0, Some(1))]);
    vec![
        case("an own pending store shows a node", &shows, &[(0, visible(1, 1)), (1, READY)]),
        case("an own pending store hides a node", &hides, &[(0, READY), (1, READY), (2, visible(1, 1))]),
        case(
            "the last own pending store counts",
            &last,
            &[(0, READY), (1, READY), (2, READY), (3, READY), (4, visible(1, 0))],
        ),
        case("hidden there, in another's hazard still", &others, &[(0, visible(2, 1)), (1, visible(0, 0))]),
    ]
}

/// An absent owner has a view of its own too, and is nobody that is behind.
fn absent_owners() -> Vec<Case> {
    let mut domain =
        domain(&[2, 2, 5, 3], 9, &[retired(1, 0), retired(1, 0), retired(1, 0), retired(1, 9), retired(1, 0)]);
    domain.processes[1].present = false;
    domain.processes[1].epoch = 2;
    show(&mut domain, 1, 0, 0);
    store(&mut domain, 1, 0, None);
    store(&mut domain, 1, 1, Some(1));
    show(&mut domain, 0, 1, 2);
    let asked = [(0, READY), (1, visible(1, 1)), (2, visible(0, 1)), (3, young(4)), (4, READY)];
    vec![case("the owner absent: its own stores count, and nobody is behind", &domain, &asked)]
}

/// Who is behind goes with every answer on the fast path, and with none on the fallback path.
fn epochs() -> Vec<Case> {
    let nodes = [Node::Reachable { guest: 70 }, retired(0, 9), retired(0, 0), retired(0, 0)];
    let made = |path, epochs: [u32; 4], absent: &[usize]| {
        let mut domain = Domain { path, epoch: 1, ..domain(&[4, 1, 4, 3], 9, &nodes) };
        domain.processes.iter_mut().zip(epochs).for_each(|(process, epoch)| process.epoch = epoch);
        absent.iter().for_each(|&process| domain.processes[process].present = false);
        show(&mut domain, 3, 0, 2);
        domain
    };
    let asked = |behind: u32, process: u32| {
        let numbers = [[0, 1, 2, 0, 0, 0], [0, 2, 0, 4, 0, 0], [0, 3, 0, 0, 3, 0], [0, 4, 0, 0, 0, 0]];
        let whole = |[a, b, c, d, e, f]: [u32; 6]| [a, b, c, d, e, f, behind, process];
        (0..).zip(numbers.map(whole)).collect::<Vec<_>>()
    };
    let tried = |name, path, epochs, absent: &[usize], behind, process| {
        case(name, &made(path, epochs, absent), &asked(behind, process))
    };
    vec![
        tried("nobody behind", Path::Fast, [1, 1, 1, 1], &[], 1, 0),
        tried("the lowest of two that are behind", Path::Fast, [1, 0, 1, 0], &[], 2, 1),
        tried("process 0 behind, by either other epoch", Path::Fast, [2, 0, 1, 1], &[], 2, 0),
        tried("the last alone behind", Path::Fast, [1, 1, 1, 2], &[], 2, 3),
        tried("an absent one passed over for one that is present", Path::Fast, [1, 0, 2, 1], &[1], 2, 2),
        tried("only absent ones at another epoch: nobody behind", Path::Fast, [0, 1, 2, 1], &[0, 2], 1, 0),
        tried("not asked on the fallback path", Path::Fallback, [1, 0, 2, 1], &[], 0, 0),
    ]
}

/// The first node and the last of the greatest domain, in its first hazard and its last.
fn ends() -> Vec<Case> {
    let mut domain = domain(&[16, 8, 256, 3], 9, &vec![retired(15, 0); 256]);
    show(&mut domain, 15, 7, 255);
    show(&mut domain, 0, 0, 0);
    show(&mut domain, 7, 3, 253);
    let asked =
        [(0, visible(0, 0)), (1, READY), (252, READY), (253, visible(7, 3)), (254, READY), (255, visible(15, 7))];
    let mut stores = domain.clone();
    (0..8).for_each(|hazard| store(&mut stores, 15, hazard, Some(247 + hazard)));
    let stored = [(246, READY), (247, visible(15, 0)), (254, visible(15, 7)), (255, READY)];
    let past = [256, 257, u32::MAX].map(|node| (node, [7, 0, 0, 0, 0, 0, 0, 0]));
    vec![
        case("nodes 0 and 255 in the first hazard and the last", &domain, &asked),
        case("nodes 254 and 255 with all of an owner's own stores pending", &stores, &stored),
        case("nodes past the last of 256", &domain, &past),
    ]
}

/// 7 for nodes from M on, with all else 0; 3 before it, where the words are malformed.
fn refused() -> Vec<Case> {
    let (three, seven) = ([3, 0, 0, 0, 0, 0, 0, 0], [7, 0, 0, 0, 0, 0, 0, 0]);
    let mut good = domain(&[2, 1, 2, 3], 9, &[retired(0, 9), retired(1, 0)]);
    good.processes[1].epoch = 1;
    let past = [2, 3, 255, 256, u32::MAX];
    let malformed = |name, words: Vec<u32>| {
        let asked = [0, 1].into_iter().chain(past).map(|node| (node, three));
        Case { name, words, tick: 3, asked: asked.collect() }
    };
    let words = words_of(&good);
    let mut stateless = words.clone();
    stateless[words.len() - NODE] = 5;
    let mut long = words.clone();
    long.push(0);
    vec![
        case("7 from M on, with all else 0", &good, &past.map(|node| (node, seven))),
        malformed("3 before 7, the last node malformed", stateless),
        malformed("3 before 7, a word too many", long),
        malformed("3 before 7, a word too few", words[..words.len() - 1].to_vec()),
        malformed("3 before 7, no words", Vec::new()),
    ]
}

/// A node of a domain on the fallback path, and a step by which its owner scans.
struct Scanned {
    words: Vec<u32>,
    node: u32,
    state: usize,
    retire: Step,
}

impl Scanned {
    fn random(random: &mut Random) -> Scanned {
        let params = Params::random(random);
        let params = Params { nodes: params.nodes.max(2), ..params };
        let mut domain = Domain { path: Path::Fallback, ..arbitrary::domain(random, params) };
        let (owner, node) = (random.below(params.processes), random.below(params.nodes));
        let other = (node + 1 + random.below(params.nodes - 1)) % params.nodes;
        let back = random.up_to(2 * params.delay());
        domain.processes[owner as usize].present = true;
        domain.nodes[node as usize] = retired(owner, domain.clock.saturating_sub(back));
        domain.nodes[other as usize] = Node::Removed { owner, guest: 70 };
        let (state, retire) = (node_start(params, node as usize), Step::new(Kind::Retire, owner, 0, other, 0));
        Scanned { words: words_of(&domain), node, state, retire }
    }

    fn is_freed(&self, calls: &Calls) -> bool {
        let mut words = self.words.clone();
        let answer = calls.step(&mut words, self.retire);
        assert_eq!(answer.refusal, 0, "a retire that scans");
        words[self.state] == State::Free as u32
    }

    fn why(&self, calls: &Calls) -> WhyAnswer {
        calls.why(&self.words, self.node)
    }
}

/// What the library says of a Retired node of a random domain, beside what its own scan then does. Where the node is young, the clock is
/// put on: until a tick before the end the scan keeps the node, and it is young for one more.
fn beside_scans(calls: &Calls, seed: u64, cases: u64) -> Result<String, String> {
    let mut counts = [0; 5];
    for index in 0..cases {
        let mut scanned = Scanned::random(&mut Random::new(seed ^ 0x3a17, index));
        let wrong = |what: String| Err(format!("seed {seed}, case {index}: {what}"));
        let first = scanned.why(calls);
        counts[first.answer as usize] += 1;
        if let (2, Some(end)) = (first.answer, scanned.words[CLOCK].checked_add(first.ticks)) {
            scanned.words[CLOCK] = end - 1;
            let (early, freed) = (scanned.why(calls), scanned.is_freed(calls));
            if freed || early != (WhyAnswer { ticks: 1, ..first }) {
                return wrong(format!("{first}; a tick before the end {early}, freed: {freed}"));
            }
            scanned.words[CLOCK] = end;
            if scanned.why(calls).answer == 2 {
                return wrong(format!("{first}; at the end {}", scanned.why(calls)));
            }
        }
        let (last, freed) = (scanned.why(calls), scanned.is_freed(calls));
        if freed != (last.answer == 4) {
            return wrong(format!("{last}, freed: {freed}"));
        }
    }
    let [_, _, young, visible, ready] = counts;
    Ok(format!("{young} young, {visible} visible, {ready} ready"))
}
