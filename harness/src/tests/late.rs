//! Request 4: flushes that come up to E ticks late. A store may be pending, and a node is kept, for T + E ticks.

use super::case::{
    by, case, fresh, of, scan_after, tried, turnover, whole, Case, FIRST_STORE, NODES, NODES_OF_TWO, PENDING,
};
use crate::arbitrary;
use crate::layout::{CLOCK, NODE, PATH, STORE};
use crate::library::{Calls, Lent};
use crate::model::domain::Domain;
use crate::model::mistake::Rules;
use crate::model::words::words_of;
use crate::model::Model;
use crate::params::Params;
use crate::random::Random;
use crate::reference::Reference;
use crate::report::Report;
use crate::schedule::Mood;
use crate::step::{Answer, Kind, Step};

/// The words of T and E.
const BOUND: usize = 3;
const LATENESS: usize = 6;

pub fn all(report: &mut Report, calls: &Calls, seed: u64) {
    tried(report, calls, [scans(), ticks(), greatest(), last_clocks(), malformed()].into_iter().flatten());
    report.test("edge: E = 1000 is made, 1001 gets 1", || made(calls));
    report.test("edge: the bound counts what was retired over T + E ticks", || bound(calls));
    report.test("T and E answer as T + E and 0", || as_sum(calls, seed, 1_000));
}

fn ticks_of(count: usize) -> Vec<Step> {
    vec![of(Kind::Tick); count]
}

fn scans() -> Vec<Case> {
    let (one, two) = (Params::of(&[1, 1, 2, 3, 1, 1, 2]), Params::of(&[2, 1, 2, 3, 1, 1, 2]));
    let (kept, freed) = ([(NODES[0], 4), (NODES[1], 4)], [(NODES[0], 0), (NODES[1], 4)]);
    let visible = [Kind::Allocate, Kind::Publish, Kind::Protect, Kind::Drain, Kind::Remove, Kind::Retire].map(of);
    let visible = [visible.to_vec(), ticks_of(6), turnover(0, 1, 60)].concat();
    // process 1 leaves node 0 to process 0 at clock 2
    let handed = |ticks| {
        let left = [turnover(1, 0, 70), ticks_of(2), vec![by(1, Kind::Leave, 0)]].concat();
        [left, ticks_of(ticks), turnover(0, 1, 60)].concat()
    };
    vec![
        case("T = 3, E = 2: a scan at age 5 keeps the node", one, scan_after(5), &[], &kept),
        case("T = 3, E = 2: at age 6 it frees it", one, scan_after(6), &[(13, 0, 1)], &freed),
        case("T = 3, E = 2: and keeps it if visible", one, visible, &[], &kept),
        case("T = 3, E = 2: 5 ticks after a leave it keeps the node", two, handed(5), &[], &[(NODES_OF_TWO, 4)]),
        case("T = 3, E = 2: and 6 after it frees it", two, handed(6), &[(16, 0, 1)], &[(NODES_OF_TWO, 0)]),
    ]
}

fn ticks() -> Vec<Case> {
    let (one, two) = (Params::of(&[1, 1, 1, 3, 1, 1, 2]), Params::of(&[2, 1, 1, 3, 1, 1, 2]));
    let taken = [vec![of(Kind::Protect)], ticks_of(5)].concat();
    let due = [taken.clone(), ticks_of(1)].concat();
    let of_other = [vec![by(1, Kind::Protect, 0)], ticks_of(6), vec![by(1, Kind::Flush, 0)], ticks_of(1)].concat();
    vec![
        case("T = 3, E = 2: a tick with a store of age 4 is taken", one, taken, &[], &[(CLOCK, 5), (PENDING, 1)]),
        case("T = 3, E = 2: with one of age 5 it gets 16", one, due, &[(6, 16, 0)], &[(CLOCK, 5), (PENDING, 1)]),
        case("T = 3, E = 2: until the flush", two, of_other, &[(6, 16, 0)], &[(CLOCK, 6)]),
    ]
}

/// T and E at their greatest, tick by tick.
fn greatest() -> Vec<Case> {
    let params = Params::of(&[1, 1, 2, 1000, 1, 1, 1000]);
    let due = [vec![of(Kind::Protect)], ticks_of(2001)].concat();
    let (kept, freed) = ([(NODES[0], 4), (NODES[1], 4)], [(NODES[0], 0), (NODES[1], 4)]);
    vec![
        case("T = E = 1000: a scan at age 2000 keeps the node", params, scan_after(2000), &[], &kept),
        case("T = E = 1000: at age 2001 it frees it", params, scan_after(2001), &[(2008, 0, 1)], &freed),
        case("T = E = 1000: the tick at age 2000 gets 16", params, due, &[(2001, 16, 0)], &[(CLOCK, 2000)]),
    ]
}

/// The same at the last clocks, where T and E are at their greatest.
fn last_clocks() -> Vec<Case> {
    let tick = |name, clock: u32, age, refusal, after_clock| {
        let mut words = fresh(Params::of(&[1, 1, 1, 1000, 1, 1, 1000]));
        (words[CLOCK], words[PENDING]) = (clock, 1);
        words[FIRST_STORE..][..STORE].copy_from_slice(&[0, 1, clock - age]);
        let mut after = words.clone();
        after[CLOCK] = after_clock;
        whole(name, words, &[of(Kind::Tick)], &[(0, refusal, 0)], after)
    };
    let last = u32::MAX;
    vec![
        old_and_young(),
        tick("T = E = 1000: the last tick with a store of age 1999 is taken", last - 1, 1999, 0, last),
        tick("T = E = 1000: with one of age 2000 it gets 16", last - 1, 2000, 16, last - 1),
        tick("T = E = 1000: at the last clock it gets 15", last, 2000, 15, last),
    ]
}

/// Nodes 0 and 1 were retired 2000 and 2001 ticks before the last clock, at which node 2 is retired.
fn old_and_young() -> Case {
    let mut words = fresh(Params::of(&[1, 1, 3, 1000, 1, 1, 1000]));
    (words[CLOCK], words[PATH]) = (u32::MAX, 1);
    let young = [4, 0, 70, u32::MAX - 2000, 0];
    words[NODES[0]..].copy_from_slice(&[young, [4, 0, 71, u32::MAX - 2001, 0], [3, 0, 72, 0, 0]].concat());
    let mut after = words.clone();
    after[NODES[0]..].copy_from_slice(&[young, [0; NODE], [4, 0, 72, u32::MAX, 0]].concat());
    let name = "T = E = 1000: at the last clock age 2000 is kept and 2001 freed";
    whole(name, words, &[by(0, Kind::Retire, 2)], &[(0, 0, 1)], after)
}

fn malformed() -> Vec<Case> {
    let words = |bound, lateness| {
        let mut words = fresh(Params::LEAST);
        (words[BOUND], words[LATENESS]) = (bound, lateness);
        words
    };
    let steps = [of(Kind::Tick), of(Kind::Allocate), Step::UNKNOWN];
    let refused = |name, bound, lateness| {
        let answers = [(0, 3, 0), (1, 3, 0), (2, 3, 0)];
        whole(name, words(bound, lateness), &steps, &answers, words(bound, lateness))
    };
    vec![
        refused("E = 1001 gets 3", 1, 1001),
        refused("E = 4294967295 gets 3", 1, u32::MAX),
        refused("T = 0 gets 3, whatever E is", 0, 1000),
        refused("T = 1001 gets 3, whatever E is", 1001, 0),
        whole("E = 1000 is well formed", words(1000, 1000), &steps[2..], &[(0, 4, 0)], words(1000, 1000)),
    ]
}

/// 1 comes before 2, and no word is changed.
fn made(calls: &Calls) -> Result<String, String> {
    let taken = [(0, 47, 0), (1000, 47, 0)];
    let refused = [(1001, 47, 1), (1 << 31, 47, 1), (u32::MAX, 47, 1), (1000, 46, 2), (1001, 46, 1)];
    for (lateness, length, refusal) in taken.into_iter().chain(refused) {
        let params = Params { lateness, ..Params::LEAST };
        let mut lent = Lent::new(&vec![7; length]);
        let answer = calls.make(lent.words_mut(), params);
        let expected = if refusal == 0 { fresh(params) } else { vec![7; length] };
        if answer != Answer::refused(refusal) || lent.words() != expected || !lent.is_intact() {
            return Err(format!("E = {lateness}, {length} words: {answer}, {:?}", lent.words()));
        }
    }
    Ok("7 cases".into())
}

/// At the last retire node 0 is visible, and older than T + E = 3 ticks; nodes 1 and 2 are 3 ticks old: with node 3 there are as many
/// unfreed as the bound allows, and more than it would over a tick less.
fn bound(calls: &Calls) -> Result<String, String> {
    let params = Params::of(&[1, 1, 4, 1, 1, 1, 2]);
    let visible = [Kind::Allocate, Kind::Publish, Kind::Protect, Kind::Flush, Kind::Remove, Kind::Retire].map(of);
    let young = [turnover(0, 1, 71), turnover(0, 2, 72), ticks_of(3), turnover(0, 3, 73)].concat();
    let steps = [visible.to_vec(), ticks_of(1), young].concat();
    let followed = |lateness| {
        let (mut words, mut reference) = (fresh(params), Reference::new(Params { lateness, ..params }));
        steps.iter().enumerate().try_for_each(|(number, &step)| {
            let answer = calls.step(&mut words, step);
            reference.follow(step, answer, &words).map_err(|objection| (number, objection))
        })
    };
    let expected = (steps.len() - 1, "process 0 has 4 unfreed nodes, above the bound of 2".to_string());
    match (followed(2), followed(1)) {
        (Ok(()), Err(found)) if found == expected => Ok(format!("over a tick less, {}", found.1)),
        other => Err(format!("{other:?}")),
    }
}

/// Random runs with T and E beside the same with T + E and 0: the same answers, and the same words but for the two parameters.
fn as_sum(calls: &Calls, seed: u64, runs: u64) -> Result<String, String> {
    let (mut steps, mut late) = (0, 0);
    for run in 0..runs {
        let random = &mut Random::new(seed ^ 0x1a7e, run);
        let in_range = |params: &Params| params.delay() <= Params::MOST.visibility_bound;
        let params = std::iter::repeat_with(|| Params::random(random)).find(in_range).expect("small parameters");
        let domain = if random.chance(50) { Domain::fresh(params) } else { arbitrary::domain(random, params) };
        steps +=
            one_sum(calls, domain, random).map_err(|wrong| format!("seed {seed}, run {run}, {params}: {wrong}"))?;
        late += (params.lateness > 0) as u64;
    }
    match 2 * late > runs {
        true => Ok(format!("{runs} runs, {late} of them with E above 0, {steps} steps")),
        false => Err(format!("only {late} of {runs} runs with E above 0")),
    }
}

fn one_sum(calls: &Calls, domain: Domain, random: &mut Random) -> Result<u32, String> {
    let (mood, length) = (Mood::random(random), *random.of(&[10, 100, 400]));
    let summed = |mut words: Vec<u32>| {
        (words[BOUND], words[LATENESS]) = (words[BOUND] + words[LATENESS], 0);
        words
    };
    let mut split = words_of(&domain);
    let mut sum = summed(split.clone());
    let mut model = Model { rules: Rules::default(), domain };
    for number in 0..length {
        let step = mood.step(random, &model);
        model.step(step);
        let answers = [calls.step(&mut split, step), calls.step(&mut sum, step)];
        if answers[0] != answers[1] || summed(split.clone()) != sum {
            return Err(format!("step {number} ({step}): {} and {}, or other words", answers[0], answers[1]));
        }
    }
    Ok(length)
}
