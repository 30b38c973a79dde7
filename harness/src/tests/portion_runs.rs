//! Portions on random domains, one after another until the last node: what they leave is what one whole scan leaves, and each says rightly
//! what it met and what is left. The Retired nodes are counted in the words.

use crate::arbitrary;
use crate::layout::{node_start, NODE};
use crate::library::Calls;
use crate::model::domain::{Domain, Node, Path};
use crate::model::mistake::Rules;
use crate::model::words::{decode, words_of};
use crate::model::Model;
use crate::params::Params;
use crate::portion::{Portion, PortionAnswer};
use crate::random::Random;
use crate::report::Report;
use crate::step::{Kind, State, Step};

pub fn all(report: &mut Report, calls: &Calls, seed: u64) {
    report.test("portions to the last node leave what one whole scan leaves", || one_scan(calls, seed, 20_000));
    report.test("portions to the last node leave what the library's own scan leaves", || beside(calls, seed, 10_000));
    report.test("a portion from anywhere meets, frees and leaves what it says", || anywhere(calls, seed, 30_000));
}

/// A domain in which a process that is present has most of the nodes, many of them Retired and old; and that process.
fn random_domain(random: &mut Random) -> (Domain, u32) {
    let params = Params::random(random);
    let mut domain = arbitrary::domain(random, params);
    let process = random.below(params.processes);
    domain.processes[process as usize].present = true;
    let share = *random.of(&[0, 50, 100]);
    for node in &mut domain.nodes {
        if let Node::Retired { owner, retired_at, .. } = node {
            if random.chance(share) {
                *owner = process;
                *retired_at = retired_at.saturating_sub(random.up_to(2 * params.delay()));
            }
        }
    }
    (domain, process)
}

/// The Retired nodes of a process among those from one up to another, that one left out.
fn retired(words: &[u32], params: Params, process: u32, from: u32, to: u32) -> u32 {
    let is_own = |&id: &u32| words[node_start(params, id as usize)..][..2] == [State::Retired as u32, process];
    (from..to).filter(is_own).count() as u32
}

fn any_limit(random: &mut Random) -> u32 {
    let most = *random.of(&[1, 2, 4, 16, 256]);
    1 + random.below(most)
}

/// A portion, and whether all that it says of the words before it and after it is so.
fn portion(calls: &Calls, words: &mut [u32], params: Params, asked: Portion) -> Result<PortionAnswer, String> {
    let before = words.to_vec();
    let answer = calls.portion(words, asked);
    let wrong = |what: &str| Err(format!("{asked}: {answer}, {what}"));
    let PortionAnswer { refusal, freed, examined, next, left } = answer;
    let own = |words: &[u32], from, to| retired(words, params, asked.process, from, to);
    if refusal != 0 || next <= asked.start || next > params.nodes {
        return wrong("refused, or next is not past the start");
    }
    if examined != own(&before, asked.start, next) || examined > asked.limit {
        return wrong("examined is not what was Retired up to next, or above the limit");
    }
    if examined < asked.limit && next != params.nodes {
        return wrong("it ended before the limit and before M");
    }
    if examined == asked.limit && own(&before, asked.start, next - 1) == examined {
        return wrong("the node before next is not the last that was examined");
    }
    if left != own(words, next, params.nodes) || left != own(&before, next, params.nodes) {
        return wrong("left is not what is Retired from next on");
    }
    if freed != examined - own(words, asked.start, next) || !only_freed(&before, words, params, asked, next) {
        return wrong("freed is not what turned Free, or another word has changed");
    }
    Ok(answer)
}

/// Whether the words differ only in Retired nodes of the process, up to next, that are Free now.
fn only_freed(before: &[u32], words: &[u32], params: Params, asked: Portion, next: u32) -> bool {
    let mut expected = before.to_vec();
    for id in asked.start..next {
        let at = node_start(params, id as usize);
        if words[at] == State::Free as u32 && before[at..][..2] == [State::Retired as u32, asked.process] {
            expected[at..][..NODE].fill(0);
        }
    }
    expected == words
}

/// How many portions it took from node 0 to M, each with a random limit from where the last one ended, and how many nodes they freed.
fn to_the_end(calls: &Calls, words: &mut [u32], of: (Params, u32), random: &mut Random) -> Result<(u32, u32), String> {
    let ((params, process), mut start, mut count, mut freed) = (of, 0, 0, 0);
    let same_limit = random.chance(50).then(|| any_limit(random));
    while start < params.nodes {
        let limit = same_limit.unwrap_or_else(|| any_limit(random));
        let answer = portion(calls, words, params, Portion { process, start, limit })?;
        (start, count, freed) = (answer.next, count + 1, freed + answer.freed);
    }
    Ok((count, freed))
}

/// Beside one portion of all and beside the model's scan.
fn one_scan(calls: &Calls, seed: u64, cases: u64) -> Result<String, String> {
    let (mut portions, mut several, mut freed) = (0, 0, 0);
    for index in 0..cases {
        let random = &mut Random::new(seed ^ 0x9041, index);
        let (domain, process) = random_domain(random);
        let (params, mut words) = (domain.params, words_of(&domain));
        let mut whole = words.clone();
        let wrong = |what: String| format!("seed {seed}, case {index}: {what}");
        let all = portion(calls, &mut whole, params, Portion { process, start: 0, limit: 256 }).map_err(wrong)?;
        let (count, sum) = to_the_end(calls, &mut words, (params, process), random).map_err(wrong)?;
        let mut model = Model { rules: Rules::default(), domain };
        let scanned = model.scan(process);
        if [all.next, all.left] != [params.nodes, 0] || [sum, all.freed] != [scanned; 2] {
            return Err(wrong(format!("{sum} freed, {all} in one, {scanned} by a scan")));
        }
        if words != whole || decode(&words, Rules::default()) != Some(model.domain) {
            return Err(wrong("the words are not those of one scan".into()));
        }
        (portions, several, freed) = (portions + count, several + (count > 2) as u32, freed + sum);
    }
    Ok(format!("{cases} domains, {portions} portions, more than two in {several}, {freed} nodes freed"))
}

/// Beside a retire on the fallback path, which scans: its own node is 0 ticks old, and stays.
fn beside(calls: &Calls, seed: u64, cases: u64) -> Result<String, String> {
    let mut freed = 0;
    for index in 0..cases {
        let random = &mut Random::new(seed ^ 0x5ca9, index);
        let (mut domain, process) = random_domain(random);
        let (params, node) = (domain.params, random.below(domain.params.nodes));
        domain.path = Path::Fallback;
        domain.nodes[node as usize] = Node::Removed { owner: process, guest: 70 };
        let (mut words, mut scanned) = (words_of(&domain), words_of(&domain));
        let wrong = |what: String| format!("seed {seed}, case {index}: {what}");
        let answer = calls.step(&mut scanned, Step::new(Kind::Retire, process, 0, node, 0));
        let (_, sum) = to_the_end(calls, &mut words, (params, process), random).map_err(wrong)?;
        let at = node_start(params, node as usize);
        words[at..][..NODE].copy_from_slice(&scanned[at..][..NODE]);
        if answer.refusal != 0 || answer.value != sum || words != scanned {
            return Err(wrong(format!("{sum} freed, a retire answers {answer}, the same words: {}", words == scanned)));
        }
        freed += sum;
    }
    Ok(format!("{cases} domains, {freed} nodes freed"))
}

fn anywhere(calls: &Calls, seed: u64, cases: u64) -> Result<String, String> {
    let (mut full, mut freed) = (0, 0);
    for index in 0..cases {
        let random = &mut Random::new(seed ^ 0xa47e, index);
        let (domain, process) = random_domain(random);
        let (start, limit) = (random.below(domain.params.nodes), any_limit(random));
        let answer = portion(calls, &mut words_of(&domain), domain.params, Portion { process, start, limit })
            .map_err(|wrong| format!("seed {seed}, case {index}: {wrong}"))?;
        (full, freed) = (full + (answer.examined == limit) as u32, freed + answer.freed);
    }
    Ok(format!("{cases} portions, {full} of them to the limit, {freed} nodes freed"))
}
