//! The readers of the header beside the model's words: each word by its own reader, and nothing past the slice.

use crate::arbitrary;
use crate::layout::{word_count, BUFFER, HAZARD, LEAD, NODE, STORE};
use crate::model::words::words_of;
use crate::params::Params;
use crate::random::Random;
use crate::readers::{read, read_all};
use crate::report::Report;

type Outcome = Result<String, String>;

pub fn all(report: &mut Report, seed: u64) {
    report.test("readers: arbitrary domains, word by word", || arbitrary_domains(seed, 2_000));
    report.test("readers: each word is read by its own reader", || own_words(seed));
    report.test("readers: 0 past the last process, hazard, store and node", || past_the_last(seed));
    report.test("readers: nothing is read past a slice that is cut anywhere", || cut_anywhere(seed));
    report.test("readers: any words, any lengths", || any_words(seed, 20_000));
    report.test("readers: no words at all", no_words);
}

fn sizes(params: Params) -> [u32; 3] {
    [params.processes, params.hazards, params.nodes]
}

/// Where two rows of words first differ.
fn same(found: &[u32], expected: &[u32], what: impl Fn() -> String) -> Result<(), String> {
    if found.len() != expected.len() {
        return Err(format!("{}: {} words read, {} expected", what(), found.len(), expected.len()));
    }
    match found.iter().zip(expected).position(|(found, expected)| found != expected) {
        Some(at) => Err(format!("{}: word {at} is read as {}, it is {}", what(), found[at], expected[at])),
        None => Ok(()),
    }
}

fn arbitrary_domains(seed: u64, count: u64) -> Outcome {
    let mut words_read = 0;
    for index in 0..count {
        let random = &mut Random::new(seed, index);
        let params = Params::random(random);
        let words = words_of(&arbitrary::domain(random, params));
        same(&read_all(&words, sizes(params)), &words, || format!("domain {index}, {params}"))?;
        words_read += words.len();
    }
    Ok(format!("{count} domains, {words_read} words"))
}

/// Words that all differ, but that the first three say how many there are of each.
fn different(params: Params) -> Vec<u32> {
    let mut words: Vec<u32> = (0..word_count(params) as u32).map(|at| 0xD000_0000 + at).collect();
    words[..3].copy_from_slice(&sizes(params));
    words
}

fn shapes(seed: u64) -> impl Iterator<Item = Params> {
    let random = (0..200).map(move |index| Params::random(&mut Random::new(seed, index)));
    [Params::LEAST, Params::MOST].into_iter().chain(random)
}

fn own_words(seed: u64) -> Outcome {
    let mut count = 0;
    for params in shapes(seed) {
        let words = different(params);
        same(&read_all(&words, sizes(params)), &words, || format!("{params}"))?;
        count += 1;
    }
    Ok(format!("{count} shapes"))
}

fn past_the_last(seed: u64) -> Outcome {
    for params in shapes(seed) {
        let (words, [n, k, m]) = (different(params), sizes(params));
        let found = read(&words, n + 2, k + 3, BUFFER as u32 + 2, m + 3);
        let mut expected = words[..crate::layout::HEAD].to_vec();
        let width = crate::layout::process_width(params);
        for own in words[crate::layout::HEAD..].chunks(width).take(n as usize) {
            let (front, stores) = own.split_at(LEAD + HAZARD * k as usize);
            expected.extend(front);
            expected.extend([0; 3 * HAZARD]);
            expected.extend(stores);
            expected.extend([0; 2 * STORE]);
        }
        let wider = width + 3 * HAZARD + 2 * STORE;
        expected.extend(std::iter::repeat_n(0, 2 * wider));
        expected.extend(&words[words.len() - NODE * m as usize..]);
        expected.extend([0; 3 * NODE]);
        same(&found, &expected, || format!("{params}"))?;
    }
    Ok("202 shapes".into())
}

/// The words past a cut stay in memory, and none of them is read: what stands there is read as 0.
fn cut_anywhere(seed: u64) -> Outcome {
    let mut cuts = 0;
    for params in shapes(seed).filter(|params| word_count(*params) < 300) {
        let words = different(params);
        for len in 3..words.len() {
            let mut expected = words[..len].to_vec();
            expected.resize(words.len(), 0);
            same(&read_all(&words[..len], sizes(params)), &expected, || format!("{params} cut to {len}"))?;
            cuts += 1;
        }
    }
    Ok(format!("{cuts} cuts"))
}

/// Words that are no domain: every number read is one of theirs or 0, so no reader leaves the slice.
fn any_words(seed: u64, count: u64) -> Outcome {
    for index in 0..count {
        let random = &mut Random::new(seed, index);
        let len = random.below(60) as usize;
        let mut memory: Vec<u32> = (0..len + 64).map(|at| 0xD000_0000 + at as u32).collect();
        for place in 0..3.min(len) {
            memory[place] = *random.of(&[0, 1, 2, 3, 16, 255, 1 << 31, u32::MAX]);
        }
        let words = &memory[..len];
        if let Some(stray) = read(words, 4, 4, 9, 4).into_iter().find(|word| *word != 0 && !words.contains(word)) {
            return Err(format!("{words:?}: {stray} is read"));
        }
    }
    Ok(format!("{count} slices"))
}

fn no_words() -> Outcome {
    match read(&[], 2, 2, 2, 2).iter().all(|&word| word == 0) {
        true => Ok("all 0".into()),
        false => Err("something is read".into()),
    }
}
