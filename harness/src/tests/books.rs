//! Books through the built `desk`: what it prints is what the model prints.

use super::examples;
use super::program::{caught, complaint, given, only_complaint, Outcome};
use crate::book::{distance, print, trailer, write, GREATEST, MOST_STEPS, PARAMS, STEP, TRAILER};
use crate::model::mistake::Rules;
use crate::model::Model;
use crate::params::Params;
use crate::random::Random;
use crate::report::Report;
use crate::schedule::Mood;
use crate::step::Step;
use std::fs::File;
use std::path::Path;
use std::process::{Command, Stdio};

pub fn all(report: &mut Report, desk: &Path, folder: &Path, seed: u64) {
    let mut test =
        |name: &str, test: &dyn Fn(&Path, u64) -> Outcome| report.test(&format!("desk: {name}"), || test(desk, seed));
    test("random books", &random_books);
    test("any kind, process and hazard byte, any unread byte", &any_bytes);
    test("no steps", &|desk, _| same(desk, &write(Params::of(&[2, 1, 2, 3, 1, 1]), &[], 0)));
    test("books cut at every byte", &cut);
    test("padded in front", &padded);
    test("a wrong mark", &wrong_mark);
    test("a wrong distance or count", &wrong_numbers);
    test("a count near 2^32", &great_counts);
    test("parameters out of range", &wrong_params);
    test("the greatest E is printed last", &lateness);
    test("books from before E", &before_lateness);
    test("65,536 and 65,537 bytes", &longest);
    test("in small chunks", &chunks);
    test("unreadable input", &unreadable);
    test("unwritable output", &unwritable);
    for name in examples::NAMES {
        test(&format!("examples/{name}.book"), &|desk, _| same(desk, &examples::read(folder, name)?.0));
    }
}

fn same_in(desk: &Path, input: &[u8], chunk: usize) -> Outcome {
    let output = caught(&mut Command::new(desk), input, chunk)?;
    let (found, expected) = (String::from_utf8_lossy(&output.stdout), print(input));
    if found != expected {
        let line = found.lines().zip(expected.lines()).take_while(|(x, y)| x == y).count();
        let of = |text: &str| text.lines().nth(line).unwrap_or("nothing").to_string();
        return Err(format!("{} bytes, line {line}: {}, expected {}", input.len(), of(&found), of(&expected)));
    }
    match output.stderr.is_empty() {
        true => Ok(expected.lines().next().unwrap_or_default().to_string()),
        false => Err(format!("standard error: {}", String::from_utf8_lossy(&output.stderr))),
    }
}

fn same(desk: &Path, input: &[u8]) -> Outcome {
    same_in(desk, input, input.len().max(1))
}

/// Each of the books prints as the model does, or is refused with this number.
fn each(desk: &Path, books: impl IntoIterator<Item = Vec<u8>>, refusal: Option<u32>) -> Outcome {
    let mut count = 0;
    for book in books {
        let first = same(desk, &book)?;
        if let Some(number) = refusal {
            if first != format!("refused {number}") {
                return Err(format!("{first}, expected refused {number}"));
            }
        }
        count += 1;
    }
    Ok(format!("{count} books"))
}

/// Steps that are mostly accepted, with fields that fit a book.
fn schedule(random: &mut Random, params: Params, length: usize) -> Vec<Step> {
    let (mut model, mood) = (Model::fresh(params, Rules::default()), Mood::random(random));
    let steps = (0..length).map(|_| {
        let mut step = mood.step(random, &model);
        for field in [&mut step.kind, &mut step.process, &mut step.hazard] {
            *field &= 255;
        }
        model.step(step);
        step
    });
    steps.collect()
}

pub(super) fn random_book(seed: u64, index: u64) -> Vec<u8> {
    let mut random = Random::new(seed ^ 0xb00c, index);
    let params = Params::random(&mut random);
    let length = *random.of(&[1, 13, 100, 700]);
    book_of(&mut random, params, length)
}

pub(super) fn book_of(random: &mut Random, params: Params, length: usize) -> Vec<u8> {
    let steps = schedule(random, params, length);
    write(params, &steps, random.word() as u8)
}

fn random_books(desk: &Path, seed: u64) -> Outcome {
    each(desk, (0..150).map(|index| random_book(seed, index)), None)
}

fn any_bytes(desk: &Path, seed: u64) -> Outcome {
    let books = (0..30).map(|index| {
        let mut random = Random::new(seed ^ 0xa11b, index);
        let params = Params::random(&mut random);
        let mut book = write(params, &schedule(&mut random, params, 300), 0);
        let end = book.len() - TRAILER;
        for _ in 0..200 {
            let place = PARAMS + random.below((end - PARAMS) as u32) as usize;
            book[place] = random.word() as u8;
        }
        book
    });
    each(desk, books, None)
}

fn cut(desk: &Path, seed: u64) -> Outcome {
    let steps = schedule(&mut Random::new(seed, 1), Params::of(&[2, 1, 2, 3, 1, 1]), 13);
    let book = write(Params::of(&[2, 1, 2, 3, 1, 1]), &steps, 0);
    let tails = (1..book.len()).map(|end| book[..end].to_vec());
    let heads = (1..book.len()).map(|start| book[start..].to_vec());
    each(desk, [vec![]].into_iter().chain(tails).chain(heads), Some(19))
}

fn padded(desk: &Path, seed: u64) -> Outcome {
    let books = (0..40).map(|index| {
        let mut random = Random::new(seed ^ 0x9ad, index);
        let padding = *random.of(&[1, 3, 12, 500, 20_000]);
        let mut bytes: Vec<u8> = (0..padding).map(|_| random.word() as u8).collect();
        bytes.extend(random_book(seed, index));
        bytes
    });
    each(desk, books, None)
}

fn wrong_mark(desk: &Path, seed: u64) -> Outcome {
    let books = (0..32).map(|bit| {
        let mut book = random_book(seed, bit);
        let place = book.len() - 4 + bit as usize / 8;
        book[place] ^= 1 << (bit % 8);
        book
    });
    each(desk, books, Some(19))
}

pub(super) fn with_trailer(book: &[u8], count: u32, distance: u32) -> Vec<u8> {
    [&book[..book.len() - TRAILER], &trailer(count, distance)].concat()
}

fn wrong_numbers(desk: &Path, seed: u64) -> Outcome {
    let book = write(Params::LEAST, &schedule(&mut Random::new(seed, 2), Params::LEAST, 10), 0);
    let (none, right) = (distance(0) as u32, distance(10) as u32);
    let near = [right - STEP as u32, right - 4, right - 1, right + 1, right + STEP as u32];
    let distances = [0, 12, 24, 28, none - 1, none + 1, 1 << 31, u32::MAX].into_iter().chain(near);
    let wrong = distances.map(|distance| with_trailer(&book, 10, distance));
    let counts = [0, 1, 9, 11, 1 << 31, u32::MAX].map(|count| with_trailer(&book, count, right));
    let beyond = [11, 5000].map(|count| with_trailer(&book, count, distance(count as usize) as u32));
    each(desk, wrong.chain(counts).chain(beyond), Some(19))
}

/// Counts whose distance passes 32 bits: wrapped or not, none is right.
fn great_counts(desk: &Path, seed: u64) -> Outcome {
    let book = random_book(seed, 3);
    let counts = [u32::MAX, u32::MAX - 1, u32::MAX - 2, u32::MAX / 12, u32::MAX / 12 + 1, 1 << 30, (1 << 30) + 1];
    let pairs = counts.into_iter().flat_map(|count| {
        let none = distance(0) as u32;
        let wrapped = count.wrapping_mul(STEP as u32).wrapping_add(none);
        [wrapped, wrapped.min(book.len() as u32), u32::MAX, none].map(|distance| (count, distance))
    });
    let books: Vec<_> = pairs.map(|(count, distance)| with_trailer(&book, count, distance)).collect();
    each(desk, books, Some(19))
}

fn wrong_params(desk: &Path, seed: u64) -> Outcome {
    let most = Params::MOST.numbers();
    let values = |place: usize| [0, most[place] + 1, 1 << 31, u32::MAX].map(|value| (place, value));
    let books = (0..Params::COUNT).flat_map(values).filter_map(|(place, value)| {
        let mut numbers = Params::LEAST.numbers();
        numbers[place] = value;
        let params = Params::from_numbers(numbers);
        let steps = schedule(&mut Random::new(seed, 4), Params::LEAST, 5);
        (!params.in_range()).then(|| write(params, &steps, 0))
    });
    each(desk, books, Some(1))
}

fn lateness(desk: &Path, _: u64) -> Outcome {
    let first = same(desk, &write(Params::of(&[2, 1, 2, 3, 1, 1, 1000]), &[], 0))?;
    match first == "desk 2 1 2 3 1 1 1000" {
        true => Ok(first),
        false => Err(first),
    }
}

/// A book as it was written before E: six parameters, and the distance of then.
pub(super) fn old_book(first: [u32; 6], seed: u64, count: usize) -> Vec<u8> {
    let (params, old) = (Params::of(&[2, 1, 2, 3, 1, 1]), first.map(u32::to_le_bytes).concat());
    let book = write(params, &schedule(&mut Random::new(seed, 8), params, count), 0);
    [&old, &book[PARAMS..book.len() - TRAILER], &trailer(count as u32, 36 + 12 * count as u32)].concat()
}

/// They get 19, with whatever in front, also where a parameter is out of range; 18 comes first. So do bytes of now with that distance.
fn before_lateness(desk: &Path, seed: u64) -> Outcome {
    let good = |count| old_book([2, 1, 2, 3, 1, 1], seed, count);
    let padded = |padding, count| [vec![0; padding], good(count)].concat();
    let now = write(Params::LEAST, &schedule(&mut Random::new(seed, 9), Params::LEAST, 5), 0);
    let books = [good(0), good(13), good(5_458), padded(4, 13), padded(12, 13), padded(4, 5_458)];
    each(desk, books, Some(19))?;
    each(desk, [old_book([0, 1, 2, 3, 1, 1], seed, 13), with_trailer(&now, 5, 96)], Some(19))?;
    each(desk, [padded(5, 5_458)], Some(18))?;
    Ok("refused with 19, and past 65,536 bytes with 18".into())
}

fn longest(desk: &Path, seed: u64) -> Outcome {
    let params = Params::of(&[4, 2, 32, 3, 2, 4]);
    let book = |count| write(params, &schedule(&mut Random::new(seed, 5), params, count), 0);
    let padded = |count, length: usize| [vec![7; length - distance(count)], book(count)].concat();
    let greatest = book(MOST_STEPS);
    if (MOST_STEPS, greatest.len()) != (5_458, 65_536) {
        return Err(format!("the greatest book has {MOST_STEPS} steps and {} bytes", greatest.len()));
    }
    each(desk, [greatest, padded(MOST_STEPS - 1, 65_536), padded(0, 65_536)], None)?;
    let longer = [padded(MOST_STEPS, 65_537), padded(MOST_STEPS - 1, 65_537), padded(MOST_STEPS, 65_538)];
    each(desk, longer.into_iter().chain([vec![0; GREATEST + 1], vec![0; 300_000]]), Some(18))?;
    Ok(format!("{MOST_STEPS} steps; {GREATEST} bytes taken, longer ones refused with 18"))
}

fn chunks(desk: &Path, seed: u64) -> Outcome {
    let params = Params::of(&[4, 2, 32, 3, 2, 4]);
    let sizes = [1, 2, 7, 11, 12, 13, 100, 4096];
    for chunk in sizes {
        let length = if chunk < 10 { 40 } else { 700 };
        same_in(desk, &book_of(&mut Random::new(seed, 6), params, length), chunk)?;
    }
    Ok(format!("{} sizes", sizes.len()))
}

/// A directory as standard input cannot be read: a line on standard error, nothing on standard output.
fn unreadable(desk: &Path, _: u64) -> Outcome {
    let directory = File::open("/").map_err(|error| error.to_string())?;
    let output = Command::new(desk).stdin(directory).output().map_err(|error| error.to_string())?;
    only_complaint(&output)
}

/// A device that is full as standard output, for a book of many pages, for one of a page and for one that is refused: a line on
/// standard error each.
fn unwritable(desk: &Path, seed: u64) -> Outcome {
    let book = |length| book_of(&mut Random::new(seed, 7), Params::of(&[4, 2, 32, 3, 2, 4]), length);
    let mut said = String::new();
    for input in [book(700), book(1), Vec::new()] {
        let mut command = Command::new(desk);
        let full = File::options().write(true).open("/dev/full").map_err(|error| error.to_string())?;
        said = complaint(&given(command.stdout(full).stderr(Stdio::piped()), &input, input.len().max(1))?)?;
    }
    Ok(said)
}
