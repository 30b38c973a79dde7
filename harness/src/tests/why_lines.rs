//! What the built program `why` prints, for books and for words, beside the line of the model's answer; and how it takes its argument.

use super::books::{book_of, old_book, random_book, with_trailer};
use super::program::{caught, complaint, given, only_complaint, Outcome};
use crate::arbitrary;
use crate::book::{distance, end, trailer, write, GREATEST, MARK, MOST_STEPS, PARAMS};
use crate::broken::every_word;
use crate::explain::{bytes_of, print, DIGITS};
use crate::model::domain::{Domain, Node};
use crate::model::words::words_of;
use crate::params::Params;
use crate::random::Random;
use crate::report::Report;
use std::ffi::OsStr;
use std::fs::File;
use std::os::unix::ffi::OsStrExt;
use std::path::Path;
use std::process::{Command, Stdio};

pub fn all(report: &mut Report, why: &Path, seed: u64) {
    let mut test = |name: &str, test: &dyn Fn(&Path, u64) -> Outcome| {
        report.test(&format!("program why: {name}"), || test(why, seed))
    };
    test("random books", &random_books);
    test("a fresh desk", &fresh);
    test("random words", &random_words);
    test("the longest lines", &longest_lines);
    test("one word broken", &one_broken);
    test("words cut at every length", &cut_words);
    test("books cut at every byte", &cut_books);
    test("7 after 3, 18, 19 and 1", &past_cards);
    test("books that are none", &wrong_books);
    test("a book told from words by its mark", &marks);
    test("65,536 and 65,537 bytes", &longest);
    test("in small chunks", &chunks);
    test("cards as they are written", &good_arguments);
    test("arguments that are no card", &bad_arguments);
    test("none or two arguments", &argument_counts);
    test("unreadable input", &unreadable);
    test("unwritable output", &unwritable);
}

/// The line of a card, given the input in pieces, as the model says it.
fn same_in(why: &Path, argument: &str, input: &[u8], chunk: usize) -> Outcome {
    let output = caught(Command::new(why).arg(argument), input, chunk)?;
    let (found, expected) = (String::from_utf8_lossy(&output.stdout), print(card_of(argument)?, input));
    if found != expected {
        return Err(format!("{} bytes, why {argument}: {found:?}, expected {expected:?}", input.len()));
    }
    match output.stderr.is_empty() {
        true => Ok(expected.trim_end().to_string()),
        false => Err(format!("standard error: {}", String::from_utf8_lossy(&output.stderr))),
    }
}

fn card_of(argument: &str) -> Result<u32, String> {
    argument.parse().map_err(|_| format!("{argument} is no card"))
}

fn same(why: &Path, card: u32, input: &[u8]) -> Outcome {
    same_in(why, &card.to_string(), input, input.len().max(1))
}

/// What lines say, each of which random books and random words are to lead to.
const SAID: [&str; 10] = [
    "it is Free",
    "it is Allocated",
    "it is Reachable",
    "it is Removed",
    "too young",
    "on the board",
    "ready",
    "has not seen",
    "every present worker",
    "refused 7",
];

/// Whether all is said by some line, and without a word on epochs too.
fn all_said(lines: &[String]) -> Outcome {
    let epochs = |line: &&String| !line.contains(';') && !line.starts_with("refused");
    let missing = SAID.iter().find(|said| !lines.iter().any(|line| line.contains(**said)));
    match (missing, lines.iter().any(|line| epochs(&line))) {
        (None, true) => Ok(format!("{} lines", lines.len())),
        other => Err(format!("no line says {other:?}")),
    }
}

/// Each of the inputs with each of the cards, as the model says it, or refused with this number.
fn each(why: &Path, cards: &[u32], inputs: impl IntoIterator<Item = Vec<u8>>, refusal: Option<u32>) -> Outcome {
    let mut count = 0;
    for input in inputs {
        for &card in cards {
            let line = same(why, card, &input)?;
            if let Some(number) = refusal.filter(|number| line != format!("refused {number}")) {
                return Err(format!("{line}, expected refused {number}"));
            }
            count += 1;
        }
    }
    Ok(format!("{count} lines"))
}

/// Some cards of a domain with these parameters, and some past them.
fn some_cards(random: &mut Random, params: Params) -> Vec<u32> {
    let m = params.nodes;
    let mut cards = vec![0, m - 1, random.below(m), random.below(m), *random.of(&[m, m + 1, 255, 256, 999_999_999])];
    cards.sort();
    cards.dedup();
    cards
}

fn random_books(why: &Path, seed: u64) -> Outcome {
    let mut lines = Vec::new();
    for index in 0..120 {
        let book = random_book(seed ^ 0x37, index);
        let params = end(&book).map_err(|number| format!("refused {number}"))?.domain.params;
        for card in some_cards(&mut Random::new(seed ^ 0xca4d, index), params) {
            lines.push(same(why, card, &book)?);
        }
    }
    all_said(&lines)
}

fn fresh(why: &Path, _: u64) -> Outcome {
    let line = same(why, 1, &write(Params::of(&[2, 1, 2, 3]), &[], 0))?;
    match line == "card 1: not Retired, it is Free; every present worker has seen the new epoch" {
        true => Ok(line),
        false => Err(line),
    }
}

fn random_words(why: &Path, seed: u64) -> Outcome {
    let mut lines = Vec::new();
    for index in 0..150 {
        let random = &mut Random::new(seed ^ 0x30ad, index);
        let params = Params::random(random);
        let words = bytes_of(&words_of(&arbitrary::domain(random, params)));
        for card in some_cards(random, params) {
            lines.push(same(why, card, &words)?);
        }
    }
    all_said(&lines)
}

/// The greatest numbers, with nobody behind.
fn longest_lines(why: &Path, _: u64) -> Outcome {
    let mut domain = Domain { clock: 3000, ..Domain::fresh(Params::MOST) };
    let retired = |retired_at| Node::Retired { owner: 15, guest: 70, retired_at, limbo: 2 };
    domain.processes[15].hazards[7].visible = Some(255);
    (domain.nodes[254], domain.nodes[255]) = (retired(3000), retired(0));
    let words = bytes_of(&words_of(&domain));
    let lines = [same(why, 254, &words)?, same(why, 255, &words)?];
    let nobody = "every present worker has seen the new epoch";
    let expected = [
        format!("card 254: too young, 2001 ticks until a scan can free it; {nobody}"),
        format!("card 255: on the board as its owner sees it, worker 15 slot 7 names it; {nobody}"),
    ];
    match lines == expected {
        true => Ok(format!("{} and {} bytes", lines[0].len() + 1, lines[1].len() + 1)),
        false => Err(format!("{lines:?}")),
    }
}

/// A small domain of any content, and its words.
fn small_words(seed: u64, index: u64) -> (Domain, Vec<u32>) {
    let domain = arbitrary::domain(&mut Random::new(seed ^ 0x57a1, index), Params::of(&[2, 1, 2, 3]));
    let words = words_of(&domain);
    (domain, words)
}

fn one_broken(why: &Path, seed: u64) -> Outcome {
    let (domain, good) = small_words(seed, 0);
    let inputs = every_word(&domain).into_iter().map(|broken| {
        let mut words = good.clone();
        words[broken.index] = broken.value;
        bytes_of(&words)
    });
    each(why, &[1, 2], inputs.collect::<Vec<_>>(), Some(3))
}

/// Also empty, longer, and at lengths that are no whole words.
fn cut_words(why: &Path, seed: u64) -> Outcome {
    let bytes = bytes_of(&small_words(seed, 1).1);
    let shorter = (0..bytes.len()).map(|end| bytes[..end].to_vec());
    let longer = (1..=9).map(|more| [&bytes[..], &vec![0; more]].concat());
    let later = (1..9).map(|start| bytes[start..].to_vec());
    each(why, &[1], shorter.chain(longer).chain(later), Some(3))
}

/// Without its mark it is words, without its start it is a book still.
fn cut_books(why: &Path, seed: u64) -> Outcome {
    let book = book_of(&mut Random::new(seed, 11), Params::of(&[2, 1, 2, 3]), 5);
    let without_end = (0..book.len()).map(|end| book[..end].to_vec());
    each(why, &[1], without_end, Some(3))?;
    let without_start = (1..=book.len() - MARK.len()).map(|start| book[start..].to_vec());
    each(why, &[1], without_start, Some(19))?;
    Ok(format!("{} of each", book.len()))
}

/// The refusals of the input come before that of the card.
fn past_cards(why: &Path, seed: u64) -> Outcome {
    let cards = [2, 3, 256, 999_999_999];
    let book = book_of(&mut Random::new(seed, 12), Params::of(&[2, 1, 2, 3]), 20);
    let words = bytes_of(&small_words(seed, 2).1);
    each(why, &cards, [book.clone(), words.clone()], Some(7))?;
    each(why, &cards, [words[4..].to_vec(), words[1..].to_vec()], Some(3))?;
    each(why, &cards, [[vec![0; GREATEST], book.clone()].concat()], Some(18))?;
    each(why, &cards, [with_trailer(&book, 21, distance(20) as u32)], Some(19))?;
    each(why, &cards, [write(Params { nodes: 0, ..Params::LEAST }, &[], 0)], Some(1))
}

fn wrong_books(why: &Path, seed: u64) -> Outcome {
    let book = random_book(seed, 3);
    let numbers = [(0, 0), (1, 40), (u32::MAX, 28), (1 << 30, 40), (u32::MAX / 12, u32::MAX)];
    let trailers = numbers.map(|(count, distance)| with_trailer(&book, count, distance));
    let short = (0..12).map(|front| [vec![0; front], MARK.to_vec()].concat());
    each(why, &[0], trailers.into_iter().chain(short), Some(19))?;
    each(why, &[0], [0, 13].map(|count| old_book([2, 1, 2, 3, 1, 1], seed, count)), Some(19))?;
    let out_of_range = (0..Params::COUNT).map(|place| {
        let mut numbers = Params::MOST.numbers();
        numbers[place] += 1;
        write(Params::from_numbers(numbers), &[], 0)
    });
    each(why, &[0], out_of_range, Some(1))?;
    Ok("refused with 19 and 1".into())
}

/// The last four bytes alone tell a book from words.
fn marks(why: &Path, seed: u64) -> Outcome {
    let words = bytes_of(&small_words(seed, 4).1);
    let book = book_of(&mut Random::new(seed, 14), Params::of(&[2, 1, 2, 3]), 30);
    let ending = [&words[..words.len() - 4], MARK].concat();
    each(why, &[0, 1], [[&words[..], MARK].concat(), ending, [&words[..], &trailer(0, 12)].concat()], Some(19))?;
    each(why, &[0, 1], [[&book[..], &[0; 4]].concat(), [&book[..], &words].concat()], Some(3))?;
    let wrong = (0..32).map(|bit| {
        let mut book = book.clone();
        let place = book.len() - 4 + bit / 8;
        book[place] ^= 1 << (bit % 8);
        book
    });
    each(why, &[0], wrong, Some(3))?;
    let lines = [same(why, 1, &[&words[..], &book].concat())?, same(why, 1, &book)?];
    match lines[0] == lines[1] {
        true => Ok(lines[0].clone()),
        false => Err(format!("{lines:?}")),
    }
}

fn longest(why: &Path, seed: u64) -> Outcome {
    let params = Params::of(&[4, 2, 32, 3, 2, 4]);
    let greatest = book_of(&mut Random::new(seed, 15), params, MOST_STEPS);
    let padded = |length: usize| [vec![7; length - distance(0)], write(params, &[], 0)].concat();
    let whole: Vec<u32> = (0..32).collect();
    each(why, &whole, [greatest.clone(), padded(GREATEST)], None)?;
    each(why, &[0], [vec![0; GREATEST], vec![0; GREATEST - 1]], Some(3))?;
    let longer = [padded(GREATEST + 1), [&[0], &greatest[..]].concat(), vec![0; GREATEST + 1], vec![0; 300_000]];
    each(why, &[0, 32], longer, Some(18))?;
    Ok(format!("{MOST_STEPS} steps; longer ones refused with 18"))
}

fn chunks(why: &Path, seed: u64) -> Outcome {
    let (book, words) = (random_book(seed, 16), bytes_of(&small_words(seed, 5).1));
    let sizes = [1, 2, 3, 5, 7, 100];
    for chunk in sizes {
        same_in(why, "1", &words, chunk)?;
        same_in(why, "0", &book[book.len() - book.len().min(4096)..], chunk.max(7))?;
    }
    Ok(format!("{} sizes", sizes.len()))
}

/// From one digit to nine, noughts in front or not: the number is printed without them.
fn good_arguments(why: &Path, seed: u64) -> Outcome {
    let words = bytes_of(&small_words(seed, 6).1);
    let arguments = ["0", "1", "00", "01", "000000000", "000000001", "2", "9", "10", "000000002", "256", "999999999"];
    arguments.iter().try_for_each(|argument| same_in(why, argument, &words, words.len()).map(|_| ()))?;
    Ok(format!("{} of them", arguments.len()))
}

/// How the program is to be called, and nothing else.
fn usage(why: &Path, arguments: &[&[u8]], input: &[u8]) -> Outcome {
    let words = arguments.iter().map(|argument| OsStr::from_bytes(argument));
    let output = caught(Command::new(why).args(words), input, input.len().max(1))?;
    let wrong = |what: &str| format!("why {}: {what}", String::from_utf8_lossy(&arguments.join(&b' ')));
    let said = only_complaint(&output).map_err(|what| wrong(&what))?;
    if output.status.code().is_none() {
        return Err(wrong(&format!("{}", output.status)));
    }
    match said.starts_with("why: ") || said.contains("why CARD") {
        true => Ok(said),
        false => Err(wrong(&said)),
    }
}

fn bad_arguments(why: &Path, seed: u64) -> Outcome {
    let words = bytes_of(&small_words(seed, 7).1);
    let overlong = [b'0'; DIGITS + 1];
    let shown: [&str; 16] = [
        "",
        " ",
        "a",
        "1a",
        "a1",
        "1 ",
        " 1",
        "+1",
        "-1",
        "1.0",
        "0x1",
        "1\n",
        "4294967296",
        "1000000000",
        "--help",
        "١",
    ];
    let bytes: [&[u8]; 6] = [&overlong, &[b'9'; 300], b"/", b":", b"\xff", b"1\xb1"];
    let mut said = String::new();
    for argument in shown.map(str::as_bytes).iter().chain(&bytes) {
        for input in [&words[..], b"", b"QBAK"] {
            said = usage(why, &[argument], input)?;
        }
    }
    Ok(format!("{} of them: {said}", shown.len() + bytes.len()))
}

fn argument_counts(why: &Path, seed: u64) -> Outcome {
    let words = bytes_of(&small_words(seed, 8).1);
    let calls: [&[&[u8]]; 6] = [&[], &[b"0", b"0"], &[b"0", b""], &[b"", b"0"], &[b"0", b"1", b"2"], &[b"", b""]];
    let mut said = String::new();
    for arguments in calls {
        said = usage(why, arguments, &words)?;
    }
    Ok(said)
}

/// A directory as standard input cannot be read.
fn unreadable(why: &Path, _: u64) -> Outcome {
    let directory = File::open("/").map_err(|error| error.to_string())?;
    let output = Command::new(why).arg("0").stdin(directory).output().map_err(|error| error.to_string())?;
    only_complaint(&output)
}

/// A device that is full as standard output, for a line and for a refusal.
fn unwritable(why: &Path, seed: u64) -> Outcome {
    let mut said = String::new();
    for input in [random_book(seed, 17), vec![0; PARAMS]] {
        let full = File::options().write(true).open("/dev/full").map_err(|error| error.to_string())?;
        let mut command = Command::new(why);
        said = complaint(&given(command.arg("0").stdout(full).stderr(Stdio::piped()), &input, input.len())?)?;
    }
    Ok(said)
}
