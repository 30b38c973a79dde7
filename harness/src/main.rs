//! harness test [--desk PATH] [--without-desk] [--why PATH] [--without-why] [--examples FOLDER] [--seed N] [--steps N]
//! harness soak SECONDS [--seed N]
//! Compares the library with the model, and what the programs `desk` and `why` print (at target/bin, where PATH is not given) with what
//! the model prints. --without-desk and --without-why leave a program out, but only where it is not there. The seed may also stand in the
//! variable SEED. The last line is 'N passed, M failed'.

use harness::coverage::Coverage;
use harness::library::{PLAIN, QSENSE};
use harness::model::mistake::Rules;
use harness::report::Report;
use harness::tests::{
    books, edges, examples, late, leaving, make, malformed, mistakes, panel, portion_runs, portions, readers,
    round_orders, round_runs, rounds, runs, schedules, why, why_lines,
};
use std::path::PathBuf;
use std::process::ExitCode;
use std::time::{Duration, Instant, SystemTime, UNIX_EPOCH};

struct Program {
    path: PathBuf,
    /// left out where it is not there
    without: bool,
}

impl Program {
    fn at(path: &str) -> Program {
        Program { path: path.into(), without: false }
    }

    /// Whether it is to be tried; if it is left out, that is said.
    fn is_tried(&self, with: &str) -> bool {
        let left_out = self.without && !self.path.exists();
        if left_out {
            println!("left out: {with} through {}", self.path.display());
        }
        !left_out
    }
}

struct Options {
    soak: Option<u64>,
    seed: Option<u64>,
    steps: u64,
    desk: Program,
    why: Program,
    examples: PathBuf,
}

fn main() -> ExitCode {
    match options() {
        Ok(Options { soak: Some(seconds), seed, .. }) => soak(seconds, seed.unwrap_or_else(now)),
        Ok(options) => test(&options),
        Err(wrong) => {
            eprintln!("harness: {wrong}");
            ExitCode::from(2)
        }
    }
}

fn options() -> Result<Options, String> {
    let mut words = std::env::args().skip(1);
    let number = |name: &str, text: Option<String>| -> Result<u64, String> {
        text.and_then(|text| text.parse().ok()).ok_or(format!("{name} needs a number"))
    };
    let seed = std::env::var("SEED").ok().map(|text| number("SEED", Some(text))).transpose()?;
    let mut options = Options {
        soak: None,
        seed,
        steps: 3_000_000,
        desk: Program::at("target/bin/desk"),
        why: Program::at("target/bin/why"),
        examples: "examples".into(),
    };
    match words.next().as_deref() {
        Some("test") => {}
        Some("soak") => options.soak = Some(number("soak", words.next())?),
        _ => return Err("say 'test' or 'soak SECONDS'".into()),
    }
    while let Some(word) = words.next() {
        match word.as_str() {
            "--seed" => options.seed = Some(number("--seed", words.next())?),
            "--steps" => options.steps = number("--steps", words.next())?,
            "--desk" => options.desk.path = words.next().ok_or("--desk needs a path")?.into(),
            "--without-desk" => options.desk.without = true,
            "--why" => options.why.path = words.next().ok_or("--why needs a path")?.into(),
            "--without-why" => options.why.without = true,
            "--examples" => options.examples = words.next().ok_or("--examples needs a folder")?.into(),
            other => return Err(format!("unknown word {other}")),
        }
    }
    Ok(options)
}

fn now() -> u64 {
    SystemTime::now().duration_since(UNIX_EPOCH).map_or(1, |time| time.as_secs())
}

fn test(options: &Options) -> ExitCode {
    let (seed, mut report, mut coverage) = (options.seed.unwrap_or(20_260_101), Report::default(), Coverage::default());
    println!("seed {seed}");
    report.test("length", || make::length(&QSENSE));
    report.test("make", || make::make(&QSENSE, seed));
    edges::all(&mut report, &QSENSE);
    leaving::all(&mut report, &QSENSE);
    late::all(&mut report, &QSENSE, seed);
    report.test("runs from fresh domains", || schedules::fresh(&QSENSE, seed, options.steps, &mut coverage));
    report.test("arbitrary domains", || schedules::arbitrary(&QSENSE, seed, options.steps / 5, &mut coverage));
    report.test("one word broken", || malformed::one_word(&QSENSE, seed, &mut coverage));
    report.test("random words", || malformed::some_words(&QSENSE, Rules::default(), seed, 30_000, &mut coverage));
    report.test("slices short, long and empty", || malformed::lengths(&QSENSE, Rules::default(), seed, &mut coverage));
    report.test("no words at all", || malformed::nothing(&QSENSE));
    panel::all(&mut report, &QSENSE, seed);
    why::all(&mut report, &QSENSE, seed);
    portions::all(&mut report, &QSENSE);
    portion_runs::all(&mut report, &QSENSE, seed);
    readers::all(&mut report, seed);
    rounds::all(&mut report, &QSENSE);
    round_orders::all(&mut report, &QSENSE);
    round_runs::all(&mut report, &QSENSE, seed);
    report.test("every count met", || schedules::covered(&coverage, options.steps / 6_000));
    report.test("run as steps one by one", || runs::one_by_one(&QSENSE, seed, 3_000));
    report.test("run with lengths that do not fit", || runs::wrong_lengths(&QSENSE, seed));
    mistakes::all(&mut report, &QSENSE, seed);
    report.test("plain C, the benchmark's baseline", || {
        schedules::fresh(&PLAIN, seed, 100_000, &mut Coverage::default())
    });
    examples::all(&mut report, &QSENSE, &options.examples);
    if options.desk.is_tried("books") {
        books::all(&mut report, &options.desk.path, &options.examples, seed);
    }
    if options.why.is_tried("books and words") {
        why_lines::all(&mut report, &options.why.path, seed);
    }
    report.finish()
}

/// Random comparisons with new seeds until the time is over.
fn soak(seconds: u64, first_seed: u64) -> ExitCode {
    let (start, mut report, mut coverage) = (Instant::now(), Report::default(), Coverage::default());
    let mut seed = first_seed;
    while start.elapsed() < Duration::from_secs(seconds) {
        let rules = Rules::default();
        report.test(&format!("seed {seed}, runs"), || schedules::fresh(&QSENSE, seed, 1_000_000, &mut coverage));
        report.test(&format!("seed {seed}, domains"), || schedules::arbitrary(&QSENSE, seed, 300_000, &mut coverage));
        report.test(&format!("seed {seed}, words"), || {
            malformed::some_words(&QSENSE, rules, seed, 100_000, &mut coverage)
        });
        report.test(&format!("seed {seed}, run"), || runs::one_by_one(&QSENSE, seed, 2_000));
        report.test(&format!("seed {seed}, rounds"), || round_runs::put_off(&QSENSE, seed, 400_000));
        seed += 1;
    }
    println!("{} steps", coverage.steps);
    report.finish()
}
