//! A book of 5,000 steps through whole processes: the program `desk`, the same in plain C, and the same by the model.

use crate::goals;
use crate::race::{race, Work};
use crate::rows::shape;
use crate::table::{Row, Table};
use harness::book::{print, write};
use harness::model::mistake::Rules;
use harness::model::Model;
use harness::params::Params;
use harness::random::Random;
use harness::schedule::Mood;
use harness::step::Step;
use std::fs::File;
use std::path::Path;
use std::process::{Command, Output};

const STEPS: usize = 5_000;
const ROUNDS: u32 = 300;

struct Process<'a> {
    program: &'a Path,
    book: &'a Path,
}

impl Process<'_> {
    fn output(&self) -> Output {
        let book = File::open(self.book).expect("a book");
        Command::new(self.program).stdin(book).output().expect("a program")
    }
}

impl Work for Process<'_> {
    fn run(&mut self) {
        self.output();
    }
}

pub fn all(params: Params, table: &mut Table, desk: &Path, plain: &Path) {
    let path = std::env::temp_dir().join(format!("qsense-bench-{}.book", std::process::id()));
    let book = write(params, &schedule(params), 0);
    std::fs::write(&path, &book).expect("a file in the folder for temporary files");
    let model = std::env::current_exe().expect("this program's path").with_file_name("replay");
    let [mut desk, mut plain, mut model] = [desk, plain, &model].map(|program| Process { program, book: &path });
    for process in [&desk, &plain, &model] {
        assert_eq!(String::from_utf8_lossy(&process.output().stdout), print(&book), "{}", process.program.display());
    }
    let mut empty = Process { program: "true".as_ref(), book: &path };
    let best = race(ROUNDS, STEPS, &mut [&mut desk, &mut plain, &mut model, &mut empty]);
    let name = format!("{}, a book of {STEPS} steps as a process, per step", shape(params));
    let row = Row { library: best[0], plain: best[1], model: best[2], nothing: Some(best[3]), ..Row::default() };
    table.line(&name, row, goals::book(params));
    std::fs::remove_file(&path).expect("the file that was written");
}

fn schedule(params: Params) -> Vec<Step> {
    let (mut random, mut model, mood) = (Random::new(1, 1), Model::fresh(params, Rules::default()), Mood::steady());
    let steps = (0..STEPS).map(|_| {
        let step = mood.step(&mut random, &model);
        model.step(step);
        step
    });
    steps.collect()
}
