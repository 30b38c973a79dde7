//! Contenders that do the same work, timed in turns.

use crate::callers::Caller;
use harness::layout::{ANSWER, STEP};
use harness::library::Calls;
use harness::portion::Portion;
use harness::step::Step;
use std::cell::RefCell;
use std::hint::black_box;
use std::time::Instant;

/// Work that is done again and again.
pub trait Work {
    /// Puts back what the work changes; not timed.
    fn restore(&mut self) {}
    fn run(&mut self);
}

/// The best time of each in ns per unit.
pub fn race(rounds: u32, units: usize, contenders: &mut [&mut dyn Work]) -> Vec<f64> {
    let mut best = vec![f64::MAX; contenders.len()];
    for _ in 0..rounds {
        for (contender, best) in contenders.iter_mut().zip(&mut best) {
            contender.restore();
            let start = Instant::now();
            contender.run();
            *best = best.min(start.elapsed().as_nanos() as f64 / units as f64);
        }
    }
    best
}

/// Steps, each on one of some domains.
pub struct Steps<'a, C> {
    caller: &'a C,
    start: &'a [Vec<u32>],
    domains: Vec<Vec<u32>>,
    schedule: &'a [(usize, Step)],
}

impl<'a, C> Steps<'a, C> {
    pub fn new(caller: &'a C, start: &'a [Vec<u32>], schedule: &'a [(usize, Step)]) -> Steps<'a, C> {
        Steps { caller, start, domains: start.to_vec(), schedule }
    }
}

/// Copies domains back to what they were.
fn put_back(domains: &mut [Vec<u32>], start: &[Vec<u32>]) {
    for (domain, start) in domains.iter_mut().zip(start) {
        domain.copy_from_slice(start);
    }
}

impl<C: Caller> Work for Steps<'_, C> {
    fn restore(&mut self) {
        put_back(&mut self.domains, self.start);
    }

    fn run(&mut self) {
        for &(domain, step) in self.schedule {
            black_box(self.caller.step(&mut self.domains[domain], step));
        }
    }
}

/// The same portion on each of some domains.
pub struct Portions<'a, C> {
    caller: &'a C,
    start: &'a [Vec<u32>],
    domains: Vec<Vec<u32>>,
    asked: Portion,
}

impl<'a, C> Portions<'a, C> {
    pub fn new(caller: &'a C, start: &'a [Vec<u32>], asked: Portion) -> Portions<'a, C> {
        Portions { caller, start, domains: start.to_vec(), asked }
    }
}

impl<C: Caller> Work for Portions<'_, C> {
    fn restore(&mut self) {
        put_back(&mut self.domains, self.start);
    }

    fn run(&mut self) {
        for domain in &mut self.domains {
            black_box(self.caller.portion(domain, self.asked));
        }
    }
}

/// The words and the answers of a run. All contenders have the same: where they lie decides up to half of the time of a short step.
pub struct Room {
    words: Vec<u32>,
    answers: Vec<u32>,
}

impl Room {
    pub fn new(start: &[u32], steps: &[u32]) -> RefCell<Room> {
        RefCell::new(Room { words: start.to_vec(), answers: vec![0; steps.len() / STEP * ANSWER] })
    }
}

/// One run of a list of steps.
pub struct Run<'a, C> {
    pub caller: &'a C,
    pub start: &'a [u32],
    pub steps: &'a [u32],
    pub room: &'a RefCell<Room>,
}

impl<C: Caller> Work for Run<'_, C> {
    fn restore(&mut self) {
        self.room.borrow_mut().words.copy_from_slice(self.start);
    }

    fn run(&mut self) {
        let Room { words, answers } = &mut *self.room.borrow_mut();
        assert!(self.caller.run(words, self.steps, answers));
        black_box(answers);
    }
}

/// The check of each domain in turn, with no step around it.
pub struct Checks<'a> {
    pub calls: &'a Calls,
    pub domains: &'a [Vec<u32>],
    pub turns: usize,
}

impl Work for Checks<'_> {
    fn run(&mut self) {
        for turn in 0..self.turns {
            black_box(self.calls.well_formed(&self.domains[turn % self.domains.len()]));
        }
    }
}

/// The reachable count of each domain in turn.
pub struct Counts<'a, C> {
    pub caller: &'a C,
    pub domains: &'a [Vec<u32>],
    pub turns: usize,
}

impl<C: Caller> Work for Counts<'_, C> {
    fn run(&mut self) {
        for turn in 0..self.turns {
            black_box(self.caller.reachable(&self.domains[turn % self.domains.len()]));
        }
    }
}

/// Why a node of each domain in turn waits.
pub struct Whys<'a, C> {
    pub caller: &'a C,
    pub domains: &'a [Vec<u32>],
    /// that of each domain
    pub nodes: &'a [u32],
    pub turns: usize,
}

impl<C: Caller> Work for Whys<'_, C> {
    fn run(&mut self) {
        for turn in 0..self.turns {
            let place = turn % self.domains.len();
            black_box(self.caller.why(&self.domains[place], self.nodes[place]));
        }
    }
}
