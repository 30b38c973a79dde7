//! The calls under test: the library's with those of crate bench_c, and those of plain C, which take and answer the same.

use crate::params::Params;
use crate::portion::{Portion, PortionAnswer};
use crate::step::{Answer, Kind, Step};
use crate::why::WhyAnswer;

type Length = unsafe extern "C" fn(u32, u32, u32) -> u32;
type Make = unsafe extern "C" fn(*mut u32, usize, u32, u32, u32, u32, u32, u32, u32) -> Answer;
type StepCall = unsafe extern "C" fn(*mut u32, usize, u32, u32, u32, u32, u32) -> Answer;
type Reachable = unsafe extern "C" fn(*const u32, usize) -> Answer;
type Why = unsafe extern "C" fn(*const u32, usize, u32) -> WhyAnswer;
type PortionCall = unsafe extern "C" fn(*mut u32, usize, u32, u32, u32) -> PortionAnswer;
type WellFormed = unsafe extern "C" fn(*const u32, usize) -> bool;
type Run = unsafe extern "C" fn(*mut u32, usize, *const u32, usize, *mut u32, usize) -> bool;

// as in include/qsense.h and bench/plain.h; those of crate bench_c as their namesakes of plain C
extern "C" {
    fn qsense_length(n: u32, k: u32, m: u32) -> u32;
    fn qsense_make(w: *mut u32, len: usize, n: u32, k: u32, m: u32, t: u32, q: u32, c: u32, e: u32) -> Answer;
    fn qsense_step(w: *mut u32, len: usize, kind: u32, process: u32, hazard: u32, node: u32, guest: u32) -> Answer;
    fn qsense_reachable(w: *const u32, len: usize) -> Answer;
    fn qsense_why(w: *const u32, len: usize, node: u32) -> WhyAnswer;
    fn qsense_portion(w: *mut u32, len: usize, process: u32, start: u32, limit: u32) -> PortionAnswer;
    fn qsense_run(w: *mut u32, len: usize, s: *const u32, s_len: usize, a: *mut u32, a_len: usize) -> bool;
    fn bench_reachable_in_two(w: *const u32, len: usize) -> Answer;
    fn bench_well_formed(w: *const u32, len: usize) -> bool;
    fn plain_length(n: u32, k: u32, m: u32) -> u32;
    fn plain_make(w: *mut u32, len: usize, n: u32, k: u32, m: u32, t: u32, q: u32, c: u32, e: u32) -> Answer;
    fn plain_step(w: *mut u32, len: usize, kind: u32, process: u32, hazard: u32, node: u32, guest: u32) -> Answer;
    fn plain_reachable(w: *const u32, len: usize) -> Answer;
    fn plain_reachable_in_two(w: *const u32, len: usize) -> Answer;
    fn plain_well_formed(w: *const u32, len: usize) -> bool;
    fn plain_why(w: *const u32, len: usize, node: u32) -> WhyAnswer;
    fn plain_portion(w: *mut u32, len: usize, process: u32, start: u32, limit: u32) -> PortionAnswer;
    fn plain_run(w: *mut u32, len: usize, s: *const u32, s_len: usize, a: *mut u32, a_len: usize) -> bool;
    fn plain_run_trusting(w: *mut u32, len: usize, s: *const u32, s_len: usize, a: *mut u32, a_len: usize) -> bool;
}

pub struct Calls {
    length: Length,
    make: Make,
    step: StepCall,
    reachable: Reachable,
    /// the same by a check of all words and then a count
    reachable_in_two: Reachable,
    well_formed: WellFormed,
    why: Why,
    portion: PortionCall,
    run: Run,
}

pub static QSENSE: Calls = Calls {
    length: qsense_length,
    make: qsense_make,
    step: qsense_step,
    reachable: qsense_reachable,
    reachable_in_two: bench_reachable_in_two,
    well_formed: bench_well_formed,
    why: qsense_why,
    portion: qsense_portion,
    run: qsense_run,
};

pub static PLAIN: Calls = Calls {
    length: plain_length,
    make: plain_make,
    step: plain_step,
    reachable: plain_reachable,
    reachable_in_two: plain_reachable_in_two,
    well_formed: plain_well_formed,
    why: plain_why,
    portion: plain_portion,
    run: plain_run,
};

/// Plain C whose run checks the words once.
pub static TRUSTING: Calls = Calls { run: plain_run_trusting, ..PLAIN };

impl Calls {
    pub fn length(&self, n: u32, k: u32, m: u32) -> u32 {
        unsafe { (self.length)(n, k, m) }
    }

    pub fn make(&self, words: &mut [u32], params: Params) -> Answer {
        let [n, k, m, t, q, c, e] = params.numbers();
        unsafe { (self.make)(words.as_mut_ptr(), words.len(), n, k, m, t, q, c, e) }
    }

    pub fn step(&self, words: &mut [u32], step: Step) -> Answer {
        let [kind, process, hazard, node, guest] = step.numbers();
        unsafe { (self.step)(words.as_mut_ptr(), words.len(), kind, process, hazard, node, guest) }
    }

    pub fn reachable(&self, words: &[u32]) -> Answer {
        unsafe { (self.reachable)(words.as_ptr(), words.len()) }
    }

    pub fn reachable_in_two(&self, words: &[u32]) -> Answer {
        unsafe { (self.reachable_in_two)(words.as_ptr(), words.len()) }
    }

    pub fn well_formed(&self, words: &[u32]) -> bool {
        unsafe { (self.well_formed)(words.as_ptr(), words.len()) }
    }

    pub fn why(&self, words: &[u32], node: u32) -> WhyAnswer {
        unsafe { (self.why)(words.as_ptr(), words.len(), node) }
    }

    pub fn portion(&self, words: &mut [u32], Portion { process, start, limit }: Portion) -> PortionAnswer {
        unsafe { (self.portion)(words.as_mut_ptr(), words.len(), process, start, limit) }
    }

    /// The same calls, but that reachable goes in two passes.
    pub fn in_two(&self) -> Calls {
        Calls { reachable: self.reachable_in_two, ..*self }
    }

    /// The panel's answer by each call that gives it, with the call's name.
    pub fn panel(&self, words: &[u32]) -> [(&'static str, Answer); 2] {
        [("reachable", self.reachable(words)), ("reachable in two passes", self.reachable_in_two(words))]
    }

    pub fn run(&self, words: &mut [u32], steps: &[u32], answers: &mut [u32]) -> bool {
        let (s, a) = (steps.as_ptr(), answers.as_mut_ptr());
        unsafe { (self.run)(words.as_mut_ptr(), words.len(), s, steps.len(), a, answers.len()) }
    }

    /// Each call on a null pointer with length 0: the answers of make, step and reachable, in one pass and in two, those of why and of a
    /// portion, and whether an empty run was taken.
    pub fn on_nothing(&self) -> ([Answer; 4], WhyAnswer, PortionAnswer, bool) {
        let (none, no) = (std::ptr::null_mut(), std::ptr::null());
        unsafe {
            let [n, k, m, t, q, c, e] = Params::LEAST.numbers();
            let made = (self.make)(none, 0, n, k, m, t, q, c, e);
            let stepped = (self.step)(none, 0, Kind::ClearPresence as u32, 0, 0, 0, 0);
            let answers = [made, stepped, (self.reachable)(no, 0), (self.reachable_in_two)(no, 0)];
            let portion = (self.portion)(none, 0, 0, 0, 1);
            (answers, (self.why)(no, 0, 0), portion, (self.run)(none, 0, no, 0, none, 0))
        }
    }
}

const GUARD: usize = 16;
const GUARD_WORD: u32 = 0xFE11_0A57;

/// Words that are lent to a call, between two stretches that nobody may write.
pub struct Lent(Vec<u32>);

impl Lent {
    pub fn new(words: &[u32]) -> Lent {
        let guard = [GUARD_WORD; GUARD];
        Lent([&guard, words, &guard].concat())
    }

    pub fn words(&self) -> &[u32] {
        &self.0[GUARD..self.0.len() - GUARD]
    }

    pub fn words_mut(&mut self) -> &mut [u32] {
        let end = self.0.len() - GUARD;
        &mut self.0[GUARD..end]
    }

    /// Whether nothing was written beside the words.
    pub fn is_intact(&self) -> bool {
        let end = self.0.len() - GUARD;
        self.0[..GUARD].iter().chain(&self.0[end..]).all(|&word| word == GUARD_WORD)
    }
}
