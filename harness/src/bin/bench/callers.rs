//! Who does the work: the library and plain C by their calls, and the model on records, words to records and back.

use harness::library::Calls;
use harness::model::mistake::Rules;
use harness::model::panel::reachable_words;
use harness::model::portion::portion_words;
use harness::model::why::why_words;
use harness::model::{run_words, step_words};
use harness::portion::{Portion, PortionAnswer};
use harness::step::{Answer, Step};
use harness::why::WhyAnswer;

pub trait Caller {
    fn step(&self, words: &mut Vec<u32>, step: Step) -> Answer;
    fn reachable(&self, words: &[u32]) -> Answer;
    fn why(&self, words: &[u32], node: u32) -> WhyAnswer;
    fn portion(&self, words: &mut Vec<u32>, asked: Portion) -> PortionAnswer;
    fn run(&self, words: &mut Vec<u32>, steps: &[u32], answers: &mut [u32]) -> bool;
}

impl Caller for Calls {
    fn step(&self, words: &mut Vec<u32>, step: Step) -> Answer {
        Calls::step(self, words, step)
    }

    fn reachable(&self, words: &[u32]) -> Answer {
        Calls::reachable(self, words)
    }

    fn why(&self, words: &[u32], node: u32) -> WhyAnswer {
        Calls::why(self, words, node)
    }

    fn portion(&self, words: &mut Vec<u32>, asked: Portion) -> PortionAnswer {
        Calls::portion(self, words, asked)
    }

    fn run(&self, words: &mut Vec<u32>, steps: &[u32], answers: &mut [u32]) -> bool {
        Calls::run(self, words, steps, answers)
    }
}

pub struct ByModel;

impl Caller for ByModel {
    fn step(&self, words: &mut Vec<u32>, step: Step) -> Answer {
        step_words(words, step, Rules::default())
    }

    fn reachable(&self, words: &[u32]) -> Answer {
        reachable_words(words, Rules::default())
    }

    fn why(&self, words: &[u32], node: u32) -> WhyAnswer {
        why_words(words, [node], Rules::default())[0].answer()
    }

    fn portion(&self, words: &mut Vec<u32>, asked: Portion) -> PortionAnswer {
        portion_words(words, asked, Rules::default())
    }

    fn run(&self, words: &mut Vec<u32>, steps: &[u32], answers: &mut [u32]) -> bool {
        run_words(words, steps, answers, Rules::default())
    }
}
