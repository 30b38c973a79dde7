//! One step or portion on a domain of its own, from several kinds of start: each time, and that time less the check of the words.

use crate::callers::{ByModel, Caller};
use crate::goals::Goal;
use crate::race::{race, Portions, Steps, Work};
use crate::rows::shape;
use crate::table::{Row, Table};
use harness::library::{PLAIN, QSENSE};
use harness::params::Params;
use harness::portion::Portion;
use harness::step::Step;

/// Domains that the step is taken in one after another in a round, and copied back before the next.
const DOMAINS: usize = 16;
const ROUNDS: u32 = 3_000;
const MODEL_ROUNDS: u32 = 300;

/// What is done to each domain.
#[derive(Clone, Copy)]
pub enum Act {
    Step(Step),
    Portion(Portion),
}

impl Act {
    fn step(self) -> Step {
        match self {
            Act::Step(step) => step,
            Act::Portion(asked) => asked.step(),
        }
    }

    fn is_accepted(self, mut words: Vec<u32>) -> bool {
        match self {
            Act::Step(step) => ByModel.step(&mut words, step).refusal == 0,
            Act::Portion(asked) => ByModel.portion(&mut words, asked).refusal == 0,
        }
    }
}

/// What is done, and a kind of start: its name, and its words by a seed. The goal is of the whole time.
pub struct Load {
    pub act: Act,
    pub what: &'static str,
    pub name: String,
    pub words: Box<dyn Fn(u64) -> Vec<u32>>,
    pub goal: Option<Goal>,
}

/// The library's time of a load, and that of its check.
pub struct Times {
    pub whole: f64,
    pub check: f64,
}

/// Two rows for each load.
pub fn rows(table: &mut Table, params: Params, loads: &[Load]) -> Vec<Times> {
    let starts: Vec<Vec<Vec<u32>>> =
        loads.iter().map(|load| (0..DOMAINS as u64).map(|seed| (load.words)(seed)).collect()).collect();
    for (load, start) in loads.iter().zip(&starts) {
        assert!(start.iter().all(|words| load.act.is_accepted(words.clone())), "{}{}", load.what, load.name);
    }
    let best = times(ROUNDS, &[&QSENSE, &PLAIN], loads, &starts);
    let model = times(MODEL_ROUNDS, &[&ByModel], loads, &starts);
    let shape = shape(params);
    for (load, (best, model)) in loads.iter().zip(best.chunks_exact(4).zip(model.chunks_exact(2))) {
        let row = |library, plain, model| Row { library, plain, model, ..Row::default() };
        table.line(&format!("{shape}, {}{}", load.what, load.name), row(best[0], best[1], model[0]), load.goal);
        let less = row(best[0] - best[2], best[1] - best[3], model[0] - model[1]);
        table.line(&format!("{shape}, the same less its check{}", load.name), less, None);
    }
    best.chunks_exact(4).map(|best| Times { whole: best[0], check: best[2] }).collect()
}

/// The slowest of the library's times beside the fastest.
pub fn spread(table: &mut Table, params: Params, names: &str, library: &[Times], goal: Option<Goal>) {
    let whole = library.iter().map(|times| times.whole);
    let (least, most) = whole.fold((f64::MAX, 0f64), |(least, most), time| (least.min(time), most.max(time)));
    println!("the library's slowest of these {names} takes {:.2} of its fastest", most / least);
    if let Some(goal) = goal {
        table.judge(&format!("{}, slowest of the {names}", shape(params)), goal, most / least);
    }
}

/// Of each load what is done by each caller, then an unknown step, which is answered right after the check: all in turns.
fn times<C: Caller>(rounds: u32, callers: &[&C], loads: &[Load], starts: &[Vec<Vec<u32>>]) -> Vec<f64> {
    let everywhere = |step: Step| (0..DOMAINS).map(|domain| (domain, step)).collect::<Vec<_>>();
    let schedules: Vec<_> = loads.iter().map(|load| everywhere(load.act.step())).collect();
    let unknown = everywhere(Step::UNKNOWN);
    let mut contenders: Vec<Box<dyn Work + '_>> = Vec::new();
    for ((load, start), schedule) in loads.iter().zip(starts).zip(&schedules) {
        for caller in callers {
            contenders.push(match load.act {
                Act::Step(_) => Box::new(Steps::new(*caller, start, schedule)),
                Act::Portion(asked) => Box::new(Portions::new(*caller, start, asked)),
            });
        }
        contenders.extend(callers.iter().map(|caller| Box::new(Steps::new(*caller, start, &unknown)) as Box<dyn Work>));
    }
    let mut works: Vec<&mut dyn Work> = contenders.iter_mut().map(|work| work.as_mut() as &mut dyn Work).collect();
    race(rounds, DOMAINS, &mut works)
}
