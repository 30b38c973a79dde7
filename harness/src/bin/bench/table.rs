//! The table that is printed, and what its rows say of the goals.

use crate::goals::Goal;

/// The width of the names.
const NAMES: usize = 70;

/// The best times of a row in ns.
#[derive(Default)]
pub struct Row {
    pub library: f64,
    pub plain: f64,
    /// plain C whose run checks the words once
    pub trusting: Option<f64>,
    pub model: f64,
    /// a program that does nothing
    pub nothing: Option<f64>,
}

struct Verdict {
    name: String,
    goal: Goal,
    ratio: f64,
}

#[derive(Default)]
pub struct Table {
    verdicts: Vec<Verdict>,
}

impl Table {
    pub fn head(&self) {
        println!("ns per step or call, the best round of each; C checks the words before each step, 'C once' at the start of a run.");
        println!(
            "Buffers are not cleared; domains that a row changes are copied back before each round, which is not timed."
        );
        let columns = ["library", "C", "C once", "model", "nothing", "library/C", "/C once", "model/C"];
        println!("{:NAMES$}{}", "", columns.map(|column| format!("{column:>11}")).concat());
    }

    pub fn line(&mut self, name: &str, row: Row, goal: Option<Goal>) {
        let time = |time: Option<f64>| time.map_or(String::new(), |time| format!("{time:.1}"));
        let ratio = |ratio: Option<f64>| ratio.map_or(String::new(), |ratio| format!("{ratio:.2}"));
        let columns = [
            time(Some(row.library)),
            time(Some(row.plain)),
            time(row.trusting),
            time(Some(row.model)),
            time(row.nothing),
            ratio(Some(row.library / row.plain)),
            ratio(row.trusting.map(|trusting| row.library / trusting)),
            ratio(Some(row.model / row.plain)),
        ];
        println!("{name:NAMES$}{}", columns.map(|column| format!("{column:>11}")).concat());
        if let Some(goal) = goal {
            self.judge(name, goal, goal.ratio(&row));
        }
    }

    /// A goal of a ratio that is not in one row.
    pub fn judge(&mut self, name: &str, goal: Goal, ratio: f64) {
        self.verdicts.push(Verdict { name: name.to_string(), goal, ratio });
    }

    /// Each goal, its ratio, met or missed; then how many of each.
    pub fn verdicts(&self) {
        let met = |verdict: &&Verdict| verdict.goal.met(verdict.ratio);
        println!();
        for verdict in &self.verdicts {
            let Verdict { name, goal, ratio } = verdict;
            let word = if met(&verdict) { "met" } else { "MISSED" };
            println!("{name:NAMES$}{ratio:>11.2}   {word:6}   at most {:.2} of {}", goal.at_most, goal.beside.name());
        }
        let count = self.verdicts.iter().filter(met).count();
        println!("{count} goals met, {} missed", self.verdicts.len() - count);
    }
}
