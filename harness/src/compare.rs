//! The library beside the model: every answer and every word, on a run or on any words.

use crate::coverage::Coverage;
use crate::layout::{node_start, process_start, process_width, word_count, HEAD, NODE, NODES};
use crate::library::{Calls, Lent};
use crate::model::domain::Domain;
use crate::model::mistake::Rules;
use crate::model::panel::reachable_words;
use crate::model::portion::portion_words;
use crate::model::why::why_words;
use crate::model::{step_words, words, Model};
use crate::params::Params;
use crate::portion::{Portion, PortionAnswer};
use crate::reference::Reference;
use crate::step::{Answer, Kind, Step};
use crate::why::Why;

/// A run of the library, of the model and, from a fresh domain, of the reference.
pub struct Lockstep<'a> {
    calls: &'a Calls,
    pub model: Model,
    lent: Lent,
    expected: Vec<u32>,
    /// the Reachable nodes at the start, with accepted publishes and reinserts since, less accepted removes
    panel: u32,
    /// how many steps were taken
    turn: u32,
    reference: Option<Reference>,
}

impl<'a> Lockstep<'a> {
    /// From a domain that the library makes over `rubbish` words.
    pub fn fresh(calls: &'a Calls, rules: Rules, params: Params, rubbish: u32) -> Result<Lockstep<'a>, String> {
        let mut lent = Lent::new(&vec![rubbish; word_count(params)]);
        let answer = calls.make(lent.words_mut(), params);
        let mut run = Lockstep {
            calls,
            model: Model::fresh(params, rules),
            lent,
            expected: Vec::new(),
            panel: 0,
            turn: 0,
            reference: Some(Reference::new(params)),
        };
        run.agree("make", answer, Answer::accepted(0))?;
        Ok(run)
    }

    /// From any domain.
    pub fn from(calls: &'a Calls, rules: Rules, domain: Domain) -> Lockstep<'a> {
        let (expected, panel) = (words::words_of(&domain), domain.reachable());
        let (model, lent) = (Model { rules, domain }, Lent::new(&expected));
        Lockstep { calls, model, lent, expected, panel, turn: 0, reference: None }
    }

    /// The library's words.
    pub fn words(&self) -> &[u32] {
        self.lent.words()
    }

    /// A step, and how the library answers it.
    pub fn step(&mut self, step: Step, coverage: &mut Coverage) -> Result<Answer, String> {
        if let Some(asked) = Portion::of(step) {
            self.portion(asked, coverage)?;
        }
        coverage.before(&self.model.domain, step);
        let expected = self.model.step(step);
        let answer = self.calls.step(self.lent.words_mut(), step);
        self.agree("step", answer, expected)?;
        self.panel = counted(self.panel, step, answer);
        for (call, panel) in self.calls.panel(self.lent.words()) {
            self.agree(call, panel, Answer::accepted(self.model.panel()))?;
            if panel.value != self.panel {
                return Err(format!("{call}: {}, but {} by the accepted steps", panel.value, self.panel));
            }
        }
        self.why_some(coverage)?;
        if let Some(reference) = &mut self.reference {
            reference.follow(step, answer, self.lent.words()).map_err(|e| format!("reference: {e}"))?;
        }
        coverage.after(&self.model.domain, step, answer);
        Ok(answer)
    }

    /// Why a node waits, why a Retired one does, and why one that is out of range: others at each turn.
    fn why_some(&mut self, coverage: &mut Coverage) -> Result<(), String> {
        let (nodes, turn) = (self.model.domain.params.nodes, self.turn);
        let mut from = (0..nodes).map(|ahead| (turn + ahead) % nodes);
        let retired = from.find(|&id| self.model.domain.node(id).is_retired());
        let past = [nodes, nodes + 1, u32::MAX][turn as usize % 3];
        self.turn += 1;
        self.why([turn % nodes, past].into_iter().chain(retired), coverage)
    }

    /// Why every node waits.
    pub fn why_all(&self, coverage: &mut Coverage) -> Result<(), String> {
        self.why(0..self.model.domain.params.nodes, coverage)
    }

    fn why(&self, nodes: impl Iterator<Item = u32>, coverage: &mut Coverage) -> Result<(), String> {
        for node in nodes {
            let why = self.model.why(node);
            same_why(self.calls, &self.lent, node, why)?;
            coverage.told(&self.model.domain, node, why);
        }
        unchanged("why", &self.lent, &self.expected)
    }

    /// A portion of what there is now, which stays as it is.
    pub fn portion(&self, asked: Portion, coverage: &mut Coverage) -> Result<(), String> {
        let mut model = Model { rules: self.model.rules, domain: self.model.domain.clone() };
        let expected = model.portion(asked);
        same_portion(self.calls, self.lent.words(), asked, expected, &words::words_of(&model.domain))?;
        coverage.examined(&self.model.domain, asked, expected, &model.domain);
        Ok(())
    }

    fn agree(&mut self, call: &str, answer: Answer, expected: Answer) -> Result<(), String> {
        words::encode(&self.model.domain, &mut self.expected);
        same(call, answer, &self.lent, expected, &self.expected)
    }
}

/// The panel's number after a step, from that before it: accepted publishes and reinserts add to it, removes take from it.
pub fn counted(panel: u32, step: Step, answer: Answer) -> u32 {
    match (answer.refusal, Kind::from_number(step.kind)) {
        (0, Some(Kind::Publish | Kind::Reinsert)) => panel + 1,
        (0, Some(Kind::Remove)) => panel - 1,
        _ => panel,
    }
}

/// Whether the call says why a node waits as it was expected.
pub fn same_why(calls: &Calls, lent: &Lent, node: u32, expected: Why) -> Result<(), String> {
    match (calls.why(lent.words(), node), expected.answer()) {
        (found, expected) if found == expected => Ok(()),
        (found, expected) => Err(format!("why node {node}: {found}, expected {expected}")),
    }
}

/// Whether a portion of these words is answered and leaves what was expected, and the same as a step.
pub fn same_portion(
    calls: &Calls,
    start: &[u32],
    asked: Portion,
    expected: PortionAnswer,
    after: &[u32],
) -> Result<(), String> {
    let (mut lent, mut stepped) = (Lent::new(start), Lent::new(start));
    let found = calls.portion(lent.words_mut(), asked);
    if found != expected {
        return Err(format!("{asked}: {found}, expected {expected}"));
    }
    unchanged("portion", &lent, after)?;
    let answer = calls.step(stepped.words_mut(), asked.step());
    same("portion as a step", answer, &stepped, expected.as_step(), after)
}

/// One step, and before it the reachable counts, the check, why some nodes wait, the last and those past it among them, and two portions
/// of copies: on any words.
pub fn on_words(calls: &Calls, rules: Rules, start: &[u32], step: Step) -> Result<Answer, String> {
    let mut lent = Lent::new(start);
    let (mut expected, expected_panel) = (start.to_vec(), reachable_words(start, rules));
    for (call, panel) in calls.panel(lent.words()) {
        same(call, panel, &lent, expected_panel, start)?;
    }
    let (well_formed, expected_well) = (calls.well_formed(lent.words()), words::decode(start, rules).is_some());
    if well_formed != expected_well {
        return Err(format!("well formed: {well_formed}, expected {expected_well}"));
    }
    let m = start.get(NODES).copied().unwrap_or(0);
    let nodes = [step.node, m.wrapping_sub(1), m, m.wrapping_add(1), u32::MAX];
    for (node, why) in nodes.into_iter().zip(why_words(start, nodes, rules)) {
        same_why(calls, &lent, node, why)?;
    }
    unchanged("why", &lent, start)?;
    for asked in [Portion::new(step.process, step.node, 1 + step.guest % 256), Portion::new(0, m, 0)] {
        let mut after = start.to_vec();
        let expected = portion_words(&mut after, asked, rules);
        same_portion(calls, start, asked, expected, &after)?;
    }
    let expected_answer = step_words(&mut expected, step, rules);
    let answer = calls.step(lent.words_mut(), step);
    same("step", answer, &lent, expected_answer, &expected)?;
    Ok(answer)
}

/// Whether a call answered and left what was expected.
pub fn same(call: &str, answer: Answer, lent: &Lent, expected_answer: Answer, expected: &[u32]) -> Result<(), String> {
    if answer != expected_answer {
        return Err(format!("{call}: {answer}, expected {expected_answer}"));
    }
    unchanged(call, lent, expected)
}

/// Whether a call left these words, and nothing else.
pub fn unchanged(call: &str, lent: &Lent, expected: &[u32]) -> Result<(), String> {
    if lent.words() != expected {
        let at = lent.words().iter().zip(expected).position(|(x, y)| x != y).expect("a word that differs");
        let (word, right) = (lent.words()[at], expected[at]);
        return Err(format!("{call}: {} is {word}, expected {right}", place(expected, at)));
    }
    match lent.is_intact() {
        true => Ok(()),
        false => Err(format!("{call}: wrote outside its words")),
    }
}

/// What the word at this index is part of.
fn place(words: &[u32], index: usize) -> String {
    let Some(params) = words::decode(words, Rules::default()).map(|domain| domain.params) else {
        return format!("word {index}");
    };
    let row = |what: &str, width, from| format!("word {} of {what} {}", (index - from) % width, (index - from) / width);
    match index {
        0..HEAD => format!("word {index} of the head"),
        _ if index < node_start(params, 0) => row("process", process_width(params), process_start(params, 0)),
        _ => row("node", NODE, node_start(params, 0)),
    }
}
