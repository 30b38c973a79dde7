//! Questions 4 to 17 and 20 to 23, in the paper's order: the first with the answer no gives its number.

use super::domain::Process;
use super::mistake::Mistake;
use super::Model;
use crate::layout::BUFFER;
use crate::portion::Portion;
use crate::step::{Field, Kind, State, Step};

/// A question by its number, asked where all before it have the answer yes.
pub struct Question {
    pub number: u32,
    yes: fn(&Model, Kind, Step) -> bool,
}

const fn ask(number: u32, yes: fn(&Model, Kind, Step) -> bool) -> Question {
    Question { number, yes }
}

/// After 3, which is asked of words, and 4, whether the kind is known.
pub const QUESTIONS: &[Question] = &[
    ask(5, |model, kind, step| !kind.reads(Field::Process) || step.process < model.domain.params.processes),
    ask(20, |model, kind, step| !model.asks_present(kind) || model.of(step).present == (kind != Kind::Join)),
    ask(21, |model, kind, step| kind != Kind::Leave || model.may_leave(step.process)),
    ask(22, |model, kind, step| kind != Kind::Leave || model.may_inherit(step)),
    ask(6, |model, kind, step| !kind.reads(Field::Hazard) || step.hazard < model.domain.params.hazards),
    ask(7, |model, kind, step| !model.asks_node(kind) || step.node < model.domain.params.nodes),
    ask(23, |model, kind, step| kind != Kind::Portion || model.is_limit(step.guest)),
    ask(8, |model, kind, step| kind.row().needs.is_none_or(|state| model.is_in(state, kind, step.node))),
    ask(9, |model, kind, step| !model.asks_owner(kind) || model.owner(step.node) == step.process),
    ask(10, |model, kind, step| kind != Kind::Check || model.assigned(step).is_some()),
    ask(11, |model, kind, step| kind != Kind::Check || model.assigned(step).is_some_and(|node| model.may_check(node))),
    ask(12, |model, kind, step| kind != Kind::Use || model.domain.hazard(step.process, step.hazard).validated),
    ask(13, |model, kind, step| !matches!(kind, Kind::Protect | Kind::Clear) || model.of(step).buffer.len() < BUFFER),
    ask(14, |model, kind, step| kind != Kind::Drain || !model.of(step).buffer.is_empty()),
    ask(15, |model, kind, _| kind != Kind::Tick || model.domain.clock < u32::MAX),
    ask(16, |model, kind, _| kind != Kind::Tick || model.all_young()),
    ask(17, |model, kind, step| {
        kind != Kind::Manage || !model.of(step).has_assigned() || model.rules.have(Mistake::NoQuestion17)
    }),
];

/// The greatest number of a question.
pub const LAST_QUESTION: usize = {
    let (mut last, mut place) = (0, 0);
    while place < QUESTIONS.len() {
        let number = QUESTIONS[place].number as usize;
        last = if number > last { number } else { last };
        place += 1;
    }
    last
};

impl Model {
    /// The number of the first question that is answered no, or 0.
    pub fn refusal(&self, step: Step) -> u32 {
        let Some(kind) = Kind::from_number(step.kind) else {
            return 4;
        };
        let no = |question: &&Question| !(question.yes)(self, kind, step);
        let Some(first) = QUESTIONS.iter().position(|question| no(&question)) else {
            return 0;
        };
        let place = |number| QUESTIONS.iter().position(|question| question.number == number).expect("a question");
        match self.rules.early().map(|(early, late)| (place(early), place(late))) {
            Some((early, late)) if (late..early).contains(&first) && no(&&QUESTIONS[early]) => QUESTIONS[early].number,
            _ => QUESTIONS[first].number,
        }
    }

    fn asks_present(&self, kind: Kind) -> bool {
        let dropped = self.rules.have(Mistake::AbsentMayAct) && !matches!(kind, Kind::Leave | Kind::Join);
        kind.reads(Field::Process) && !dropped
    }

    /// Whether nothing ties the process to the domain.
    fn may_leave(&self, process: u32) -> bool {
        use Mistake::*;
        let dropped = [LeaveWithAssigned, LeaveWithStores, LeaveWithAllocated, LeaveWithRemoved];
        let mut ties = self.domain.ties(process).into_iter().zip(dropped);
        ties.all(|(tied, mistake)| !tied || self.rules.have(mistake))
    }

    /// Whether the second process of a leave is another one that is present.
    fn may_inherit(&self, step: Step) -> bool {
        let heir = self.domain.processes.get(step.node as usize);
        let other = step.node != step.process || self.rules.have(Mistake::LeaveToSelf);
        other && heir.is_some_and(|heir| heir.present || self.rules.have(Mistake::LeaveToAbsent))
    }

    fn asks_node(&self, kind: Kind) -> bool {
        kind.reads_node() && !(kind == Kind::Portion && self.rules.have(Mistake::PortionFromPastNodes))
    }

    fn is_limit(&self, limit: u32) -> bool {
        let [least, most] = Portion::LIMITS;
        let least = least - self.rules.have(Mistake::PortionTakesNone) as u32;
        let most = most + self.rules.have(Mistake::PortionTakes257) as u32;
        (least..=most).contains(&limit)
    }

    /// Whether the node is in the state that the kind needs.
    fn is_in(&self, needed: State, kind: Kind, node: u32) -> bool {
        let state = self.domain.node(node).state();
        let retired_too = kind == Kind::Reinsert && self.rules.have(Mistake::ReinsertTakesRetired);
        state == needed || retired_too && state == State::Retired
    }

    fn asks_owner(&self, kind: Kind) -> bool {
        kind.row().owns && !(kind == Kind::Reinsert && self.rules.have(Mistake::ReinsertByAnyone))
    }

    /// The owner as the words have it: 0 for none.
    fn owner(&self, node: u32) -> u32 {
        self.domain.node(node).owner().unwrap_or(0)
    }

    fn of(&self, step: Step) -> &Process {
        self.domain.process(step.process)
    }

    fn assigned(&self, step: Step) -> Option<u32> {
        self.domain.hazard(step.process, step.hazard).assigned
    }

    fn may_check(&self, node: u32) -> bool {
        match self.domain.node(node).state() {
            State::Reachable => true,
            State::Removed => self.rules.have(Mistake::ChecksRemoved),
            _ => false,
        }
    }

    /// Every pending store of every process is younger than T + E ticks.
    fn all_young(&self) -> bool {
        let limit = self.delay(Mistake::TickWithoutLateness) + self.rules.have(Mistake::TickOneLate) as u32;
        let mut stores = self.domain.processes.iter().flat_map(|process| &process.buffer);
        stores.all(|store| self.domain.clock.saturating_sub(store.time) < limit)
    }
}
