//! Request 8: how many rounds Retired nodes wait on the fast path, told from steps, their answers and the words alone. A round is a stretch
//! of steps in which each process that is present at its start, and does not leave in it, has at least Q accepted manages.

use crate::layout::{node_start, process_start, LEAD_PRESENT, PATH};
use crate::params::Params;
use crate::step::{Answer, Kind, State, Step};
use std::fmt::{Display, Formatter};

/// The fast path, as a word.
const FAST: u32 = 0;
const FREE: u32 = State::Free as u32;
const RETIRED: u32 = State::Retired as u32;

/// Who was present while a node waited.
#[derive(Clone, Copy, Debug, PartialEq, Eq, Hash)]
pub enum Company {
    /// one process at the start; others may have joined, and left again
    Alone,
    /// several, the same all the while
    Same,
    /// several at the start; some joined or left
    Changing,
}

impl Company {
    pub const ALL: [Company; 3] = [Company::Alone, Company::Same, Company::Changing];

    /// A node is freed within so many rounds.
    pub const fn most(self) -> usize {
        match self {
            Company::Alone => 6,
            Company::Same | Company::Changing => 7,
        }
    }
}

/// How a node waits since the stretch began or, if that is later, since it was retired or handed over. Counted from any later step its rounds are no
/// more: the first, the second and so on from there end no earlier than those from here.
#[derive(Clone, PartialEq, Eq, Hash)]
struct Wait {
    /// the rounds that are over
    complete: usize,
    company: Company,
    owner: u32,
    /// how many accepted manages of each process the round in hand waits for
    to_come: Vec<u32>,
}

/// The Retired nodes of a run, each with its rounds. A stretch ends where the path is not fast; then all begin anew. What a leaver hands over
/// begins anew too.
#[derive(Clone, PartialEq, Eq, Hash)]
pub struct Rounds {
    params: Params,
    path: u32,
    waits: Vec<Option<Wait>>,
}

impl Rounds {
    /// From a domain with these words on.
    pub fn from(params: Params, words: &[u32]) -> Rounds {
        let mut rounds = Rounds { params, path: words[PATH], waits: Vec::new() };
        rounds.begin(words);
        rounds
    }

    /// The rounds that are over since the node waits, if it does.
    pub fn complete(&self, node: u32) -> Option<usize> {
        self.waits[node as usize].as_ref().map(|wait| wait.complete)
    }

    /// Whether the node's round in hand waits for a manage of the process.
    pub fn wait_for(&self, node: u32, process: u32) -> bool {
        self.waits[node as usize].as_ref().is_some_and(|wait| wait.to_come[process as usize] > 0)
    }

    /// Follows a step that was answered so and left these words. What is wrong is a node that is still Retired after the most rounds.
    pub fn follow(&mut self, step: Step, answer: Answer, words: &[u32], tally: &mut Tally) -> Result<(), String> {
        let was_fast = std::mem::replace(&mut self.path, words[PATH]) == FAST;
        let is_fast = self.path == FAST;
        if !was_fast || !is_fast {
            tally.ended_by_path += (was_fast && self.waits.iter().any(Option::is_some)) as u64;
            self.begin(words);
            return Ok(());
        }
        let turn = Turn::of(step, answer);
        let next = self.round(words);
        for (id, wait) in self.waits.iter_mut().enumerate() {
            let [state, owner] = [0, 1].map(|word| words[node_start(self.params, id) + word]);
            match (state, wait.as_mut()) {
                (RETIRED, None) => *wait = Some(Wait::begin(owner, &next)),
                (RETIRED, Some(on)) if on.owner != owner => {
                    tally.ended_by_owner += 1;
                    *wait = Some(Wait::begin(owner, &next));
                }
                (RETIRED, Some(on)) => on.go_on(turn, &next).map_err(|wrong| format!("node {id} {wrong}"))?,
                (FREE, Some(over)) => {
                    tally.freed(over);
                    *wait = None;
                }
                (state, Some(_)) => return Err(format!("node {id} was Retired, and is in state {state}")),
                (_, None) => {}
            }
        }
        Ok(())
    }

    fn begin(&mut self, words: &[u32]) {
        let round = self.round(words);
        let node = |id| &words[node_start(self.params, id)..];
        let wait = |id| (node(id)[0] == RETIRED).then(|| Wait::begin(node(id)[1], &round));
        self.waits = (0..self.params.nodes as usize).map(wait).collect();
    }

    /// What a round waits for that begins with these words.
    fn round(&self, words: &[u32]) -> Vec<u32> {
        let present = |id| words[process_start(self.params, id) + LEAD_PRESENT];
        (0..self.params.processes as usize).map(|id| present(id) * self.params.quiescence_threshold).collect()
    }
}

/// What a step is to rounds.
#[derive(Clone, Copy)]
enum Turn {
    Manage(u32),
    Leave(u32),
    Join,
    Other,
}

impl Turn {
    fn of(step: Step, answer: Answer) -> Turn {
        match (answer.refusal, Kind::from_number(step.kind)) {
            (0, Some(Kind::Manage)) => Turn::Manage(step.process),
            (0, Some(Kind::Leave)) => Turn::Leave(step.process),
            (0, Some(Kind::Join)) => Turn::Join,
            _ => Turn::Other,
        }
    }
}

impl Wait {
    fn begin(owner: u32, round: &[u32]) -> Wait {
        let present = round.iter().filter(|&&manages| manages > 0).count();
        let company = if present > 1 { Company::Same } else { Company::Alone };
        Wait { complete: 0, company, owner, to_come: round.to_vec() }
    }

    /// Over a step that did not free the node, and by which its owner did not leave. A round that begins after it waits for `next`.
    fn go_on(&mut self, turn: Turn, next: &[u32]) -> Result<(), String> {
        if let (Turn::Leave(_) | Turn::Join, Company::Same) = (turn, self.company) {
            self.company = Company::Changing;
        }
        match turn {
            Turn::Manage(process) => self.wait_less(process, 1),
            Turn::Leave(process) => self.wait_less(process, u32::MAX),
            Turn::Join | Turn::Other => {}
        }
        if self.to_come.iter().all(|&manages| manages == 0) {
            self.complete += 1;
            self.to_come.copy_from_slice(next);
        }
        match self.complete < self.company.most() {
            true => Ok(()),
            false => Err(format!("is still Retired after {} rounds", self.complete)),
        }
    }

    fn wait_less(&mut self, process: u32, manages: u32) {
        let to_come = &mut self.to_come[process as usize];
        *to_come = to_come.saturating_sub(manages);
    }
}

/// What was met in runs.
#[derive(Default)]
pub struct Tally {
    freed: [[u64; Company::Same.most()]; Company::ALL.len()],
    /// how many nodes were handed over while they waited
    pub ended_by_owner: u64,
    /// how many stretches in which a node waited were ended by the path
    pub ended_by_path: u64,
}

impl Tally {
    fn freed(&mut self, over: &Wait) {
        self.freed[over.company as usize][over.complete] += 1;
    }

    /// How many nodes were freed in their first round, in their second and so on.
    pub fn by_round(&self, company: Company) -> &[u64] {
        &self.freed[company as usize][..company.most()]
    }

    /// The last round in which a node was freed; 0 if none was.
    pub fn longest(&self, company: Company) -> usize {
        self.by_round(company).iter().rposition(|&count| count > 0).map_or(0, |place| place + 1)
    }
}

impl Display for Tally {
    fn fmt(&self, f: &mut Formatter) -> std::fmt::Result {
        write!(f, "freed by round:")?;
        for company in Company::ALL.into_iter().filter(|&company| self.longest(company) > 0) {
            write!(f, " {company:?} {:?}, longest {};", self.by_round(company), self.longest(company))?;
        }
        write!(f, " {} handed over, {} stretches ended by the path", self.ended_by_owner, self.ended_by_path)
    }
}
