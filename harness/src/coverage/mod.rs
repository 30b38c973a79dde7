//! What a run of tests has met: without these counts, agreement would say little.

mod late;
mod leaving;
mod portions;
mod why;

use crate::layout::BUFFER;
use crate::model::domain::{Domain, Node, Path};
use crate::model::questions::{LAST_QUESTION, QUESTIONS};
use crate::portion::{Portion, PortionAnswer};
use crate::step::{Answer, Field, Kind, Step};
use crate::why::Why;
use late::Late;
use leaving::Leaving;
use portions::Portions;
use why::Waiting;

#[derive(Default)]
pub struct Coverage {
    pub steps: u64,
    accepted: [u64; Kind::LAST + 1],
    refused: [u64; LAST_QUESTION + 1],
    to_fallback: u64,
    to_fast: u64,
    freed_by_scan: u64,
    freed_by_epoch: u64,
    kept_while_visible: u64,
    kept_for_own_store: u64,
    freed_under_own_mark: u64,
    eighth_stores: u64,
    retired_while_validated: u64,
    used_after_reinsert: u64,
    clock_at_end: u64,
    unread_fields: u64,
    leaving: Leaving,
    late: Late,
    waiting: Waiting,
    portions: Portions,
    // of the domain before the step in hand
    path: Option<Path>,
    pending: usize,
    validated: bool,
    /// Retired nodes that are visible in hazards of the step's process
    own_visible: Vec<u32>,
    /// hazards of the run in hand, with their process, that were validated when their node was put back, and are as they were
    lived_on: Vec<(u32, u32)>,
}

impl Coverage {
    /// Begins a run.
    pub fn begin(&mut self) {
        self.lived_on.clear();
        self.leaving.begin();
    }

    /// Notes what is about to be changed by a step.
    pub fn before(&mut self, domain: &Domain, step: Step) {
        self.leaving.before(domain, step);
        self.late.before(domain, step);
        self.path = Some(domain.path);
        let process = domain.processes.get(step.process as usize);
        self.pending = process.map_or(0, |process| process.buffer.len());
        let own_visible = process.iter().flat_map(|process| &process.hazards).filter_map(|hazard| hazard.visible);
        self.own_visible = own_visible.filter(|&id| domain.node(id).is_retired()).collect();
        self.validated = domain.all_hazards().any(|hazard| hazard.validated && hazard.assigned == Some(step.node));
    }

    /// Counts a step that was answered so and left this domain.
    pub fn after(&mut self, domain: &Domain, step: Step, answer: Answer) {
        self.steps += 1;
        self.clock_at_end += (domain.clock == u32::MAX) as u64;
        self.refused[answer.refusal as usize] += 1;
        let (0, Some(kind)) = (answer.refusal, Kind::from_number(step.kind)) else {
            return;
        };
        self.accepted[step.kind as usize] += 1;
        self.unread_fields += has_unread(kind, step) as u64;
        self.leaving.after(domain, kind, step);
        self.late.after(domain, kind, step);
        self.to_fallback += (self.path == Some(Path::Fast) && domain.path == Path::Fallback) as u64;
        self.to_fast += (self.path == Some(Path::Fallback) && domain.path == Path::Fast) as u64;
        match kind {
            Kind::Retire => {
                self.freed_by_scan += answer.value as u64;
                self.retired_while_validated += self.validated as u64;
                let scanned = domain.path == Path::Fallback;
                self.kept_while_visible += (scanned && keeps_visible(domain, step.process)) as u64;
                self.kept_for_own_store += (scanned && keeps_stored(domain, step.process)) as u64;
                self.freed_under_own_mark += self.own_visible.iter().any(|&id| !domain.node(id).is_retired()) as u64;
            }
            Kind::Manage => self.freed_by_epoch += answer.value as u64,
            Kind::Protect | Kind::Clear => self.eighth_stores += (self.pending + 1 == BUFFER) as u64,
            Kind::Use => self.used_after_reinsert += self.lived_on.contains(&(step.process, step.hazard)) as u64,
            Kind::Reinsert => self.lived_on.extend(claims_on(domain, step.node)),
            _ => {}
        }
        if matches!(kind, Kind::Protect | Kind::Check | Kind::Clear) {
            self.lived_on.retain(|&place| place != (step.process, step.hazard));
        }
    }

    /// Counts what was said of a node of this domain.
    pub fn told(&mut self, domain: &Domain, node: u32, why: Why) {
        self.waiting.told(domain, node, why);
    }

    /// Counts a portion that was answered so and made one domain the other.
    pub fn examined(&mut self, before: &Domain, asked: Portion, answer: PortionAnswer, after: &Domain) {
        self.portions.examined(before, asked, answer, after);
    }

    /// Counts an answer given on words that need not be a domain.
    pub fn on_words(&mut self, answer: Answer) {
        self.steps += 1;
        self.refused[answer.refusal as usize] += 1;
    }

    /// Every count with its name.
    pub fn counts(&self) -> Vec<(String, u64)> {
        let kinds = Kind::ALL.iter().map(|&kind| (format!("accepted {kind:?}"), self.accepted[kind as usize]));
        let numbers = [3, 4].into_iter().chain(QUESTIONS.iter().map(|question| question.number as usize));
        let numbers = numbers.map(|number| (format!("refused {number}"), self.refused[number]));
        let others = [
            ("switched to fallback", self.to_fallback),
            ("switched to fast", self.to_fast),
            ("nodes freed by a scan", self.freed_by_scan),
            ("nodes freed by an epoch", self.freed_by_epoch),
            ("scans that kept a visible node", self.kept_while_visible),
            ("scans that kept a node for an own pending store alone", self.kept_for_own_store),
            ("scans that freed a node still visible in an own hazard", self.freed_under_own_mark),
            ("eighth stores taken", self.eighth_stores),
            ("retired while validated", self.retired_while_validated),
            ("uses of a claim older than a reinsert of its node", self.used_after_reinsert),
            ("steps at the last clock", self.clock_at_end),
            ("accepted with unread fields", self.unread_fields),
        ];
        let others = others.into_iter().chain(self.leaving.counts()).chain(self.late.counts());
        let others = others.chain(self.waiting.counts()).chain(self.portions.counts());
        kinds.chain(numbers).chain(others.map(|(name, count)| (name.to_string(), count))).collect()
    }

    pub fn accepted_percent(&self) -> u64 {
        100 * self.refused[0] / self.steps.max(1)
    }
}

fn has_unread(kind: Kind, mut step: Step) -> bool {
    Field::ALL.into_iter().any(|field| !kind.reads(field) && *step.field_mut(field) != 0)
}

/// The hazards that have the node validated, with their process.
fn claims_on(domain: &Domain, node: u32) -> Vec<(u32, u32)> {
    let mut claims = Vec::new();
    for (process, of) in (0..).zip(&domain.processes) {
        let claimed = (0..).zip(&of.hazards).filter(|(_, hazard)| hazard.validated && hazard.assigned == Some(node));
        claims.extend(claimed.map(|(hazard, _)| (process, hazard)));
    }
    claims
}

/// Whether a node is the owner's and old enough for a scan.
fn is_old(domain: &Domain, scanner: u32, id: u32) -> bool {
    matches!(*domain.node(id), Node::Retired { owner, retired_at, .. }
        if owner == scanner && domain.clock - retired_at > domain.params.delay())
}

/// Whether a node that is old enough is still there, because a hazard with it is visible.
fn keeps_visible(domain: &Domain, scanner: u32) -> bool {
    let mut visible = domain.all_hazards().filter_map(|hazard| hazard.visible);
    visible.any(|id| is_old(domain, scanner, id))
}

/// The same because of a pending store of the scanning process, and in no visible hazard.
fn keeps_stored(domain: &Domain, scanner: u32) -> bool {
    let mut stored = domain.process(scanner).buffer.iter().filter_map(|store| store.node);
    stored.any(|id| is_old(domain, scanner, id) && domain.all_hazards().all(|hazard| hazard.visible != Some(id)))
}
