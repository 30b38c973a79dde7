//! What a run of tests has met of processes that leave and join.

use crate::model::domain::{Domain, Path};
use crate::step::{Kind, Step};

#[derive(Default)]
pub struct Leaving {
    left_with_nodes: u64,
    left_with_none: u64,
    advanced_past_absent: u64,
    to_fast_with_absent: u64,
    handed_freed_by_scan: u64,
    handed_freed_by_epoch: u64,
    joined_at_another_epoch: u64,
    // of the domain before the step in hand
    epoch: u32,
    fallback: bool,
    /// the Retired nodes of the step's process, where it is a leave
    own: Vec<u32>,
    /// an absent process has another epoch than the global one; one has not checked in
    behind: bool,
    unchecked: bool,
    /// nodes of the run in hand that were handed over, and are Retired still
    handed: Vec<u32>,
    /// the epoch with which each process of the run in hand left last
    left_at: Vec<(u32, u32)>,
}

impl Leaving {
    /// Begins a run.
    pub fn begin(&mut self) {
        self.handed.clear();
        self.left_at.clear();
    }

    /// Notes what is about to be changed by a step.
    pub fn before(&mut self, domain: &Domain, step: Step) {
        (self.epoch, self.fallback) = (domain.epoch, domain.path == Path::Fallback);
        if step.kind == Kind::Leave as u32 {
            let of_leaver = |&id: &u32| domain.node(id).is_retired() && domain.node(id).owner() == Some(step.process);
            self.own = (0..domain.params.nodes).filter(of_leaver).collect();
        }
        let mut absent = domain.processes.iter().filter(|process| !process.present);
        self.behind = absent.clone().any(|process| process.epoch != domain.epoch);
        self.unchecked = absent.any(|process| !process.presence);
    }

    /// Counts an accepted step that left this domain.
    pub fn after(&mut self, domain: &Domain, kind: Kind, step: Step) {
        let freed = self.handed.iter().filter(|&&id| !domain.node(id).is_retired()).count() as u64;
        self.handed.retain(|&id| domain.node(id).is_retired());
        match kind {
            Kind::Retire => self.handed_freed_by_scan += freed,
            Kind::Manage => {
                self.handed_freed_by_epoch += freed;
                self.advanced_past_absent += (self.behind && domain.epoch != self.epoch) as u64;
                self.to_fast_with_absent += (self.unchecked && self.fallback && domain.path == Path::Fast) as u64;
            }
            Kind::Leave => self.left(step.process),
            Kind::Join => {
                let another = |&(process, epoch): &(u32, u32)| process == step.process && epoch != domain.epoch;
                self.joined_at_another_epoch += self.left_at.iter().any(another) as u64;
            }
            _ => {}
        }
    }

    fn left(&mut self, leaver: u32) {
        self.left_with_nodes += !self.own.is_empty() as u64;
        self.left_with_none += self.own.is_empty() as u64;
        self.handed.append(&mut self.own);
        self.left_at.retain(|&(process, _)| process != leaver);
        self.left_at.push((leaver, self.epoch));
    }

    /// Every count with its name.
    pub fn counts(&self) -> [(&'static str, u64); 7] {
        [
            ("leaves with nodes handed over", self.left_with_nodes),
            ("leaves with none", self.left_with_none),
            ("epochs advanced past an absent process with another one", self.advanced_past_absent),
            ("switched to fast with an absent process unchecked", self.to_fast_with_absent),
            ("nodes freed by a scan after they were handed over", self.handed_freed_by_scan),
            ("nodes freed by an epoch after they were handed over", self.handed_freed_by_epoch),
            ("joins at another global epoch than that of the leave", self.joined_at_another_epoch),
        ]
    }
}
