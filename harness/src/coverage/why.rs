//! What a run of tests has met of nodes that wait.

use crate::model::domain::{Domain, Node};
use crate::why::{Behind, Reason, Why};

#[derive(Default)]
pub struct Waiting {
    not_retired: u64,
    young: u64,
    young_past_last_clock: u64,
    visible: u64,
    visible_in_two: u64,
    visible_in_own_store: u64,
    ready: u64,
    ready_under_own_mark: u64,
    owner_absent: u64,
    behind_not_asked: u64,
    nobody_behind: u64,
    somebody_behind: u64,
    past_absent: u64,
}

impl Waiting {
    /// Counts an answer that was given on a node of this domain.
    pub fn told(&mut self, domain: &Domain, id: u32, why: Why) {
        let Why::Told(reason, behind) = why else {
            return;
        };
        self.behind(domain, behind);
        let Node::Retired { owner, .. } = *domain.node(id) else {
            self.not_retired += 1;
            return;
        };
        self.owner_absent += !domain.process(owner).present as u64;
        let shows = |process: &u32| domain.process(*process).hazards.iter().any(|hazard| hazard.visible == Some(id));
        let showing = (0..domain.params.processes).filter(shows).count();
        match reason {
            Reason::Young(ticks) => {
                self.young += 1;
                self.young_past_last_clock += domain.clock.checked_add(ticks).is_none() as u64;
            }
            Reason::Visible { .. } => {
                self.visible += 1;
                self.visible_in_two += (showing > 1) as u64;
                self.visible_in_own_store += (showing == 0) as u64;
            }
            _ => {
                self.ready += 1;
                self.ready_under_own_mark += shows(&owner) as u64;
            }
        }
    }

    fn behind(&mut self, domain: &Domain, behind: Behind) {
        let named = match behind {
            Behind::NotAsked => {
                self.behind_not_asked += 1;
                return;
            }
            Behind::Nobody => domain.params.processes,
            Behind::Process(process) => process,
        };
        self.nobody_behind += (behind == Behind::Nobody) as u64;
        self.somebody_behind += (behind != Behind::Nobody) as u64;
        self.past_absent += (0..named).any(|lower| domain.process(lower).epoch != domain.epoch) as u64;
    }

    /// Every count with its name.
    pub fn counts(&self) -> [(&'static str, u64); 13] {
        [
            ("why: not Retired", self.not_retired),
            ("why: too young", self.young),
            ("why: too young for longer than the clock can go on", self.young_past_last_clock),
            ("why: visible", self.visible),
            ("why: visible in hazards of two processes or more", self.visible_in_two),
            ("why: visible in an own pending store alone", self.visible_in_own_store),
            ("why: ready", self.ready),
            ("why: ready, and still visible in an own hazard", self.ready_under_own_mark),
            ("why: Retired, of an absent process", self.owner_absent),
            ("why: not asked who is behind", self.behind_not_asked),
            ("why: nobody behind", self.nobody_behind),
            ("why: somebody behind", self.somebody_behind),
            ("why: an absent process at another epoch passed over", self.past_absent),
        ]
    }
}
