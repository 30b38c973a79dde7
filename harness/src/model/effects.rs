//! What an accepted step does, and its value.

use super::domain::{Hazard, Node, Path, Process, Store};
use super::mistake::Mistake;
use super::Model;
use crate::portion::Portion;
use crate::step::{Kind, Step};

impl Model {
    /// Does an accepted step of this kind, and gives its value.
    pub(super) fn act(&mut self, kind: Kind, step: Step) -> u32 {
        match kind {
            Kind::Allocate => *self.node(step) = Node::Allocated { owner: step.process, guest: step.guest },
            Kind::Publish => *self.node(step) = Node::Reachable { guest: self.node(step).guest() },
            Kind::Protect => self.assign(step, Some(step.node)),
            Kind::Check => self.hazard(step).validated = true,
            Kind::Use => return self.guest(step),
            Kind::Clear => self.assign(step, None),
            Kind::Remove => *self.node(step) = Node::Removed { owner: step.process, guest: self.node(step).guest() },
            Kind::Retire => return self.retire(step),
            Kind::Drain => drain(self.process(step.process)),
            Kind::Flush => self.flush(step.process),
            Kind::Tick => self.domain.clock += 1,
            Kind::Manage => return self.manage(step.process),
            Kind::ClearPresence => self.clear_presence(),
            Kind::Reinsert => self.reinsert(step),
            Kind::Leave => self.leave(step.process, step.node),
            Kind::Join => self.join(step.process),
            Kind::Portion => return self.examine(Portion::new(step.process, step.node, step.guest)).freed,
        }
        0
    }

    fn node(&mut self, step: Step) -> &mut Node {
        &mut self.domain.nodes[step.node as usize]
    }

    fn process(&mut self, process: u32) -> &mut Process {
        &mut self.domain.processes[process as usize]
    }

    fn hazard(&mut self, step: Step) -> &mut Hazard {
        &mut self.process(step.process).hazards[step.hazard as usize]
    }

    fn assign(&mut self, step: Step, node: Option<u32>) {
        let keeps = self.rules.have(Mistake::ProtectKeepsValidated) && node.is_some();
        let hazard = self.hazard(step);
        hazard.assigned = node;
        hazard.validated &= keeps;
        if self.rules.have(Mistake::NoStoreOnFastPath) && self.domain.path == Path::Fast {
            return;
        }
        let time = self.domain.clock;
        self.process(step.process).buffer.push_back(Store { hazard: step.hazard, node, time });
    }

    fn guest(&self, step: Step) -> u32 {
        let assigned = self.domain.hazard(step.process, step.hazard).assigned;
        assigned.map_or(0, |node| self.domain.node(node).guest())
    }

    fn reinsert(&mut self, step: Step) {
        let rules = self.rules;
        let node = self.node(step);
        let guest = if rules.have(Mistake::ReinsertLosesGuest) { 0 } else { node.guest() };
        *node = match node.owner() {
            _ if rules.have(Mistake::ReinsertNotRaised) => return,
            Some(owner) if rules.have(Mistake::ReinsertKeepsOwner) => Node::OwnedReachable { owner, guest },
            _ => Node::Reachable { guest },
        };
    }

    fn flush(&mut self, process: u32) {
        let once = self.rules.have(Mistake::FlushDrainsOnce);
        let process = self.process(process);
        while !process.buffer.is_empty() {
            drain(process);
            if once {
                break;
            }
        }
    }

    fn retire(&mut self, step: Step) -> u32 {
        let (owner, guest) = (step.process, self.node(step).guest());
        let (retired_at, limbo) = (self.domain.clock, self.domain.process(owner).epoch);
        *self.node(step) = Node::Retired { owner, guest, retired_at, limbo };
        if self.domain.path == Path::Fast {
            let retired = self.retired_by(owner);
            let needed = self.domain.params.fallback_threshold + self.rules.have(Mistake::SwitchesOverC) as u32;
            if retired < needed {
                return 0;
            }
            self.domain.path = Path::Fallback;
            if !self.rules.have(Mistake::KeepsPresenceOverSwitch) {
                self.clear_presence();
            }
            if self.rules.have(Mistake::SwitchesWithoutScan) {
                return 0;
            }
        }
        self.scan(owner)
    }

    fn retired_by(&self, owner: u32) -> u32 {
        let of_all = self.rules.have(Mistake::CountsRetiredOfAll);
        let counts = |node: &&Node| node.is_retired() && (of_all || node.owner() == Some(owner));
        self.domain.nodes.iter().filter(counts).count() as u32
    }

    /// A whole scan by this process; how many nodes it frees.
    pub fn scan(&mut self, scanner: u32) -> u32 {
        let rules = self.rules;
        let clock = self.domain.clock;
        let seen = self.seen_by(scanner);
        let old = self.least_age();
        let current = self.domain.process(scanner).epoch;
        self.free_where(|id, owner, retired_at, limbo| {
            (owner == scanner || rules.have(Mistake::ScansNodesOfAll))
                && clock.saturating_sub(retired_at) >= old
                && (!seen.contains(&id) || rules.have(Mistake::NoVisibleTest))
                && (limbo == current || !rules.have(Mistake::ScansCurrentLimboOnly))
        })
    }

    /// From this age on a scan may free a node.
    pub(super) fn least_age(&self) -> u32 {
        if self.rules.have(Mistake::NoAgeTest) {
            return 0;
        }
        self.delay(Mistake::ScanWithoutLateness) + 1 - self.rules.have(Mistake::FreesAtAgeT) as u32
    }

    /// The nodes that a scan by this process sees in the hazards of all.
    fn seen_by(&self, scanner: u32) -> Vec<u32> {
        let mut seen = Vec::new();
        for (id, process) in self.domain.processes.iter().enumerate() {
            let own = id as u32 == scanner;
            for (place, hazard) in process.hazards.iter().enumerate() {
                seen.extend(self.seen_in(process, place, own));
                seen.extend(hazard.visible.filter(|_| own && self.rules.have(Mistake::OwnVisibleToo)));
            }
        }
        seen
    }

    /// What the scanning process sees in a hazard: in its own the node of the last pending store to it, or else, and in those of others,
    /// the visible one.
    pub(super) fn seen_in(&self, process: &Process, place: usize, own: bool) -> Option<u32> {
        let Hazard { visible, assigned, .. } = process.hazards[place];
        if self.rules.have(Mistake::ScanLooksAtAssigned) || own && self.rules.have(Mistake::OwnAssigned) {
            return assigned;
        }
        let knows = own && !self.rules.have(Mistake::OwnStoresUnknown) || self.rules.have(Mistake::OthersStoresKnown);
        let mut stores = process.buffer.iter().filter(|store| store.hazard as usize == place);
        let store = if self.rules.have(Mistake::OwnFirstStore) { stores.next() } else { stores.next_back() };
        store.filter(|_| knows).map_or(visible, |store| store.node)
    }

    /// Frees the Retired nodes that `due` names by their number, owner, time and limbo list, and counts them.
    fn free_where(&mut self, due: impl Fn(u32, u32, u32, u32) -> bool) -> u32 {
        let mut freed = 0;
        for (id, node) in self.domain.nodes.iter_mut().enumerate() {
            if let Node::Retired { owner, retired_at, limbo, .. } = *node {
                if due(id as u32, owner, retired_at, limbo) {
                    *node = Node::Free;
                    freed += 1;
                }
            }
        }
        freed
    }

    fn manage(&mut self, id: u32) -> u32 {
        let one_more = self.rules.have(Mistake::CountsToOneMoreThanQ) as u32;
        let threshold = self.domain.params.quiescence_threshold + one_more;
        let process = self.process(id);
        process.calls = (process.calls + 1) % threshold;
        if process.calls != 0 {
            return 0;
        }
        process.presence = true;
        if self.domain.path == Path::Fallback {
            let all_checked_in = self.compared(Mistake::WaitsForAbsentPresence).all(|process| process.presence);
            if !all_checked_in && !self.rules.have(Mistake::ReturnsWithoutPresence) {
                return 0;
            }
            self.domain.path = Path::Fast;
        }
        self.quiescent_state(id)
    }

    fn quiescent_state(&mut self, id: u32) -> u32 {
        let global = self.domain.epoch;
        if self.domain.process(id).epoch != global {
            self.process(id).epoch = global;
            let list = self.due_list(global);
            return self.free_where(|_, owner, _, limbo| owner == id && limbo == list);
        }
        let waits_for = (global + self.rules.have(Mistake::AdvanceWaitsForOneMore) as u32) % 3;
        let behind = self.compared(Mistake::WaitsForAbsentEpoch).filter(|process| process.epoch != waits_for).count();
        if behind <= self.rules.have(Mistake::AdvancesWithOneBehind) as usize {
            self.domain.epoch = (global + 1) % 3;
        }
        0
    }

    /// The list that a process frees as it comes to this epoch.
    fn due_list(&self, epoch: u32) -> u32 {
        let on = match self.rules {
            rules if rules.have(Mistake::FreesTwoEpochsOn) => 1,
            rules if rules.have(Mistake::FreesListOfBefore) => 2,
            _ => 0,
        };
        (epoch + on) % 3
    }

    /// The processes whose epochs or presence words are compared: those that are present, and by a mistake all.
    fn compared(&self, all: Mistake) -> impl Iterator<Item = &Process> {
        let all = self.rules.have(all);
        self.domain.processes.iter().filter(move |process| process.present || all)
    }

    fn leave(&mut self, leaver: u32, heir: u32) {
        let (clock, epoch) = (self.domain.clock, self.domain.process(heir).epoch);
        let [leaves_nodes, keeps_stamp, keeps_limbo] =
            [Mistake::LeaveLeavesNodes, Mistake::LeaveKeepsStamp, Mistake::LeaveKeepsLimbo]
                .map(|mistake| self.rules.have(mistake));
        for node in self.domain.nodes.iter_mut().filter(|node| node.owner() == Some(leaver) && !leaves_nodes) {
            if let Node::Retired { guest, retired_at, limbo, .. } = *node {
                let retired_at = if keeps_stamp { retired_at } else { clock };
                let limbo = if keeps_limbo { limbo } else { epoch };
                *node = Node::Retired { owner: heir, guest, retired_at, limbo };
            }
        }
        let process = self.process(leaver);
        (process.epoch, process.calls, process.presence, process.present) = (0, 0, false, false);
    }

    fn join(&mut self, id: u32) {
        let (global, keeps_epoch) = (self.domain.epoch, self.rules.have(Mistake::JoinKeepsEpoch));
        let process = self.process(id);
        process.present = true;
        if !keeps_epoch {
            process.epoch = global;
        }
    }

    fn clear_presence(&mut self) {
        for process in &mut self.domain.processes {
            process.presence = false;
        }
    }
}

/// The first pending store becomes visible.
fn drain(process: &mut Process) {
    let store = process.buffer.pop_front().expect("a pending store");
    process.hazards[store.hazard as usize].visible = store.node;
}
