//! What a run of tests has met of flushes that come late: ticks and scans that would go otherwise without E.

use crate::model::domain::{Domain, Node, Path};
use crate::step::{Kind, Step};

#[derive(Default)]
pub struct Late {
    ticks_taken: u64,
    kept: u64,
    freed: u64,
    // of the domain before the step in hand
    /// a pending store is T ticks old or older
    overdue: bool,
    /// the nodes that are T + E + 1 ticks old, where the step is a retire
    just_old: Vec<u32>,
}

impl Late {
    /// Notes what is about to be changed by a step.
    pub fn before(&mut self, domain: &Domain, step: Step) {
        let (clock, params) = (domain.clock, domain.params);
        let mut stores = domain.processes.iter().flat_map(|process| &process.buffer);
        self.overdue = stores.any(|store| clock - store.time >= params.visibility_bound);
        self.just_old.clear();
        if step.kind == Kind::Retire as u32 && params.lateness > 0 {
            self.just_old.extend((0..params.nodes).filter(|&id| age(domain, id) == Some(params.delay() + 1)));
        }
    }

    /// Counts an accepted step that left this domain.
    pub fn after(&mut self, domain: &Domain, kind: Kind, step: Step) {
        match kind {
            Kind::Tick => self.ticks_taken += self.overdue as u64,
            Kind::Retire => {
                let scanned = domain.path == Path::Fallback;
                self.kept += (scanned && keeps_young(domain, step.process)) as u64;
                self.freed += self.just_old.iter().any(|&id| !domain.node(id).is_retired()) as u64;
            }
            _ => {}
        }
    }

    /// Every count with its name.
    pub fn counts(&self) -> [(&'static str, u64); 3] {
        [
            ("ticks taken with a store of T ticks or more", self.ticks_taken),
            ("scans that kept a node older than T ticks for E alone", self.kept),
            ("scans that freed a node of T + E + 1 ticks where E is not 0", self.freed),
        ]
    }
}

/// How long ago a node was retired.
fn age(domain: &Domain, id: u32) -> Option<u32> {
    match *domain.node(id) {
        Node::Retired { retired_at, .. } => Some(domain.clock - retired_at),
        _ => None,
    }
}

/// Whether a node of the owner that is older than T ticks, and in no hazard or pending store, is still there.
fn keeps_young(domain: &Domain, scanner: u32) -> bool {
    let visible = domain.all_hazards().filter_map(|hazard| hazard.visible);
    let stored = domain.processes.iter().flat_map(|process| &process.buffer).filter_map(|store| store.node);
    let seen: Vec<u32> = visible.chain(stored).collect();
    (0..domain.params.nodes).any(|id| {
        let old = age(domain, id).is_some_and(|age| age > domain.params.visibility_bound);
        old && domain.node(id).owner() == Some(scanner) && !seen.contains(&id)
    })
}
