//! What a run of tests has met of scans in portions.

use crate::model::domain::{Domain, Node, Path};
use crate::portion::{Portion, PortionAnswer};

#[derive(Default)]
pub struct Portions {
    limit_met: u64,
    last_retired_met: u64,
    last_node_met: u64,
    fewer_met: u64,
    none_met: u64,
    others_passed_over: u64,
    own_below: u64,
    kept_young: u64,
    kept_visible: u64,
    kept_for_own_store: u64,
    freed_under_own_mark: u64,
    freed_on_fast: u64,
    freed_on_fallback: u64,
    absent: u64,
    past_nodes: u64,
    past_nodes_and_limits: u64,
    past_limits: u64,
}

impl Portions {
    /// Counts a portion that was answered so and made one domain the other.
    pub fn examined(&mut self, before: &Domain, asked: Portion, answer: PortionAnswer, after: &Domain) {
        let [least, most] = Portion::LIMITS;
        self.absent += (answer.refusal == 20) as u64;
        self.past_nodes += (answer.refusal == 7) as u64;
        self.past_nodes_and_limits += (answer.refusal == 7 && !(least..=most).contains(&asked.limit)) as u64;
        self.past_limits += (answer.refusal == 23) as u64;
        if answer.refusal == 0 {
            self.ended(asked.limit, answer, before.params.nodes);
            self.freed(before, asked, answer, after);
        }
    }

    fn ended(&mut self, limit: u32, answer: PortionAnswer, nodes: u32) {
        let count = match answer.examined == limit {
            true if answer.next == nodes => &mut self.last_node_met,
            true if answer.left == 0 => &mut self.last_retired_met,
            true => &mut self.limit_met,
            false if answer.examined == 0 => &mut self.none_met,
            false => &mut self.fewer_met,
        };
        *count += 1;
    }

    fn freed(&mut self, before: &Domain, asked: Portion, answer: PortionAnswer, after: &Domain) {
        let retired = |id: &u32| before.node(*id).is_retired();
        let own = |id: &u32| before.node(*id).owner() == Some(asked.process);
        let shown = |id: u32| before.all_hazards().any(|hazard| hazard.visible == Some(id));
        let own_mark = |id: u32| before.process(asked.process).hazards.iter().any(|hazard| hazard.visible == Some(id));
        let between: Vec<u32> = (asked.start..answer.next).filter(retired).collect();
        self.others_passed_over += !between.iter().all(own) as u64;
        self.own_below += (0..asked.start).filter(retired).any(|id| own(&id)) as u64;
        let examined = between.into_iter().filter(own);
        let (kept, freed): (Vec<u32>, Vec<u32>) = examined.partition(|&id| after.node(id).is_retired());
        let (young, seen): (Vec<u32>, Vec<u32>) = kept.iter().partition(|&&id| is_young(before, id));
        let some = !freed.is_empty();
        self.kept_young += (some && !young.is_empty()) as u64;
        self.kept_visible += (some && seen.iter().any(|&id| shown(id))) as u64;
        self.kept_for_own_store += seen.iter().any(|&id| !shown(id)) as u64;
        self.freed_under_own_mark += freed.iter().any(|&id| own_mark(id)) as u64;
        self.freed_on_fast += (some && before.path == Path::Fast) as u64;
        self.freed_on_fallback += (some && before.path == Path::Fallback) as u64;
    }

    /// Every count with its name.
    pub fn counts(&self) -> [(&'static str, u64); 17] {
        [
            ("portion: the limit met, and nodes left", self.limit_met),
            ("portion: the limit met by the last Retired node, and further nodes", self.last_retired_met),
            ("portion: the limit met by the last node", self.last_node_met),
            ("portion: fewer met than the limit", self.fewer_met),
            ("portion: none met", self.none_met),
            ("portion: Retired nodes of others passed over", self.others_passed_over),
            ("portion: own Retired nodes below the start", self.own_below),
            ("portion: some freed, and one kept for its age", self.kept_young),
            ("portion: some freed, and one kept that is visible", self.kept_visible),
            ("portion: one kept for an own pending store alone", self.kept_for_own_store),
            ("portion: one freed that is visible in an own hazard", self.freed_under_own_mark),
            ("portion: some freed on the fast path", self.freed_on_fast),
            ("portion: some freed on the fallback path", self.freed_on_fallback),
            ("portion: refused with 20", self.absent),
            ("portion: refused with 7", self.past_nodes),
            ("portion: refused with 7, the limit out of range too", self.past_nodes_and_limits),
            ("portion: refused with 23", self.past_limits),
        ]
    }
}

fn is_young(domain: &Domain, id: u32) -> bool {
    matches!(*domain.node(id), Node::Retired { retired_at, .. } if domain.clock - retired_at <= domain.params.delay())
}
