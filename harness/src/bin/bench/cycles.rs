//! Runs by kind of step: short cycles of accepted steps, again and again.

use crate::goals;
use crate::rows::{run, shape};
use crate::table::Table;
use harness::model::domain::Domain;
use harness::model::mistake::Rules;
use harness::model::words::words_of;
use harness::model::Model;
use harness::params::Params;
use harness::step::{Kind, Step};

const STEPS: usize = 5_000;
const HEIR: u32 = 1;

struct Cycle {
    name: &'static str,
    before: &'static [Kind],
    again: &'static [Kind],
}

use Kind::*;

const CYCLES: &[Cycle] = &[
    Cycle { name: "use", before: &[Allocate, Publish, Protect, Check], again: &[Use] },
    Cycle { name: "check", before: &[Allocate, Publish, Protect], again: &[Check] },
    Cycle { name: "remove, reinsert", before: &[Allocate, Publish], again: &[Remove, Reinsert] },
    Cycle { name: "leave, join", before: &[], again: &[Leave, Join] },
    Cycle { name: "protect, drain", before: &[], again: &[Protect, Drain] },
    Cycle { name: "protect, flush", before: &[], again: &[Protect, Flush] },
    Cycle { name: "clear, drain", before: &[], again: &[Clear, Drain] },
    Cycle { name: "tick", before: &[], again: &[Tick] },
    Cycle { name: "manage", before: &[], again: &[Manage] },
    Cycle { name: "clear presence", before: &[], again: &[ClearPresence] },
    Cycle { name: "portion, none Retired", before: &[], again: &[Portion] },
    Cycle {
        name: "allocate to retire, manage to free",
        before: &[],
        again: &[
            Allocate, Publish, Remove, Retire, Manage, Manage, Manage, Manage, Manage, Manage, Manage, Manage, Manage,
            Manage, Manage, Manage,
        ],
    },
];

/// All steps are of process 0, hazard 0 and node 0, on a fresh domain; where manage frees, on one of a single process. A leave is to
/// process 1, where there is one.
pub fn all(params: Params, table: &mut Table) {
    let has_heir = |cycle: &&Cycle| params.processes > HEIR || !cycle.again.contains(&Leave);
    for cycle in CYCLES.iter().filter(has_heir) {
        let alone = cycle.again.contains(&Retire);
        let params = if alone { Params { processes: 1, ..params } } else { params };
        let mut model = Model { rules: Rules::default(), domain: Domain::fresh(params) };
        let node = |kind: Kind| if kind.row().heir { HEIR } else { 0 };
        let step = |&kind: &Kind| (0, Step::new(kind, 0, 0, node(kind), 70));
        for (_, step) in cycle.before.iter().map(step) {
            assert_eq!(model.step(step).refusal, 0, "{}", cycle.name);
        }
        let start = words_of(&model.domain);
        let schedule: Vec<_> = cycle.again.iter().map(step).cycle().take(STEPS).collect();
        assert!(schedule.iter().all(|&(_, step)| model.step(step).refusal == 0), "{}", cycle.name);
        let name = format!("{}, run: {}", shape(params), cycle.name);
        run(table, &name, &start, &schedule, goals::cycle(cycle.name));
    }
}
