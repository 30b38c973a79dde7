//! The plain desk of demand 3, which has no store buffers, times, limbo lists or paths, and the bound on unfreed nodes.
//! It is led by the five numbers of a step, whether it was accepted and the count of freed nodes, and agrees with the words after each.

use crate::layout::{hazard_start, node_start};
use crate::params::Params;
use crate::step::{Answer, Step};

const FREE: u32 = 0;
const ALLOCATED: u32 = 1;
const REACHABLE: u32 = 2;
const REMOVED: u32 = 3;
const RETIRED: u32 = 4;

#[derive(Clone, Copy, Debug, PartialEq, Default)]
struct Cell {
    state: u32,
    owner: u32,
    guest: u32,
}

#[derive(Clone, Copy, Debug, PartialEq, Default)]
struct Pointer {
    /// node + 1, 0 for none
    assigned: u32,
    validated: u32,
}

struct Retirement {
    process: u32,
    clock: u32,
}

pub struct Reference {
    params: Params,
    cells: Vec<Cell>,
    pointers: Vec<Vec<Pointer>>,
    /// the number of accepted ticks so far
    clock: u32,
    retirements: Vec<Retirement>,
}

impl Reference {
    pub fn new(params: Params) -> Reference {
        Reference {
            params,
            cells: vec![Cell::default(); params.nodes as usize],
            pointers: vec![vec![Pointer::default(); params.hazards as usize]; params.processes as usize],
            clock: 0,
            retirements: Vec::new(),
        }
    }

    /// Follows a step that was answered so and left these words.
    pub fn follow(&mut self, step: Step, answer: Answer, words: &[u32]) -> Result<(), String> {
        if answer.refusal == 0 {
            self.accepted(step, answer.value)?;
            let frees = if matches!(step.kind, 8 | 12 | 17) { answer.value } else { 0 };
            self.free(frees, words)?;
        }
        self.agrees(words)?;
        match (answer.refusal, step.kind) {
            (0, 8) => self.bounded(step.process),
            _ => Ok(()),
        }
    }

    fn accepted(&mut self, step: Step, value: u32) -> Result<(), String> {
        self.asks_ranges(step)?;
        match step.kind {
            1 => self.allocated(step)?,
            2 => self.turned(step, ALLOCATED, REACHABLE)?,
            3 => self.assign(step, step.node + 1),
            4 => self.checked(step)?,
            5 => self.used(step, value)?,
            6 => self.assign(step, 0),
            7 => {
                self.asks(step.node, REACHABLE)?;
                self.turn(step.node, REMOVED, step.process);
            }
            8 => {
                self.turned(step, REMOVED, RETIRED)?;
                self.retirements.push(Retirement { process: step.process, clock: self.clock });
            }
            11 => self.clock += 1,
            14 => self.turned(step, REMOVED, REACHABLE)?,
            15 => self.hand_over(step.process, step.node),
            _ => {}
        }
        Ok(())
    }

    /// Questions 5 to 7 and 23, on steps 1 to 8 and 14 to 17.
    fn asks_ranges(&self, step: Step) -> Result<(), String> {
        let reads_hazard = matches!(step.kind, 3..=6);
        let reads_node = matches!(step.kind, 1..=3 | 7 | 8 | 14 | 17);
        let wrong = (matches!(step.kind, 1..=8 | 14..=17) && step.process >= self.params.processes)
            || (reads_hazard && step.hazard >= self.params.hazards)
            || (reads_node && step.node >= self.params.nodes)
            || (step.kind == 17 && !(1..=256).contains(&step.guest));
        match wrong {
            true => Err("a number out of range was accepted".into()),
            false => Ok(()),
        }
    }

    fn asks(&self, node: u32, state: u32) -> Result<(), String> {
        match self.cells[node as usize].state == state {
            true => Ok(()),
            false => Err(format!("node {node} is in state {}, not {state}", self.cells[node as usize].state)),
        }
    }

    fn asks_owned(&self, step: Step, state: u32) -> Result<(), String> {
        self.asks(step.node, state)?;
        match self.cells[step.node as usize].owner == step.process {
            true => Ok(()),
            false => Err(format!("node {} is not of process {}", step.node, step.process)),
        }
    }

    fn allocated(&mut self, step: Step) -> Result<(), String> {
        self.asks(step.node, FREE)?;
        self.cells[step.node as usize] = Cell { state: ALLOCATED, owner: step.process, guest: step.guest };
        Ok(())
    }

    /// A step by which the owner of a node in a state turns it to another; a Reachable one has no owner.
    fn turned(&mut self, step: Step, from: u32, to: u32) -> Result<(), String> {
        self.asks_owned(step, from)?;
        self.turn(step.node, to, if to == REACHABLE { 0 } else { step.process });
        Ok(())
    }

    fn turn(&mut self, node: u32, state: u32, owner: u32) {
        let cell = &mut self.cells[node as usize];
        (cell.state, cell.owner) = (state, owner);
    }

    /// A leave: the Retired nodes of a process become those of another, which counts as their retirement by it.
    fn hand_over(&mut self, leaver: u32, heir: u32) {
        let handed = self.cells.iter_mut().filter(|cell| cell.state == RETIRED && cell.owner == leaver);
        for cell in handed {
            cell.owner = heir;
            self.retirements.push(Retirement { process: heir, clock: self.clock });
        }
    }

    fn pointer(&mut self, step: Step) -> &mut Pointer {
        &mut self.pointers[step.process as usize][step.hazard as usize]
    }

    fn assign(&mut self, step: Step, assigned: u32) {
        *self.pointer(step) = Pointer { assigned, validated: 0 };
    }

    fn checked(&mut self, step: Step) -> Result<(), String> {
        let node = self.pointer(step).assigned.checked_sub(1).ok_or("check of a hazard with no node")?;
        self.asks(node, REACHABLE)?;
        self.pointer(step).validated = 1;
        Ok(())
    }

    fn used(&mut self, step: Step, value: u32) -> Result<(), String> {
        let Pointer { assigned, validated } = *self.pointer(step);
        if validated != 1 {
            return Err("use of a hazard that is not validated".into());
        }
        let guest = self.cells[assigned as usize - 1].guest;
        match guest == value {
            true => Ok(()),
            false => Err(format!("use gives {value}, the reference {guest}")),
        }
    }

    /// Frees, one after another, the nodes that are Free in the words and Retired here, which must be `count`.
    fn free(&mut self, count: u32, words: &[u32]) -> Result<(), String> {
        let freed: Vec<usize> = (0..self.cells.len())
            .filter(|&id| self.cells[id].state == RETIRED && words[node_start(self.params, id)] == FREE)
            .collect();
        if freed.len() != count as usize {
            return Err(format!("{count} freed, but {} turned Free", freed.len()));
        }
        for id in freed {
            if self.pointers.iter().flatten().any(|p| p.assigned as usize == id + 1 && p.validated == 1) {
                return Err(format!("node {id} was freed under a process that has validated it"));
            }
            self.cells[id] = Cell::default();
        }
        Ok(())
    }

    fn agrees(&self, words: &[u32]) -> Result<(), String> {
        for (id, cell) in self.cells.iter().enumerate() {
            let at = node_start(self.params, id);
            if [cell.state, cell.owner, cell.guest] != words[at..at + 3] {
                return Err(format!("node {id} is {cell:?}, and {:?} in the words", &words[at..at + 3]));
            }
        }
        for (process, pointers) in self.pointers.iter().enumerate() {
            for (hazard, pointer) in pointers.iter().enumerate() {
                let at = hazard_start(self.params, process, hazard) + 1;
                if [pointer.assigned, pointer.validated] != words[at..at + 2] {
                    let found = &words[at..at + 2];
                    return Err(format!(
                        "hazard {hazard} of process {process} is {pointer:?}, and {found:?} in the words"
                    ));
                }
            }
        }
        Ok(())
    }

    /// At most max(C - 1, N x K + nodes that the process retired or was handed at most T + E ticks ago) of its nodes are unfreed.
    fn bounded(&self, process: u32) -> Result<(), String> {
        let unfreed = self.cells.iter().filter(|cell| cell.state == RETIRED && cell.owner == process).count() as u32;
        let since = self.clock.saturating_sub(self.params.delay());
        let recent = self.retirements.iter().rev().take_while(|retirement| retirement.clock >= since);
        let recent = recent.filter(|retirement| retirement.process == process).count() as u32;
        let visible = self.params.processes * self.params.hazards;
        let bound = (self.params.fallback_threshold - 1).max(visible + recent);
        match unfreed <= bound {
            true => Ok(()),
            false => Err(format!("process {process} has {unfreed} unfreed nodes, above the bound of {bound}")),
        }
    }
}
