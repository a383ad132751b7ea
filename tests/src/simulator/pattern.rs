//! One pattern: its start and its steps.

use super::circuit::{Circuit, SUPPLY};
use super::reach::Reach;
use super::walk::{Ends, Walk};
use crate::cell_file::FIRST_NODE;
use crate::functions::NEVER;
use crate::refusal::Refusal;

/// All nodes at one pattern, by number and with the rails.
#[derive(Clone, Debug, PartialEq, Eq)]
pub struct State {
    pub values: Vec<bool>,
    /// The time of each node's next change, or never.
    pub next: Vec<u32>,
}

impl State {
    /// The rails as they always are and all else low, with no change pending.
    pub fn blank(circuit: &Circuit) -> State {
        let mut values = vec![false; circuit.nodes()];
        values[SUPPLY] = true;
        State {
            values,
            next: vec![NEVER; circuit.nodes()],
        }
    }

    /// The start: all nodes take their sources, and every inner node is considered.
    pub fn start(circuit: &Circuit, pattern: usize) -> Result<State, Refusal> {
        let mut state = State::blank(circuit);
        for (number, node) in (FIRST_NODE..).zip(&circuit.cell.nodes) {
            state.values[number] = node.start.at(pattern);
        }
        let inner: Vec<bool> = (0..circuit.nodes())
            .map(|node| circuit.is_inner(node))
            .collect();
        state.consider(circuit, 0, &inner)?;
        Ok(state)
    }

    /// The step to a time, which may be one at which nothing happens here. Refused, it
    /// leaves a state that is of no use.
    pub fn step(&mut self, circuit: &Circuit, pattern: usize, time: u32) -> Result<(), Refusal> {
        let before = self.arrive(circuit, pattern, time);
        if self.values == before {
            return Ok(());
        }
        let reach = Reach {
            circuit,
            before: &before,
            after: &self.values,
        };
        let reconsidered = reach.reconsidered();
        self.consider(circuit, time, &reconsidered)
    }

    /// Rule 1: inputs take what is scheduled, and nodes flip. Gives the values that
    /// were there before.
    pub fn arrive(&mut self, circuit: &Circuit, pattern: usize, time: u32) -> Vec<bool> {
        let before = self.values.clone();
        for entry in circuit
            .cell
            .schedule
            .iter()
            .filter(|entry| entry.time == time)
        {
            self.values[usize::from(entry.node)] = entry.source.at(pattern);
        }
        for node in circuit.records() {
            if self.next[node] == time {
                self.values[node] = !self.values[node];
                self.next[node] = NEVER;
            }
        }
        before
    }

    /// Rules 3 to 7 for some of the inner nodes. Refused, if one of these has an arm
    /// above the ceiling; the others are not looked at.
    pub fn consider(
        &mut self,
        circuit: &Circuit,
        time: u32,
        nodes: &[bool],
    ) -> Result<(), Refusal> {
        if !nodes.contains(&true) {
            return Ok(());
        }
        let kept = circuit.kept(&self.values);
        let walk = Walk {
            circuit,
            values: &self.values,
            kept: &kept,
        };
        for node in circuit.records().filter(|&node| nodes[node]) {
            self.next[node] = next_change(&walk, node, self.next[node], time)?;
        }
        Ok(())
    }
}

/// Rules 4 to 7: the next change of a node that is considered.
pub fn next_change(walk: &Walk, node: usize, pending: u32, time: u32) -> Result<u32, Refusal> {
    let present = walk.values[node];
    let sum = walk.sum(node, None)?;
    let new = sum.value(present);
    if new == present {
        return Ok(NEVER);
    }
    let load = walk.load(node, None, new, Ends::of(sum));
    let due = u64::from(time) + load.delay();
    let earlier = due.min(u64::from(pending));
    match earlier > u64::from(walk.circuit.cell.horizon) {
        true => Ok(NEVER),
        false => Ok(earlier as u32),
    }
}
