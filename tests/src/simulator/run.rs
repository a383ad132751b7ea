//! All patterns together: the start, the steps, and storing.

use super::circuit::Circuit;
use super::pattern::State;
use super::walk::Walk;
use crate::functions::{Table, NEVER};
use crate::refusal::Refusal;

/// A run at one moment: the state of every pattern.
#[derive(Clone, Debug)]
pub struct Run {
    pub now: u32,
    pub states: Vec<State>,
}

impl Run {
    /// The start, at time 0; refused if it is so at any pattern.
    pub fn start(circuit: &Circuit) -> Result<Run, Refusal> {
        let patterns = 0..circuit.patterns();
        let states = patterns.map(|pattern| State::start(circuit, pattern));
        Ok(Run {
            now: 0,
            states: states.collect::<Result<_, _>>()?,
        })
    }

    /// The earliest time over all patterns at which something happens.
    pub fn next_time(&self, circuit: &Circuit) -> Option<u32> {
        let scheduled = circuit.cell.schedule.iter().map(|entry| entry.time);
        let pending = self.states.iter().flat_map(|state| &state.next).copied();
        pending
            .chain(scheduled)
            .filter(|&time| time > self.now && time != NEVER)
            .min()
    }

    /// The step to a time; refused if it is so at any pattern, and the run is of no use
    /// then.
    pub fn step(&mut self, circuit: &Circuit, time: u32) -> Result<(), Refusal> {
        for (pattern, state) in self.states.iter_mut().enumerate() {
            state.step(circuit, pattern, time)?;
        }
        self.now = time;
        Ok(())
    }

    /// Some inner node has an arm above the ceiling at some pattern, whether a step
    /// reconsiders it or not. No node has one in a run that was started.
    pub fn is_above_ceiling(&self, circuit: &Circuit) -> bool {
        self.states.iter().any(|State { values, .. }| {
            let kept = &circuit.kept(values);
            let walk = Walk {
                circuit,
                values,
                kept,
            };
            circuit.records().any(|node| walk.sum(node, None).is_err())
        })
    }

    /// The functions of a run in the order in which they are stored: the values of
    /// all node records, then all their next changes.
    pub fn functions(&self, circuit: &Circuit) -> Vec<Vec<u32>> {
        let each = |number: fn(&State, usize) -> u32| {
            let function = move |node| self.states.iter().map(|s| number(s, node)).collect();
            circuit.records().map(function)
        };
        let values = each(|state, node| u32::from(state.values[node]));
        values.chain(each(|state, node| state.next[node])).collect()
    }
}

/// A run's functions and their entries in a table, in storing order.
#[derive(Clone, Debug, Default)]
pub struct Stored {
    pub functions: Vec<Vec<u32>>,
    pub entries: Vec<u32>,
}

impl Stored {
    /// Stores the functions of a run. One that is what it was has its entry already.
    pub fn update(&mut self, run: &Run, circuit: &Circuit, table: &mut Table) {
        let functions = run.functions(circuit);
        self.functions.resize(functions.len(), Vec::new());
        self.entries.resize(functions.len(), 0);
        let old = self.functions.iter_mut().zip(&mut self.entries);
        for (function, (old, entry)) in functions.into_iter().zip(old) {
            if function != *old {
                *entry = table.store(&function);
                *old = function;
            }
        }
    }
}
