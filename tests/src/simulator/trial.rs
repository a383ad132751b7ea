//! What a run will come to, worked out before it is made: so that lengths and
//! times can be chosen about those that matter.

use super::circuit::Circuit;
use super::run::{Run, Stored};
use crate::functions::{Table, LENGTHS};

/// The start or a step: its time, and how many entries the table then holds.
#[derive(Clone, Copy, Debug, PartialEq, Eq)]
pub struct Moment {
    pub time: u32,
    pub used: usize,
}

/// The beginning of a run.
#[derive(Clone, Debug)]
pub struct Trial {
    /// The start and the first steps. A start that is refused adds no entries.
    pub moments: Vec<Moment>,
    /// The time of the next step, if there is one that was not tried.
    pub next: Option<u32>,
    /// The time of the start or step that is refused for the ceiling, if one is.
    pub refused: Option<u32>,
    /// The most node values that changed in one step, each for some pattern.
    pub together: usize,
}

impl Trial {
    /// Runs a cell in a table until it is finished or refused for the ceiling, the
    /// table is full at its longest, or so many states were worked out.
    pub fn of(circuit: &Circuit, mut table: Table, states: usize) -> Trial {
        let mut trial = Trial {
            moments: Vec::new(),
            next: None,
            refused: None,
            together: 0,
        };
        let Ok(mut run) = Run::start(circuit) else {
            trial.refused = Some(0);
            trial.push(0, &table);
            return trial;
        };
        let mut stored = Stored::default();
        stored.update(&run, circuit, &mut table);
        loop {
            trial.push(run.now, &table);
            trial.next = run.next_time(circuit);
            let spent = trial.moments.len() * run.states.len();
            let more = spent < states && table.entries().len() <= *LENGTHS.end();
            let Some(time) = trial.next.filter(|_| more) else {
                return trial;
            };
            if run.step(circuit, time).is_err() {
                (trial.next, trial.refused) = (None, Some(time));
                return trial;
            }
            let before = stored.entries.clone();
            stored.update(&run, circuit, &mut table);
            let nodes = circuit.cell.nodes.len();
            let pairs = before.iter().zip(&stored.entries).take(nodes);
            let moved = pairs.filter(|(old, new)| old != new).count();
            trial.together = trial.together.max(moved);
        }
    }

    fn push(&mut self, time: u32, table: &Table) {
        let used = table.entries().len();
        self.moments.push(Moment { time, used });
    }

    /// The last picosecond up to which a run takes no other steps than these, and is
    /// refused no other.
    pub fn last(&self) -> u32 {
        self.next.map_or(u32::MAX, |time| time - 1)
    }

    /// How many steps were tried, one that is refused among them.
    pub fn steps(&self) -> usize {
        let refused = self.refused.is_some_and(|time| time > 0);
        self.moments.len() - 1 + usize::from(refused)
    }

    /// How many of the moments are after one time and not after another.
    pub fn between(&self, after: u32, until: u32) -> usize {
        let moments = self.moments.iter().skip(1);
        moments
            .filter(|moment| after < moment.time && moment.time <= until)
            .count()
    }
}
