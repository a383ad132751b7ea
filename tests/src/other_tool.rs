//! Tools that depart from the rules in one thing: their listings of a sample cell, and
//! the table of `cells/README.md` that sets them beside the rules' listing.

use crate::cell_file::{parse, Cell};
use crate::program::{bytes, in_repository};
use crate::refusal::Refusal;
use crate::simulator::circuit::Circuit;
use crate::simulator::pattern::State;
use crate::simulator::run::Run;
use crate::vectors::text;
use crate::waves;
use std::path::Path;

/// A sample cell by its name.
#[derive(Clone, Copy, Debug)]
pub struct Sample<'a>(pub &'a str);

impl Sample<'_> {
    fn file(self) -> Vec<u8> {
        bytes(&in_repository(&format!("cells/{}.cell", self.0)))
    }

    pub fn cell(self) -> Cell {
        parse(&self.file()).expect("a legal cell")
    }

    /// What the rules list after the start.
    pub fn listing(self) -> Vec<String> {
        waves::after_start(&self.file())
    }

    /// The lines of a column in the table that begins with the sample's listing.
    pub fn told(self, column: usize) -> Vec<String> {
        let head = format!("| `{}.waves` |", self.0);
        column_of(&in_repository("cells/README.md"), &head, column)
    }
}

/// The lines of a column in the table of a page whose first row begins so.
pub fn column_of(page: &Path, head: &str, column: usize) -> Vec<String> {
    let text = text(page);
    let table = text.lines().skip_while(|line| !line.starts_with(head));
    let rows = table.skip(2).take_while(|line| line.starts_with('|'));
    let cells = rows.filter_map(|row| row.split('|').nth(column));
    let lines = cells.map(|cell| cell.trim().trim_matches('`').to_owned());
    lines.filter(|line| !line.is_empty()).collect()
}

/// Runs a cell to its end with another tool's step of a pattern to a time; gives also the
/// listing after the start. No sample that is run so comes near the ceiling.
pub fn run(
    circuit: &Circuit,
    step: impl Fn(&mut State, usize, u32) -> Result<(), Refusal>,
) -> (Run, Vec<String>) {
    let mut run = Run::start(circuit).expect("a start");
    let (mut lines, mut steps) = (Vec::new(), 0);
    while let Some(time) = run.next_time(circuit) {
        let before = run.clone();
        for (pattern, state) in run.states.iter_mut().enumerate() {
            step(state, pattern, time).expect("a step");
        }
        run.now = time;
        steps += 1;
        for node in circuit.records() {
            let values = |run: &Run| run.states.iter().map(|state| state.values[node]).collect();
            let [old, new]: [Vec<bool>; 2] = [values(&before), values(&run)];
            if old != new {
                let high = new.iter().filter(|&&high| high).count();
                lines.push(format!("{time} {node} {high}"));
            }
        }
    }
    lines.push(format!("end {} {steps}", run.now));
    (run, lines)
}
