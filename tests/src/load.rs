//! How much a wire's load can matter (document 02, wish 11): a cell with some femtofarads
//! more at one node, the delay of a node that is due to change, and the most by which it
//! may grow.

use crate::cell_file::{Cell, Role, Source, CAPACITANCES, FIRST_NODE, HORIZONS};
use crate::generate::live::{self, Size};
use crate::random::Random;
use crate::simulator::arithmetic::Ohms;
use crate::simulator::circuit::Circuit;
use crate::simulator::pattern::State;
use crate::simulator::walk::{Ends, Walk};

/// The wish's bound in ps, from the resistance of the changing node and what was added.
pub fn most_growth(ohms: u64, more: u16) -> u64 {
    (ohms * u64::from(more)).div_ceil(1000)
}

/// The cell with more at an inner node; none at any other node, or past the limit.
pub fn raised(cell: &Cell, node: usize, more: u16) -> Option<Cell> {
    let mut cell = cell.clone();
    let record = cell.nodes.get_mut(node.checked_sub(FIRST_NODE)?)?;
    let Role::Inner { capacitance } = &mut record.role else {
        return None;
    };
    *capacitance = capacitance.checked_add(more)?;
    Some(cell)
}

/// A cell in any state of one pattern: a value for each node as its start, no letters, no
/// schedule, and all the time there is.
pub fn any_state(random: &mut Random) -> Cell {
    let size = random.pick(&[Size::Small, Size::Small, Size::Middle, Size::Dense]);
    let mut cell = live::cell(random, size, 0);
    cell.horizon = *HORIZONS.end();
    cell.schedule.clear();
    for node in &mut cell.nodes {
        node.start = random.pick(&[Source::Low, Source::High]);
    }
    cell
}

/// The values of that state, by node.
pub fn values(circuit: &Circuit) -> Vec<bool> {
    let mut values = State::blank(circuit).values;
    for (value, node) in values[FIRST_NODE..].iter_mut().zip(&circuit.cell.nodes) {
        *value = node.start.at(0);
    }
    values
}

/// How many femtofarads more an inner node may have; none for any other node.
pub fn room(circuit: &Circuit, node: usize) -> Option<u32> {
    let capacitance = circuit.capacitance(node)?;
    Some(CAPACITANCES.end() - capacitance as u32)
}

/// A node that is due to change.
#[derive(Clone, Copy, Debug, PartialEq, Eq)]
pub struct Due {
    pub new: bool,
    /// A side drives it; else charge decides.
    pub driven: bool,
    /// Its resistance in the walk of rule 6.
    pub ohms: u64,
    /// In ps.
    pub delay: u64,
}

impl Due {
    /// Of a node at these values. None where it keeps its value, or where a resistance
    /// of its sum is above the ceiling.
    pub fn of(circuit: &Circuit, values: &[bool], node: usize) -> Option<Due> {
        let walk = Walk {
            circuit,
            values,
            kept: &circuit.kept(values),
        };
        let sum = walk.sum(node, None).ok()?;
        let new = sum.value(values[node]);
        if new == values[node] {
            return None;
        }
        let load = walk.load(node, None, new, Ends::of(sum));
        let Ohms::Finite(ohms) = load.resistance else {
            panic!("a node changes and nothing holds its new value: {load:?}");
        };
        Some(Due {
            new,
            driven: sum.is_driven(),
            ohms,
            delay: load.delay(),
        })
    }
}
