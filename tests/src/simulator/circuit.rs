//! A cell as the rules see it: nodes by number, rails among them, and the channels
//! at each node.

use crate::cell_file::{Cell, Channel, Role, FIRST_NODE};
use std::ops::Range;

/// The number of the supply; 0 is ground.
pub const SUPPLY: usize = 1;

/// A cell with what follows from its transistors alone.
#[derive(Clone, Debug)]
pub struct Circuit<'a> {
    pub cell: &'a Cell,
    /// For each node, the transistors with an end there, rising.
    channels: Vec<Vec<usize>>,
}

impl<'a> Circuit<'a> {
    pub fn new(cell: &'a Cell) -> Circuit<'a> {
        let mut circuit = Circuit {
            cell,
            channels: vec![Vec::new(); FIRST_NODE + cell.nodes.len()],
        };
        for transistor in 0..cell.transistors.len() {
            let [one, other] = circuit.ends(transistor);
            circuit.channels[one].push(transistor);
            circuit.channels[other].push(transistor);
        }
        circuit
    }

    /// How many nodes there are, with the rails.
    pub fn nodes(&self) -> usize {
        self.channels.len()
    }

    /// The numbers of the node records.
    pub fn records(&self) -> Range<usize> {
        FIRST_NODE..self.nodes()
    }

    /// How many patterns there are.
    pub fn patterns(&self) -> usize {
        1 << self.cell.letters
    }

    /// The capacitance of an inner node; none of a rail or an input.
    pub fn capacitance(&self, node: usize) -> Option<u64> {
        let record = self.cell.nodes.get(node.checked_sub(FIRST_NODE)?)?;
        match record.role {
            Role::Inner { capacitance } => Some(u64::from(capacitance)),
            Role::Input => None,
        }
    }

    pub fn is_inner(&self, node: usize) -> bool {
        self.capacitance(node).is_some()
    }

    pub fn is_input(&self, node: usize) -> bool {
        node >= FIRST_NODE && !self.is_inner(node)
    }

    /// The ends of a transistor.
    pub fn ends(&self, transistor: usize) -> [usize; 2] {
        self.cell.transistors[transistor].ends.map(usize::from)
    }

    pub fn gate(&self, transistor: usize) -> usize {
        usize::from(self.cell.transistors[transistor].gate)
    }

    /// The end of a transistor that is not this one.
    pub fn far_end(&self, transistor: usize, near: usize) -> usize {
        let [one, other] = self.ends(transistor);
        if one == near {
            other
        } else {
            one
        }
    }

    pub fn resistance(&self, transistor: usize) -> u32 {
        self.cell.transistors[transistor].resistance
    }

    /// The transistors with an end at this node, rising.
    pub fn channels(&self, node: usize) -> &[usize] {
        &self.channels[node]
    }

    /// The transistor conducts.
    pub fn conducts(&self, transistor: usize, values: &[bool]) -> bool {
        match self.cell.transistors[transistor].channel {
            Channel::N => values[self.gate(transistor)],
            Channel::P => !values[self.gate(transistor)],
        }
    }

    /// The inner nodes from which some channels lead, through inner nodes, to an end of
    /// one of these transistors, as one answer for each node.
    pub fn leading_to(
        &self,
        transistors: impl Iterator<Item = usize>,
        leads: impl Fn(usize) -> bool,
    ) -> Vec<bool> {
        let mut found = vec![false; self.nodes()];
        let mut open: Vec<usize> = transistors
            .flat_map(|transistor| self.ends(transistor))
            .collect();
        while let Some(node) = open.pop() {
            if found[node] || !self.is_inner(node) {
                continue;
            }
            found[node] = true;
            let channels = self.channels(node).iter().copied();
            let leading = channels.filter(|&transistor| leads(transistor));
            open.extend(leading.map(|transistor| self.far_end(transistor, node)));
        }
        found
    }

    /// Rule 3: whether each transistor is kept.
    pub fn kept(&self, values: &[bool]) -> Vec<bool> {
        // Two inner nodes are joined if they have the same number here.
        let mut joined: Vec<usize> = (0..self.nodes()).collect();
        let keep = |transistor| {
            let [one, other] = self.ends(transistor);
            if !self.conducts(transistor, values) {
                return false;
            }
            if !self.is_inner(one) || !self.is_inner(other) {
                return true;
            }
            unite(&mut joined, one, other)
        };
        (0..self.cell.transistors.len()).map(keep).collect()
    }
}

/// Gives the nodes of two sets the smaller of their names; false if it was one set.
fn unite(names: &mut [usize], one: usize, other: usize) -> bool {
    let (new, old) = (names[one].min(names[other]), names[one].max(names[other]));
    for name in names.iter_mut().filter(|name| **name == old) {
        *name = new;
    }
    new != old
}
