//! The walks along the kept transistors: the node sum of rule 4 and the load of
//! rule 6.

use super::arithmetic::{Load, Sum};
use super::circuit::Circuit;
use crate::refusal::Refusal;

/// Where the walk of rule 6 ends.
#[derive(Clone, Copy, Debug, PartialEq, Eq)]
pub enum Ends {
    /// At rails and inputs alone.
    Driven,
    /// Also at inner nodes that hold the new value, where neither side drives
    /// (document 02, wish 6).
    Holders,
}

impl Ends {
    /// For a node with this sum.
    pub fn of(sum: Sum) -> Ends {
        match sum.is_driven() {
            true => Ends::Driven,
            false => Ends::Holders,
        }
    }
}

/// A cell at one moment of one pattern.
#[derive(Clone, Copy, Debug)]
pub struct Walk<'a> {
    pub circuit: &'a Circuit<'a>,
    pub values: &'a [bool],
    pub kept: &'a [bool],
}

impl Walk<'_> {
    /// The kept transistors at a node but the one it was reached by, rising, each
    /// with its far end.
    fn arms(&self, node: usize, by: Option<usize>) -> impl Iterator<Item = (usize, usize)> + '_ {
        let channels = self.circuit.channels(node).iter().copied();
        channels
            .filter(move |&transistor| self.kept[transistor] && Some(transistor) != by)
            .map(move |transistor| (transistor, self.circuit.far_end(transistor, node)))
    }

    /// The sum of a node; refused where an arm on the way is above the ceiling.
    pub fn sum(&self, node: usize, by: Option<usize>) -> Result<Sum, Refusal> {
        let value = self.values[node];
        let Some(capacitance) = self.circuit.capacitance(node) else {
            return Ok(Sum::driven(value));
        };
        let own = Sum::inner(value, capacitance);
        self.arms(node, by).try_fold(own, |sum, (transistor, far)| {
            let resistance = self.circuit.resistance(transistor);
            let far = self.sum(far, Some(transistor))?;
            Ok(sum.join(far.arm(resistance)?))
        })
    }

    /// The load of a node that is to take the value `new`.
    pub fn load(&self, node: usize, by: Option<usize>, new: bool, ends: Ends) -> Load {
        let at_new = self.values[node] == new;
        let capacitance = match self.circuit.capacitance(node) {
            Some(capacitance) if ends == Ends::Driven || !at_new => capacitance,
            _ => return Load::driven(at_new),
        };
        let own = Load::inner(at_new, capacitance);
        self.arms(node, by).fold(own, |load, (transistor, far)| {
            let resistance = self.circuit.resistance(transistor);
            let far = self.load(far, Some(transistor), new, ends);
            load.join(far.arm(resistance))
        })
    }
}
