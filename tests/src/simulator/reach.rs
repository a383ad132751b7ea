//! Rule 2, as document 02, wish 2 amends it: which nodes a step reconsiders.

use super::circuit::Circuit;

/// The values of all nodes just before and just after those of T are set.
#[derive(Clone, Copy, Debug)]
pub struct Reach<'a> {
    pub circuit: &'a Circuit<'a>,
    pub before: &'a [bool],
    pub after: &'a [bool],
}

impl Reach<'_> {
    fn changed(&self, node: usize) -> bool {
        self.before[node] != self.after[node]
    }

    /// The transistor's gate has changed, or an input at one of its ends. Whether it
    /// conducts does not matter.
    pub fn is_disturbed(&self, transistor: usize) -> bool {
        let moved = |end: usize| self.circuit.is_input(end) && self.changed(end);
        let [one, other] = self.circuit.ends(transistor);
        self.changed(self.circuit.gate(transistor)) || moved(one) || moved(other)
    }

    /// The channel conducts just before or just after.
    pub fn conducts(&self, transistor: usize) -> bool {
        self.circuit.conducts(transistor, self.before)
            || self.circuit.conducts(transistor, self.after)
    }

    /// The nodes that are reconsidered, as one answer for each node.
    pub fn reconsidered(&self) -> Vec<bool> {
        self.along(|transistor| self.conducts(transistor))
    }

    /// The inner nodes from which these channels lead, through inner nodes, to an end
    /// of a disturbed transistor. It may be the node itself.
    pub fn along(&self, leads: impl Fn(usize) -> bool) -> Vec<bool> {
        let transistors = 0..self.circuit.cell.transistors.len();
        let disturbed = transistors.filter(|&transistor| self.is_disturbed(transistor));
        self.circuit.leading_to(disturbed, leads)
    }
}
