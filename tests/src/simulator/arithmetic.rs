//! Resistances, charges and delays: the arithmetic of rules 4 to 6. What would be above
//! the ceiling is refused (document 02, wish 3).

use crate::refusal::Refusal;

/// The largest finite resistance of an arm, in ohm.
pub const CEILING: u64 = 1_000_000_000;

/// A resistance in ohm. The infinite one is larger than all others.
#[derive(Clone, Copy, Debug, PartialEq, Eq, PartialOrd, Ord)]
pub enum Ohms {
    Finite(u64),
    Infinite,
}

use Ohms::{Finite, Infinite};

impl Ohms {
    /// A finite resistance, unless it is above the ceiling.
    fn within_ceiling(ohms: u64) -> Result<Ohms, Refusal> {
        match ohms <= CEILING {
            true => Ok(Finite(ohms)),
            false => Err(Refusal::Ceiling),
        }
    }

    /// Both in parallel; the infinite one changes nothing.
    pub fn parallel(self, other: Ohms) -> Ohms {
        match (self, other) {
            (Infinite, one) | (one, Infinite) => one,
            (Finite(a), Finite(b)) => Finite((a * b).div_ceil(a + b)),
        }
    }

    /// One side of an arm: this side of the far node's sum, the other side of it,
    /// and the transistor's resistance.
    fn through(self, other: Ohms, r: u64) -> Result<Ohms, Refusal> {
        match (self, other) {
            (Infinite, _) => Ok(Infinite),
            (Finite(own), Infinite) => Ohms::within_ceiling(own + r),
            (Finite(own), Finite(other)) => {
                Ohms::within_ceiling(own + r + (r * own).div_ceil(other))
            }
        }
    }
}

/// What a node is tied to: resistances to high and to low, charges in fF.
#[derive(Clone, Copy, Debug, PartialEq, Eq)]
pub struct Sum {
    pub high: Ohms,
    pub low: Ohms,
    pub charge_high: u64,
    pub charge_low: u64,
}

impl Sum {
    /// A rail or an input.
    pub fn driven(value: bool) -> Sum {
        let [own, other] = [Finite(0), Infinite];
        let [high, low] = if value { [own, other] } else { [other, own] };
        Sum {
            high,
            low,
            charge_high: 0,
            charge_low: 0,
        }
    }

    /// An inner node before its arms: its own capacitance.
    pub fn inner(value: bool, capacitance: u64) -> Sum {
        Sum {
            high: Infinite,
            low: Infinite,
            charge_high: if value { capacitance } else { 0 },
            charge_low: if value { 0 } else { capacitance },
        }
    }

    /// With one more arm.
    pub fn join(self, arm: Sum) -> Sum {
        Sum {
            high: self.high.parallel(arm.high),
            low: self.low.parallel(arm.low),
            charge_high: self.charge_high + arm.charge_high,
            charge_low: self.charge_low + arm.charge_low,
        }
    }

    /// The arm: a transistor's resistance before this. Either side may be above the
    /// ceiling, also the one that does not decide.
    pub fn arm(self, resistance: u32) -> Result<Sum, Refusal> {
        let r = u64::from(resistance);
        Ok(Sum {
            high: self.high.through(self.low, r)?,
            low: self.low.through(self.high, r)?,
            ..self
        })
    }

    /// A side drives the node; else charge decides.
    pub fn is_driven(self) -> bool {
        (self.high, self.low) != (Infinite, Infinite)
    }

    /// Rule 5: the new value of a node.
    pub fn value(self, present: bool) -> bool {
        let (one, zero) = match self.is_driven() {
            true => (self.low > self.high, self.low < self.high),
            false => (
                self.charge_high > self.charge_low,
                self.charge_high < self.charge_low,
            ),
        };
        one || present && !zero
    }
}

/// What a node is charged through, and how much: the walk of rule 6. No resistance of
/// it comes near the ceiling, since the transistors of a way are in series there.
#[derive(Clone, Copy, Debug, PartialEq, Eq)]
pub struct Load {
    pub resistance: Ohms,
    /// In fF.
    pub capacitance: u64,
}

impl Load {
    /// A driven end, which is at the new value or is not.
    pub fn driven(at_new: bool) -> Load {
        Load {
            resistance: if at_new { Finite(0) } else { Infinite },
            capacitance: 0,
        }
    }

    /// An inner node before its arms, which is at the new value or is not.
    pub fn inner(at_new: bool, capacitance: u64) -> Load {
        Load {
            resistance: Infinite,
            capacitance: if at_new { 0 } else { capacitance },
        }
    }

    /// With one more arm.
    pub fn join(self, arm: Load) -> Load {
        Load {
            resistance: self.resistance.parallel(arm.resistance),
            capacitance: self.capacitance + arm.capacitance,
        }
    }

    /// The arm: a transistor's resistance before this.
    pub fn arm(self, resistance: u32) -> Load {
        let r = u64::from(resistance);
        match self.resistance {
            Infinite => self,
            Finite(own) => Load {
                resistance: Finite(own + r),
                capacitance: (self.capacitance * own).div_ceil(own + r),
            },
        }
    }

    /// The delay in ps. What makes a node change is a driven end of its walk, so that
    /// its resistance is finite.
    pub fn delay(self) -> u64 {
        match self.resistance {
            Infinite => unreachable!("a node changes and nothing holds its new value: {self:?}"),
            Finite(ohms) => (ohms * self.capacitance).div_ceil(1000).max(1),
        }
    }
}
