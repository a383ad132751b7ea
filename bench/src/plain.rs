//! A plain program for the same cells: it runs one pattern after the other, each
//! as a simulation of its own, and stores nothing but how each ends. It refuses a
//! cell that is above the ceiling at some pattern; a table it has not, so that
//! nothing is full.
//!
//! It is made to be fast: fixed arrays, sets of nodes and transistors as bits, no
//! allocation, and each arm of a kept tree worked out once for all nodes that read
//! it. With `REMEMBER` false every node is walked to by itself, as the rules tell.

use comparison::cell_file::{self, Cell, Channel, Role, Source, FIRST_NODE};

/// The most nodes, with the rails, and the most transistors.
const NODES: usize = 26;
const TRANSISTORS: usize = 64;

/// The time of no change, and a resistance without end.
pub const NEVER: u32 = u32::MAX;
const INFINITE: u64 = u64::MAX;
/// The largest finite resistance of an arm.
const CEILING: u64 = 1_000_000_000;

/// An arm would be above the ceiling.
#[derive(Clone, Copy, Debug, PartialEq, Eq)]
pub struct AboveCeiling;

/// The number of this refusal.
pub const REFUSED: u32 = 11;

#[derive(Clone, Copy, Default)]
struct Transistor {
    ends: [u8; 2],
    resistance: u64,
}

/// A cell in fixed arrays. Bit n of a set of nodes is node n, and so for transistors.
pub struct Plain {
    letters: u32,
    nodes: usize,
    horizon: u32,
    inner: u32,
    capacitance: [u64; NODES],
    start: [Source; NODES],
    transistors: [Transistor; TRANSISTORS],
    schedule: Vec<(u32, u8, Source)>,
    /// The p transistors, and those between two inner nodes.
    p: u64,
    inside: u64,
    /// For each node, the transistors that it gates, and those with an end there.
    gated: [u64; NODES],
    channels: [u64; NODES],
    /// For each node, the inner ends of the transistors that its change disturbs.
    disturbs: [u32; NODES],
}

/// How a pattern stands in the end: the values as a set, and the next changes.
#[derive(Debug)]
pub struct Ended {
    pub values: u32,
    pub next: [u32; NODES],
}

/// The numbers of a set's members, rising.
fn members(mut set: u64) -> impl Iterator<Item = usize> {
    std::iter::from_fn(move || {
        let member = set.trailing_zeros() as usize;
        (set != 0).then(|| {
            set &= set - 1;
            member
        })
    })
}

impl Plain {
    pub fn new(cell: &Cell) -> Plain {
        let mut plain = Plain {
            letters: cell.letters,
            nodes: FIRST_NODE + cell.nodes.len(),
            horizon: cell.horizon,
            inner: 0,
            capacitance: [0; NODES],
            start: [Source::Low; NODES],
            transistors: [Transistor::default(); TRANSISTORS],
            schedule: Vec::new(),
            p: 0,
            inside: 0,
            gated: [0; NODES],
            channels: [0; NODES],
            disturbs: [0; NODES],
        };
        plain.start[1] = Source::High;
        for (number, node) in (FIRST_NODE..).zip(&cell.nodes) {
            plain.start[number] = node.start;
            if let Role::Inner { capacitance } = node.role {
                plain.inner |= 1 << number;
                plain.capacitance[number] = u64::from(capacitance);
            }
        }
        for entry in &cell.schedule {
            plain.schedule.push((entry.time, entry.node, entry.source));
        }
        for (number, transistor) in cell.transistors.iter().enumerate() {
            plain.add(number, transistor);
        }
        plain
    }

    /// Adds a transistor of the cell, whose nodes are all there.
    fn add(&mut self, number: usize, of_cell: &cell_file::Transistor) {
        let set = 1 << number;
        let ends = of_cell.ends.map(usize::from);
        let inner = ends.map(|end| self.inner & 1 << end);
        self.transistors[number] = Transistor {
            ends: of_cell.ends,
            resistance: u64::from(of_cell.resistance),
        };
        if of_cell.channel == Channel::P {
            self.p |= set;
        }
        if inner[0] != 0 && inner[1] != 0 {
            self.inside |= set;
        }
        let gate = usize::from(of_cell.gate);
        self.gated[gate] |= set;
        self.disturbs[gate] |= inner[0] | inner[1];
        for (end, far) in [(ends[0], inner[1]), (ends[1], inner[0])] {
            self.channels[end] |= set;
            if self.inner >> end & 1 == 0 {
                self.disturbs[end] |= far;
            }
        }
    }

    /// Runs all patterns; gives the number of nodes that are high in the end.
    pub fn run_all<const REMEMBER: bool>(&self, work: &mut Work) -> Result<u32, AboveCeiling> {
        let patterns = 0..1 << self.letters;
        let ended = patterns.map(|pattern| self.run::<REMEMBER>(pattern, work));
        ended
            .map(|ended| ended.map(|ended| ended.values.count_ones()))
            .sum()
    }

    /// Runs a pattern to its end.
    pub fn run<const REMEMBER: bool>(
        &self,
        pattern: usize,
        work: &mut Work,
    ) -> Result<Ended, AboveCeiling> {
        let sources = self.start[..self.nodes].iter().enumerate();
        let value = |(node, source): (usize, &Source)| u32::from(source.at(pattern)) << node;
        let mut values = sources.map(value).fold(0, |set, bit| set | bit);
        // A change of a gate turns the transistors that it gates on or off.
        let high = members(u64::from(values));
        let mut on = high.fold(self.p, |on, node| on ^ self.gated[node]);
        let mut next = [NEVER; NODES];
        self.consider::<REMEMBER>((values, on), &mut next, self.inner, 0, work)?;
        let mut entries = self.schedule.iter().peekable();
        loop {
            let pending = next.iter().copied().fold(NEVER, u32::min);
            let scheduled = entries.peek().map_or(NEVER, |entry| entry.0);
            let time = pending.min(scheduled);
            if time == NEVER {
                return Ok(Ended { values, next });
            }
            let mut changed = 0;
            for (node, next) in next.iter_mut().enumerate() {
                if *next == time {
                    changed |= 1 << node;
                    *next = NEVER;
                }
            }
            while let Some(&(_, node, source)) = entries.next_if(|entry| entry.0 == time) {
                let new = u32::from(source.at(pattern));
                changed |= ((values >> node & 1) ^ new) << node;
            }
            values ^= changed;
            let mut ends = 0;
            for node in members(u64::from(changed)) {
                on ^= self.gated[node];
                ends |= self.disturbs[node];
            }
            self.consider::<REMEMBER>((values, on), &mut next, ends, time, work)?;
        }
    }

    /// Rules 3 to 7 for the pieces that hold one of these nodes: all that channels lead
    /// to that conduct after the values of T are set. Rule 2 counts those that conduct
    /// before as well, which comes to the same nodes.
    fn consider<const REMEMBER: bool>(
        &self,
        (values, on): (u32, u64),
        next: &mut [u32; NODES],
        mut ends: u32,
        time: u32,
        work: &mut Work,
    ) -> Result<(), AboveCeiling> {
        work.forget();
        while ends != 0 {
            let (nodes, kept) = self.piece(on, ends.trailing_zeros());
            ends &= !nodes;
            let mut walk = Walk {
                plain: self,
                values,
                kept,
                new: 0,
                ends: 0,
                work,
            };
            for node in members(u64::from(nodes)) {
                next[node] = walk.next_change::<REMEMBER>(node, next[node], time)?;
            }
        }
        Ok(())
    }

    /// The inner nodes that conducting channels join with a node, and the kept
    /// transistors at them.
    fn piece(&self, on: u64, first: u32) -> (u32, u64) {
        let mut nodes = 1_u32 << first;
        let (mut open, mut conducting, mut has_loop) = (nodes, 0, false);
        while open != 0 {
            let node = open.trailing_zeros() as usize;
            open &= open - 1;
            let here = on & self.channels[node];
            for number in members(here & self.inside & !conducting) {
                let (far, _) = self.far(number, node);
                has_loop |= nodes >> far & 1 == 1;
                open |= 1 << far & !nodes;
                nodes |= 1 << far;
            }
            conducting |= here;
        }
        match has_loop {
            true => (nodes, self.without_loops(conducting)),
            false => (nodes, conducting),
        }
    }

    /// The kept ones of the conducting transistors of a piece.
    fn without_loops(&self, conducting: u64) -> u64 {
        let mut kept = conducting;
        // The nodes that each node is joined with.
        let mut joined: [u32; NODES] = std::array::from_fn(|node| 1 << node);
        for number in members(conducting & self.inside) {
            let [one, other] = self.transistors[number].ends.map(usize::from);
            if joined[one] >> other & 1 == 1 {
                kept &= !(1 << number);
                continue;
            }
            let all = joined[one] | joined[other];
            for node in members(u64::from(all)) {
                joined[node] = all;
            }
        }
        kept
    }

    /// The other end of a transistor, and which of the two it is.
    fn far(&self, number: usize, near: usize) -> (usize, usize) {
        let ends = self.transistors[number].ends;
        let far = usize::from(usize::from(ends[0]) == near);
        (usize::from(ends[far]), far)
    }
}

/// The two resistances and the two charges of a node or an arm.
#[derive(Clone, Copy, Default)]
struct Sum {
    high: u64,
    low: u64,
    charge_high: u64,
    charge_low: u64,
}

/// The resistance and the capacitance of a node or an arm on its way to a value.
#[derive(Clone, Copy, Default)]
struct Load {
    resistance: u64,
    capacitance: u64,
}

/// What is worked out anew at each moment.
pub struct Work {
    /// Sums and loads of arms, and which of them are known: bit t of the first set
    /// is the arm at transistor t's second end, seen from its first.
    sums: [[Sum; TRANSISTORS]; 2],
    known_sums: [u64; 2],
    /// The same for loads, for the value 0 and for 1.
    loads: [[[Load; TRANSISTORS]; 2]; 2],
    known_loads: [[u64; 2]; 2],
}

impl Work {
    pub fn new() -> Box<Work> {
        Box::new(Work {
            sums: [[Sum::default(); TRANSISTORS]; 2],
            known_sums: [0; 2],
            loads: [[[Load::default(); TRANSISTORS]; 2]; 2],
            known_loads: [[0; 2]; 2],
        })
    }

    fn forget(&mut self) {
        self.known_sums = [0; 2];
        self.known_loads = [[0; 2]; 2];
    }
}

fn parallel(a: u64, b: u64) -> u64 {
    match (a, b) {
        (INFINITE, one) | (one, INFINITE) => one,
        _ => (a * b).div_ceil(a + b),
    }
}

fn through(own: u64, other: u64, r: u64) -> Result<u64, AboveCeiling> {
    let ohms = match (own, other) {
        (INFINITE, _) => return Ok(INFINITE),
        (_, INFINITE) => own + r,
        _ => own + r + (r * own).div_ceil(other),
    };
    match ohms <= CEILING {
        true => Ok(ohms),
        false => Err(AboveCeiling),
    }
}

/// A piece of a cell at one moment of one pattern.
struct Walk<'a> {
    plain: &'a Plain,
    values: u32,
    kept: u64,
    /// The value that loads are worked out for.
    new: u32,
    /// The nodes at which their walk ends: rails and inputs, and where charge decides
    /// also those that hold the value. Charge decides for a whole kept tree, so that
    /// an arm has one load for each value.
    ends: u32,
    work: &'a mut Work,
}

impl Walk<'_> {
    fn next_change<const REMEMBER: bool>(
        &mut self,
        node: usize,
        pending: u32,
        time: u32,
    ) -> Result<u32, AboveCeiling> {
        let present = self.values >> node & 1;
        let sum = self.sum::<REMEMBER>(node, 0)?;
        let by_charge = (sum.high, sum.low) == (INFINITE, INFINITE);
        let (for_high, for_low) = match by_charge {
            true => (sum.charge_high, sum.charge_low),
            false => (sum.low, sum.high),
        };
        let new = match for_high.cmp(&for_low) {
            std::cmp::Ordering::Greater => 1,
            std::cmp::Ordering::Less => 0,
            std::cmp::Ordering::Equal => present,
        };
        if new == present {
            return Ok(NEVER);
        }
        self.new = new;
        self.ends = match (by_charge, new) {
            (false, _) => !self.plain.inner,
            (true, 0) => !self.plain.inner | !self.values,
            (true, _) => !self.plain.inner | self.values,
        };
        let load = self.load::<REMEMBER>(node, 0);
        assert_ne!(
            load.resistance, INFINITE,
            "nothing holds node {node}'s new value"
        );
        let delay = (load.resistance * load.capacitance).div_ceil(1000).max(1);
        let due = (u64::from(time) + delay).min(u64::from(pending));
        match due <= u64::from(self.plain.horizon) {
            true => Ok(due as u32),
            false => Ok(NEVER),
        }
    }

    /// The kept transistors at a node but the one it was reached by.
    fn arms(&self, node: usize, by: u64) -> impl Iterator<Item = usize> {
        members(self.kept & self.plain.channels[node] & !by)
    }

    fn sum<const REMEMBER: bool>(&mut self, node: usize, by: u64) -> Result<Sum, AboveCeiling> {
        let capacitance = self.plain.capacitance[node];
        let value = u64::from(self.values >> node & 1);
        let mut sum = Sum {
            high: INFINITE,
            low: INFINITE,
            charge_high: value * capacitance,
            charge_low: (1 - value) * capacitance,
        };
        for number in self.arms(node, by) {
            let arm = self.arm_sum::<REMEMBER>(number, node)?;
            sum.high = parallel(sum.high, arm.high);
            sum.low = parallel(sum.low, arm.low);
            sum.charge_high += arm.charge_high;
            sum.charge_low += arm.charge_low;
        }
        Ok(sum)
    }

    fn arm_sum<const REMEMBER: bool>(
        &mut self,
        number: usize,
        near: usize,
    ) -> Result<Sum, AboveCeiling> {
        let (far, side) = self.plain.far(number, near);
        let r = self.plain.transistors[number].resistance;
        if self.plain.inner >> far & 1 == 0 {
            let high = self.values >> far & 1 == 1;
            return Ok(Sum {
                high: if high { r } else { INFINITE },
                low: if high { INFINITE } else { r },
                ..Sum::default()
            });
        }
        if REMEMBER && self.work.known_sums[side] >> number & 1 == 1 {
            return Ok(self.work.sums[side][number]);
        }
        let sum = self.sum::<REMEMBER>(far, 1 << number)?;
        let arm = Sum {
            high: through(sum.high, sum.low, r)?,
            low: through(sum.low, sum.high, r)?,
            ..sum
        };
        if REMEMBER {
            self.work.sums[side][number] = arm;
            self.work.known_sums[side] |= 1 << number;
        }
        Ok(arm)
    }

    fn load<const REMEMBER: bool>(&mut self, node: usize, by: u64) -> Load {
        let other = u64::from((self.values >> node & 1) ^ self.new);
        let mut load = Load {
            resistance: INFINITE,
            capacitance: other * self.plain.capacitance[node],
        };
        for number in self.arms(node, by) {
            let arm = self.arm_load::<REMEMBER>(number, node);
            load.resistance = parallel(load.resistance, arm.resistance);
            load.capacitance += arm.capacitance;
        }
        load
    }

    fn arm_load<const REMEMBER: bool>(&mut self, number: usize, near: usize) -> Load {
        let (far, side) = self.plain.far(number, near);
        let r = self.plain.transistors[number].resistance;
        if self.ends >> far & 1 == 1 {
            let at_new = self.values >> far & 1 == self.new;
            return Load {
                resistance: if at_new { r } else { INFINITE },
                capacitance: 0,
            };
        }
        let new = self.new as usize;
        if REMEMBER && self.work.known_loads[new][side] >> number & 1 == 1 {
            return self.work.loads[new][side][number];
        }
        let load = self.load::<REMEMBER>(far, 1 << number);
        let arm = match load.resistance {
            INFINITE => load,
            ohms => Load {
                resistance: ohms + r,
                capacitance: (load.capacitance * ohms).div_ceil(ohms + r),
            },
        };
        if REMEMBER {
            self.work.loads[new][side][number] = arm;
            self.work.known_loads[new][side] |= 1 << number;
        }
        arm
    }
}
