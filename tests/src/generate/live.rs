//! Cells in which much happens: channels that meet, gates that are driven by what
//! they drive, ties, loops, resistances about the ceiling, wires that move
//! together.

use super::legal::source;
use super::{fights, shifter};
use crate::cell_file::{Cell, Channel, Source, CAPACITANCES, HORIZONS, RESISTANCES};
use crate::draft::{Draft, GROUND, SUPPLY};
use crate::random::Random;

/// How large a cell is.
#[derive(Clone, Copy, Debug, PartialEq, Eq)]
pub enum Size {
    Small,
    Middle,
    /// More than 16 nodes and many transistors.
    Dense,
}

/// What the parts of one cell are made of.
pub(super) struct Parts {
    letters: u32,
    resistances: Vec<u32>,
    capacitances: Vec<u16>,
    /// About the delay of one transistor.
    delay: u32,
    /// The sources are letters so many times in eight.
    lettered: u64,
}

impl Parts {
    fn draw(random: &mut Random, letters: u32) -> Parts {
        let (least, most) = (*RESISTANCES.start(), *RESISTANCES.end());
        let resistances = match random.below(10) {
            0 => vec![1_000],
            1 => vec![1_000, 2_000],
            2 => vec![least, most],
            3 => vec![most - 1, most, least, least + 1],
            4 => vec![1, 2, 3, 5, 7],
            5 => vec![most],
            6 => vec![500, 1_000, 1_500, 3_000],
            7 => vec![most, 57, 58, 60, 1_000],
            _ => (0..5).map(|_| random.spread(least, most)).collect(),
        };
        let largest = *CAPACITANCES.end();
        let capacitances = match random.below(8) {
            0 => vec![10],
            1 => vec![10, 20],
            2 => vec![1, 2, 3],
            3 => vec![largest, largest - 1, 1],
            4 => vec![30, 20, 50],
            5 => vec![5, 10, 15, 20],
            6 => vec![largest],
            _ => (0..5).map(|_| random.spread(1, largest)).collect(),
        };
        let one = u64::from(random.pick(&resistances)) * u64::from(random.pick(&capacitances));
        Parts {
            letters,
            resistances,
            capacitances: capacitances.into_iter().map(|c| c as u16).collect(),
            delay: one.div_ceil(1000).clamp(1, u64::from(*HORIZONS.end())) as u32,
            lettered: 1 + random.below(8),
        }
    }

    fn horizon(&self, random: &mut Random) -> u32 {
        let last = *HORIZONS.end();
        let horizon = match random.below(6) {
            0 => random.spread(1, last),
            1 => last,
            _ => self.delay.saturating_mul(random.between(1, 40)),
        };
        horizon.min(last)
    }

    pub fn source(&self, random: &mut Random) -> Source {
        if random.below(8) < self.lettered {
            source(random, self.letters)
        } else {
            random.pick(&[Source::Low, Source::High])
        }
    }

    pub fn resistance(&self, random: &mut Random) -> u32 {
        random.pick(&self.resistances)
    }

    pub fn capacitance(&self, random: &mut Random) -> u16 {
        random.pick(&self.capacitances)
    }

    fn inner(&self, random: &mut Random, draft: &mut Draft) -> u8 {
        let capacitance = self.capacitance(random);
        draft.inner(capacitance, self.source(random))
    }

    /// Schedule entries at few different times, so that inputs move together.
    fn schedule(&self, random: &mut Random, draft: &mut Draft, inputs: &[u8], horizon: u32) {
        if inputs.is_empty() {
            return;
        }
        let window = self.delay.saturating_mul(random.between(1, 12));
        let last = window.clamp(1, horizon);
        let times: Vec<u32> = (0..random.between(1, 6))
            .map(|_| random.between(1, last))
            .collect();
        for _ in 0..random.spread(0, 3 * inputs.len() as u32 + 1) {
            let time = random.pick(&times);
            let node = random.pick(inputs);
            draft.at(time, node, self.source(random));
        }
    }
}

/// A cell of a size, with so many letters.
pub fn cell(random: &mut Random, size: Size, letters: u32) -> Cell {
    if size != Size::Small && random.one_in(24) {
        return slow_chain(random, letters);
    }
    let parts = Parts::draw(random, letters);
    let horizon = parts.horizon(random);
    let mut draft = Draft::new(letters, horizon);
    let inputs = match random.below(9) {
        0 | 1 => gates(random, &parts, &mut draft, size),
        2 | 3 => shifter::columns(random, &parts, &mut draft, size, horizon),
        4 => fights::fights(random, &parts, &mut draft, size),
        _ => channels(random, &parts, &mut draft, size),
    };
    parts.schedule(random, &mut draft, &inputs, horizon);
    draft.finish()
}

/// Any nodes and any channels between them; gives the inputs.
fn channels(random: &mut Random, parts: &Parts, draft: &mut Draft, size: Size) -> Vec<u8> {
    let (nodes, transistors) = match size {
        Size::Small => (random.between(1, 6), random.between(1, 10)),
        Size::Middle => (random.between(5, 16), random.between(5, 40)),
        Size::Dense if random.one_in(4) => (24, 64),
        Size::Dense => (random.between(17, 24), random.spread(30, 64)),
    };
    let share = random.between(0, 5);
    let (mut inputs, mut inner) = (Vec::new(), Vec::new());
    for _ in 0..nodes {
        if random.between(0, 9) < share {
            inputs.push(draft.input(parts.source(random)));
        } else {
            inner.push(parts.inner(random, draft));
        }
    }
    // Many of the channels lie between inner nodes, and gates are often inputs.
    let [inside, driven] = [random.between(1, 9), random.between(0, 9)];
    for _ in 0..transistors {
        let (one, other) = ends(random, &inputs, &inner, inside);
        let gate = match random.between(0, 9) < driven {
            true => any(random, &inputs, &[GROUND, SUPPLY]),
            false => any(random, &inner, &inputs),
        };
        let channel = random.pick(&[Channel::N, Channel::P]);
        draft.channel(channel, gate, [one, other], parts.resistance(random));
    }
    inputs
}

/// A chain of the largest resistances, so long that its delay is about 2^32 ps.
fn slow_chain(random: &mut Random, letters: u32) -> Cell {
    let horizon = *HORIZONS.end();
    let mut draft = Draft::new(letters, horizon);
    let gate = draft.input(source(random, letters));
    let length = 23;
    let resistance = *RESISTANCES.end();
    // Elmore's delay of the chain's end is that of so many of its capacitances.
    let shares = length * (length + 1) / 2;
    let capacitance = (u32::MAX / (resistance / 1_000) / shares + random.between(0, 3)) as u16;
    let start = match random.one_in(2) {
        true => Source::High,
        false => source(random, letters),
    };
    let mut from = GROUND;
    for _ in 0..length {
        let to = draft.inner(capacitance, start);
        let gate = random.pick(&[gate, SUPPLY]);
        draft.n(gate, [from, to], resistance);
        from = to;
    }
    let time = random.spread(1, horizon);
    draft.at(time, gate, source(random, letters));
    draft.finish()
}

/// One of the first items, or of the second if there are none; at times of the
/// rails.
fn any(random: &mut Random, first: &[u8], second: &[u8]) -> u8 {
    match (first, second) {
        _ if random.one_in(16) => random.pick(&[GROUND, SUPPLY]),
        ([], []) => random.pick(&[GROUND, SUPPLY]),
        ([], items) | (items, _) => random.pick(items),
    }
}

/// The two different ends of a channel, `inside` times in ten both inner nodes.
fn ends(random: &mut Random, inputs: &[u8], inner: &[u8], inside: u32) -> (u8, u8) {
    for _ in 0..20 {
        let one = any(random, inner, inputs);
        let other = match random.between(0, 9) {
            share if share < inside => any(random, inner, inputs),
            9 => any(random, inputs, inner),
            _ => random.pick(&[GROUND, SUPPLY]),
        };
        if one != other {
            return if random.one_in(2) {
                (one, other)
            } else {
                (other, one)
            };
        }
    }
    (GROUND, SUPPLY)
}

/// Gates of a few transistors each, from inputs and each other; gives the inputs.
fn gates(random: &mut Random, parts: &Parts, draft: &mut Draft, size: Size) -> Vec<u8> {
    let (inputs, gates) = match size {
        Size::Small => (random.between(1, 3), random.between(1, 3)),
        Size::Middle => (random.between(2, 6), random.between(3, 8)),
        Size::Dense => (random.between(3, 8), 24),
    };
    let inputs: Vec<u8> = (0..inputs)
        .map(|_| draft.input(parts.source(random)))
        .collect();
    let mut wires = inputs.clone();
    for _ in 0..gates {
        if !draft.has_room(2, 6) {
            break;
        }
        gate(random, parts, draft, &mut wires);
    }
    inputs
}

/// One gate, whose output joins the wires.
fn gate(random: &mut Random, parts: &Parts, draft: &mut Draft, wires: &mut Vec<u8>) {
    let out = parts.inner(random, draft);
    let [a, b] = [(); 2].map(|()| random.pick(wires));
    let [r, s] = [(); 2].map(|()| parts.resistance(random));
    match random.below(7) {
        0 | 1 => {
            draft.p(a, [SUPPLY, out], r);
            draft.n(a, [GROUND, out], s);
        }
        2 => {
            let middle = parts.inner(random, draft);
            draft.p(a, [SUPPLY, out], r);
            draft.p(b, [SUPPLY, out], r);
            draft.n(a, [GROUND, middle], s);
            draft.n(b, [middle, out], s);
        }
        3 => {
            let middle = parts.inner(random, draft);
            draft.n(a, [GROUND, out], s);
            draft.n(b, [GROUND, out], s);
            draft.p(a, [SUPPLY, middle], r);
            draft.p(b, [middle, out], r);
        }
        // A transmission gate, and an inverter for its other half.
        4 => {
            let not = parts.inner(random, draft);
            draft.p(a, [SUPPLY, not], r);
            draft.n(a, [GROUND, not], s);
            draft.n(a, [b, out], r);
            draft.p(not, [b, out], s);
        }
        // A precharged node and what discharges it.
        5 => {
            let middle = parts.inner(random, draft);
            let clock = wires[0];
            draft.p(clock, [SUPPLY, out], r);
            draft.n(a, [out, middle], s);
            draft.n(b, [out, middle], s);
            draft.n(clock, [GROUND, middle], r);
        }
        // A ring: the output drives the gate's first wire if that may be driven.
        _ => {
            let back = parts.inner(random, draft);
            draft.p(out, [SUPPLY, back], r);
            draft.n(out, [GROUND, back], s);
            draft.p(back, [SUPPLY, out], r);
            draft.n(back, [GROUND, out], s);
            draft.n(a, [b, back], s);
        }
    }
    wires.push(out);
}
