//! Columns of a shifter that open while their data wires are on their way.
//!
//! The change that pends at such a column comes earlier once it is worked out anew after
//! its wire has changed. So it shows whether a later step reconsiders the column.

use super::live::{Parts, Size};
use crate::cell_file::{Channel, Source, HORIZONS};
use crate::draft::{Draft, GROUND, SUPPLY};
use crate::random::Random;

/// When the data changes, when columns open, and when other select lines and inputs
/// move: the wires follow the data between the last two.
struct Times {
    data: u32,
    open: u32,
    others: u32,
}

impl Times {
    /// With wires of this delay.
    fn draw(random: &mut Random, delay: u32) -> Times {
        let data = random.between(1, 10);
        let lag = random.between(1, delay);
        Times {
            data,
            open: data + lag,
            others: data + delay + random.between(0, lag),
        }
    }
}

struct Shifter<'a> {
    random: &'a mut Random,
    parts: &'a Parts,
    draft: &'a mut Draft,
    /// The data wires, and what each starts with.
    wires: Vec<(u8, Source)>,
    times: Times,
    /// What each input becomes, and when.
    moves: Vec<(u32, u8, Source)>,
}

/// Data wires, columns, and select lines that let wires and inputs onto columns; gives
/// the inputs.
pub(super) fn columns(
    random: &mut Random,
    parts: &Parts,
    draft: &mut Draft,
    size: Size,
    horizon: u32,
) -> Vec<u8> {
    let (wires, columns) = match size {
        Size::Small => (random.between(1, 2), random.between(1, 2)),
        Size::Middle => (random.between(2, 3), random.between(2, 3)),
        Size::Dense => (random.between(2, 4), 4),
    };
    let (load, resistance) = (parts.capacitance(random), parts.resistance(random));
    let delay = (u64::from(load) * u64::from(resistance)).div_ceil(1000);
    let delay = delay.min(u64::from(*HORIZONS.end())) as u32;
    let mut shifter = Shifter {
        times: Times::draw(random, delay),
        random,
        parts,
        draft,
        wires: Vec::new(),
        moves: Vec::new(),
    };
    for _ in 0..wires {
        shifter.wire(load, resistance);
    }
    for _ in 0..columns {
        shifter.column();
    }
    shifter.schedule(horizon)
}

impl Shifter<'_> {
    /// A wire behind an inverter; its data turns.
    fn wire(&mut self, load: u16, resistance: u32) {
        let start = self.parts.source(self.random);
        let input = self.draft.input(start.turned());
        let wire = self.draft.inner(load, start);
        self.draft.p(input, [SUPPLY, wire], resistance);
        self.draft.n(input, [GROUND, wire], resistance);
        self.moves.push((self.times.data, input, start));
        self.wires.push((wire, start));
    }

    /// A column that takes a wire when it opens, and later any wire, or an input.
    fn column(&mut self) {
        let (wire, start) = self.random.pick(&self.wires);
        let capacitance = self.parts.capacitance(self.random);
        let column = self.draft.inner(capacitance, start);
        let open = self.either(Source::High);
        let select = self.draft.input(Source::Low);
        self.pass(Channel::N, select, [wire, column]);
        self.moves.push((self.times.open, select, open));

        let closed = self.either(Source::Low);
        let later = self.draft.input(closed);
        let (wire, _) = self.random.pick(&self.wires);
        self.pass(Channel::N, later, [wire, column]);
        self.may_turn(later, closed);

        let start = self.parts.source(self.random);
        let input = self.draft.input(start);
        let gate = self.random.pick(&[GROUND, later]);
        self.pass(Channel::N, gate, [input, column]);
        self.may_turn(input, start);
    }

    /// An input of a column turns, or another column's do.
    fn may_turn(&mut self, input: u8, start: Source) {
        let becomes = self.random.pick(&[start, start, start.turned()]);
        self.moves.push((self.times.others, input, becomes));
    }

    /// This source or any.
    fn either(&mut self, source: Source) -> Source {
        let any = self.parts.source(self.random);
        self.random.pick(&[source, any])
    }

    fn pass(&mut self, channel: Channel, gate: u8, ends: [u8; 2]) {
        let resistance = self.parts.resistance(self.random);
        self.draft.channel(channel, gate, ends, resistance);
    }

    /// The moves up to the horizon are scheduled; gives the inputs.
    fn schedule(self, horizon: u32) -> Vec<u8> {
        for &(time, input, source) in &self.moves {
            if time <= horizon {
                self.draft.at(time, input, source);
            }
        }
        self.moves.iter().map(|&(_, input, _)| input).collect()
    }
}
