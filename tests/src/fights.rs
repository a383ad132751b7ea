//! Cells in which supply and ground fight at a node behind a weak transistor: what the
//! ceiling of resistances is tried on (document 02, wish 3).

use crate::cell_file::{Cell, Source, FIRST_NODE, RESISTANCES};
use crate::draft::{Draft, GROUND, SUPPLY};
use crate::rows;

/// The resistances from supply and from ground to the far node, and that of the weak
/// transistor between it and the near node.
#[derive(Clone, Copy, Debug, PartialEq, Eq)]
pub struct Fight {
    pub supply: u32,
    pub ground: u32,
    pub weak: u32,
}

/// The gates of these three transistors.
#[derive(Clone, Copy, Debug)]
pub struct Gates {
    pub supply: u8,
    pub ground: u8,
    pub weak: u8,
}

/// All three conduct always.
pub const ON: Gates = Gates {
    supply: SUPPLY,
    ground: SUPPLY,
    weak: SUPPLY,
};

/// Fights whose high side, seen from the near node, is one ohm below the ceiling.
pub const BELOW: [Fight; 2] = [Fight::of(199_999, 1, 4_999), Fight::of(31_999, 1, 31_249)];
/// Exactly the ceiling.
pub const EXACTLY: [Fight; 3] = [
    Fight::of(52_578, 1, 19_018),
    Fight::of(231_782, 8, 34_506),
    Fight::of(235_219, 55, 233_715),
];
/// One ohm above it.
pub const ABOVE: [Fight; 3] = [
    Fight::of(42_268, 1, 23_657),
    Fight::of(176_783, 7, 39_588),
    Fight::of(238_334, 57, 239_046),
];

impl Fight {
    pub const fn of(supply: u32, ground: u32, weak: u32) -> Fight {
        Fight {
            supply,
            ground,
            weak,
        }
    }

    /// The same with supply and ground exchanged.
    pub fn turned(self) -> Fight {
        Fight::of(self.ground, self.supply, self.weak)
    }

    /// Draws the fight; gives the far and the near node.
    pub fn draw(self, draft: &mut Draft, gates: Gates, start: Source) -> [u8; 2] {
        let [far, near] = [30, 20].map(|capacitance| draft.inner(capacitance, start));
        draft.n(gates.supply, [SUPPLY, far], self.supply);
        draft.n(gates.ground, [GROUND, far], self.ground);
        draft.n(gates.weak, [far, near], self.weak);
        [far, near]
    }
}

/// The horizon of the cells, when a first input moves, and when the weak transistor of a
/// fight begins to conduct.
pub const HORIZON: u32 = 1_000;
pub const FIRST: u32 = 50;
pub const OPENS: u32 = 100;

/// A fight from the start on.
pub fn at_start(fight: Fight) -> Cell {
    let mut draft = Draft::new(0, HORIZON);
    fight.draw(&mut draft, ON, Source::Low);
    draft.finish()
}

/// A fight behind a transistor that opens at the start or at a later step, where letters
/// 0 and 1 are both high. Inputs have letters at the start and take others with the step,
/// so that both add entries for values. An inverter follows one of them, so that they add
/// entries for next changes too.
pub fn with_letters(fight: Fight, opens_at: u32) -> Cell {
    let mut draft = Draft::new(4, HORIZON);
    let opens = match opens_at {
        0 => draft.input(Source::Letter(1)),
        time => {
            let opens = draft.input(Source::Low);
            draft.at(time, opens, Source::Letter(1));
            opens
        }
    };
    let ground = draft.input(Source::Letter(0));
    let moves = draft.input(Source::Letter(2));
    let wire = draft.inner(10, Source::NotLetter(1));
    let gates = Gates {
        supply: SUPPLY,
        ground,
        weak: opens,
    };
    fight.draw(&mut draft, gates, Source::Low);
    draft.inverter(moves, wire, 1_000);
    draft.at(FIRST, moves, Source::Letter(1));
    draft.at(OPENS, moves, Source::Letter(3));
    draft.finish()
}

/// A cell whose fight is off in every run: the input that gates its weak transistor stays
/// low. A first input moves that gates nothing of the fight, and later one that gates a
/// further transistor at its far node, where letter 0 is high.
#[derive(Clone, Debug)]
pub struct Off {
    pub cell: Cell,
    /// The input that gates the weak transistor.
    pub weak: u8,
    /// Inputs that are letter 0 and its complement.
    pub letter: u8,
    pub complement: u8,
}

pub fn off() -> Off {
    let mut draft = Draft::new(1, HORIZON);
    let [weak, other, at_far] = [(); 3].map(|()| draft.input(Source::Low));
    let letter = draft.input(Source::Letter(0));
    let complement = draft.input(Source::NotLetter(0));
    let gates = Gates { weak, ..ON };
    let [far, _] = ABOVE[0].draw(&mut draft, gates, Source::Low);
    draft.n(at_far, [GROUND, far], 1);
    let wire = draft.inner(10, Source::Low);
    draft.inverter(other, wire, 1_000);
    draft.at(FIRST, other, Source::High);
    draft.at(OPENS, at_far, Source::Letter(0));
    Off {
        cell: draft.finish(),
        weak,
        letter,
        complement,
    }
}

/// The number of letters of `one_pattern`.
pub const MANY: u32 = 12;
/// The resistance of each of its pulls to ground.
pub const PULL: u32 = 650;

/// A fight that is above the ceiling at one pattern of 4,096 alone: twelve transistors
/// pull the far node to ground, one for each letter, and eleven of them are not enough.
/// The inputs take their letters at this time; at 0 they start with them.
pub fn one_pattern(time: u32) -> Cell {
    let mut draft = Draft::new(MANY, HORIZON);
    let mut inputs = Vec::new();
    for letter in (0..MANY as u8).map(Source::Letter) {
        let start = if time == 0 { letter } else { Source::Low };
        let input = draft.input(start);
        inputs.push(input);
        if time > 0 {
            draft.at(time, input, letter);
        }
    }
    pull(&mut draft, &inputs, SUPPLY);
    draft.finish()
}

/// The same behind the inputs of a ring that runs by itself, whose functions grow large
/// before the last input takes its letter, at this time.
pub fn in_a_ring(time: u32) -> Cell {
    let mut ring = rows::ring();
    let inputs = first_inputs();
    let last = inputs.len() - 1;
    let letter = std::mem::replace(&mut ring.nodes[last].start, Source::Low);
    let mut draft = Draft::of(ring);
    draft.at(time, inputs[last], letter);
    pull(&mut draft, &inputs, SUPPLY);
    draft.finish()
}

/// When the inputs of `in_a_row` take other letters for the second time, and the weak
/// transistor opens.
pub const AGAIN: u32 = 4_000;

/// The same behind the inputs of a row of selects, in the place of three of its outputs:
/// in the step in which it is above the ceiling the row's functions grow large.
pub fn in_a_row() -> Cell {
    let mut row = rows::mux_tree();
    let outs = row.nodes.len() - 3;
    row.nodes.truncate(outs);
    let there = |end: u8| usize::from(end) < FIRST_NODE + outs;
    row.transistors
        .retain(|transistor| transistor.ends.into_iter().all(there));
    let mut draft = Draft::of(row);
    let opens = draft.input(Source::Low);
    draft.at(AGAIN, opens, Source::High);
    pull(&mut draft, &first_inputs(), opens);
    draft.finish()
}

/// The first nodes of a cell whose inputs come first, one for each letter.
fn first_inputs() -> Vec<u8> {
    let nodes = (FIRST_NODE..).map(|node| node as u8);
    nodes.take(MANY as usize).collect()
}

/// The fight of these cells: each of the inputs pulls the far node to ground. The gate is
/// that of the weak transistor.
fn pull(draft: &mut Draft, inputs: &[u8], gate: u8) {
    let most = *RESISTANCES.end();
    let [far, near] = [30, 20].map(|capacitance| draft.inner(capacitance, Source::Low));
    draft.n(SUPPLY, [SUPPLY, far], most);
    draft.n(gate, [far, near], most);
    for &input in inputs {
        draft.n(input, [GROUND, far], PULL);
    }
}
