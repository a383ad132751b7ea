//! Five smaller cells with 12 letters, most of them of rows that are alike.

use crate::cell_file::{Cell, Source};
use crate::draft::{Draft, GROUND, SUPPLY};

/// The letters of all five.
const LETTERS: u8 = 12;
/// The rows of those that have rows.
const ROWS: usize = 8;

/// A letter, counted round from the last to the first, or its complement.
fn letter(number: u8, complement: bool) -> Source {
    match complement {
        false => Source::Letter(number % LETTERS),
        true => Source::NotLetter(number % LETTERS),
    }
}

/// The letter of each row where the first four rows have an input more, with the
/// letter after it.
const ROW_LETTERS: [u8; ROWS] = [0, 2, 4, 6, 8, 9, 10, 11];

fn inputs<const COUNT: usize>(draft: &mut Draft, start: Source) -> [u8; COUNT] {
    [(); COUNT].map(|()| draft.input(start))
}

fn inner<const COUNT: usize>(draft: &mut Draft, capacitance: u16, start: Source) -> [u8; COUNT] {
    [(); COUNT].map(|()| draft.inner(capacitance, start))
}

/// A carry chain whose rows pass the carry on or take an input of their own; it is
/// charged and let go twice.
pub fn chain() -> Cell {
    let mut draft = Draft::new(LETTERS.into(), 200_000);
    let clock = draft.input(Source::Low);
    let carry_in = draft.input(Source::High);
    let propagate: [u8; ROWS] = inputs(&mut draft, Source::High);
    let generate: [u8; 4] = inputs(&mut draft, Source::High);
    let rows: [u8; ROWS] = inner(&mut draft, 2, Source::High);
    let carries: [u8; 2] = inner(&mut draft, 2, Source::Low);
    let mut before = carry_in;
    for (row, &node) in rows.iter().enumerate() {
        let own = generate.get(row).copied().unwrap_or(GROUND);
        draft.n(propagate[row], [before, node], 1_000);
        draft.p(propagate[row], [own, node], 1_000);
        draft.p(clock, [SUPPLY, node], 2_000);
        before = node;
    }
    draft.inverter(rows[7], carries[0], 1_000);
    draft.inverter(rows[3], carries[1], 1_000);
    for (begin, complement) in [(100, false), (700, true)] {
        let end = begin + 300;
        draft.at(begin, clock, Source::High);
        draft.at(end, clock, Source::Low);
        draft.at(begin, carry_in, Source::Low);
        draft.at(end, carry_in, Source::High);
        for (&input, number) in propagate.iter().zip(ROW_LETTERS) {
            draft.at(begin, input, letter(number, complement));
            draft.at(end, input, Source::High);
        }
        for (&input, number) in generate.iter().zip(ROW_LETTERS) {
            draft.at(begin, input, letter(number + 1, complement));
        }
    }
    draft.finish()
}

/// A row of selects, each of which passes on what came before it or one of four
/// inputs; every second row has an output.
pub fn mux_tree() -> Cell {
    let mut draft = Draft::new(LETTERS.into(), 100_000);
    let selects: [u8; ROWS] = inputs(&mut draft, Source::Low);
    let data: [u8; 4] = inputs(&mut draft, Source::High);
    let rows: [u8; ROWS] = inner(&mut draft, 1, Source::High);
    let outs: [u8; 4] = inner(&mut draft, 1, Source::Low);
    let mut before = GROUND;
    for (row, &node) in rows.iter().enumerate() {
        draft.p(selects[row], [data[row % 4], node], 2_000);
        draft.n(selects[row], [before, node], 1_000);
        before = node;
    }
    for (number, &out) in outs.iter().enumerate() {
        draft.inverter(rows[2 * number + 1], out, 1_500);
    }
    for (&input, number) in selects.iter().zip(ROW_LETTERS) {
        draft.at(1_000, input, letter(number, false));
        draft.at(4_000, input, letter(number + 1, true));
    }
    for (&input, number) in data.iter().zip(ROW_LETTERS) {
        draft.at(1_000, input, letter(number + 1, false));
        draft.at(4_000, input, letter(number + 2, false));
    }
    draft.finish()
}

/// Eight NAND gates, each on an input and on the gate before it; the inputs change
/// seven times.
pub fn nand_ripple() -> Cell {
    let mut draft = Draft::new(LETTERS.into(), 100_000);
    let inputs: [u8; ROWS] = inputs(&mut draft, Source::Low);
    let outs: [u8; ROWS] = inner(&mut draft, 1, Source::High);
    let middles: [u8; ROWS] = inner(&mut draft, 1, Source::Low);
    let mut before = inputs[0];
    for row in 0..ROWS {
        let (input, out, middle) = (inputs[row], outs[row], middles[row]);
        draft.p(before, [SUPPLY, out], 2_000);
        draft.p(input, [SUPPLY, out], 2_000);
        draft.n(before, [out, middle], 1_000);
        draft.n(input, [middle, GROUND], 1_000);
        before = out;
    }
    for (change, first) in (0..).zip([0, 6, 0, 9, 0, 3, 6]) {
        let time = 1_000 + 1_500 * change;
        for (number, &input) in (first..).zip(&inputs) {
            draft.at(time, input, letter(number, change % 2 == 1));
        }
    }
    draft.finish()
}

/// Eight exclusive ors of pass transistors in a row, each with an inverter. Only
/// eight of the letters stand in it.
pub fn pass_xor() -> Cell {
    let mut draft = Draft::new(LETTERS.into(), 100_000);
    let inputs: [u8; ROWS] = inputs(&mut draft, Source::Low);
    let sums: [u8; ROWS] = inner(&mut draft, 1, Source::Low);
    let nots: [u8; ROWS] = inner(&mut draft, 1, Source::High);
    let (mut sum, mut not) = (GROUND, SUPPLY);
    for row in 0..ROWS {
        draft.n(inputs[row], [not, sums[row]], 1_000);
        draft.p(inputs[row], [sum, sums[row]], 2_000);
        draft.inverter(sums[row], nots[row], 1_000);
        (sum, not) = (sums[row], nots[row]);
    }
    for (number, &input) in (0..).zip(&inputs) {
        draft.at(1_000, input, letter(number, false));
    }
    draft.finish()
}

/// A ring of five inverters, each slowed by two inputs at its foot, and two inputs
/// that pull at the ring. Nothing is scheduled: it runs by itself.
pub fn ring() -> Cell {
    const STAGES: usize = 5;
    let mut draft = Draft::new(LETTERS.into(), 250);
    let input = |number| draft.input(letter(number, false));
    let inputs: Vec<u8> = (0..LETTERS).map(input).collect();
    let (low, high) = (Source::Low, Source::High);
    let stages = [low, high, low, high, low].map(|start| draft.inner(1, start));
    let feet: [u8; STAGES] = inner(&mut draft, 1, Source::Low);
    let mut before = stages[STAGES - 1];
    for stage in 0..STAGES {
        let (node, foot) = (stages[stage], feet[stage]);
        draft.p(before, [SUPPLY, node], 2_000);
        draft.n(before, [node, foot], 1_000);
        draft.n(inputs[stage], [foot, GROUND], 500);
        draft.n(inputs[STAGES + stage], [foot, GROUND], 1_000);
        before = node;
    }
    draft.p(inputs[10], [SUPPLY, stages[0]], 9_000);
    draft.n(inputs[11], [GROUND, stages[2]], 12_000);
    draft.finish()
}
