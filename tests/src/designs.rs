//! Cells as they are drawn for a library, with letters on their inputs.

use crate::cell_file::{Cell, Channel, Source};
use crate::draft::{Draft, GROUND, SUPPLY};
use crate::random::Random;

/// The source of a letter, or of its complement; low where the cell has not so
/// many letters.
fn letter(number: u32, letters: u32, complement: bool) -> Source {
    match complement {
        _ if number >= letters => Source::Low,
        false => Source::Letter(number as u8),
        true => Source::NotLetter(number as u8),
    }
}

/// When the first of two cycles begins, how long one is, and when it turns, in ps.
const BEGIN: u32 = 2_000;
const CYCLE: u32 = 8_000;
const TURN: u32 = 4_000;

/// An eight-bit Manchester carry chain of 24 nodes: a clock that charges its nine
/// nodes, the carry into it, eight propagate and three generate inputs, and two
/// outputs. Gives the clock, and the other inputs along the chain.
fn chain_of(draft: &mut Draft) -> (u8, Vec<u8>) {
    let clock = draft.input(Source::Low);
    let mut inputs = Vec::new();
    let mut input = |draft: &mut Draft| {
        inputs.push(draft.input(Source::Low));
        inputs[inputs.len() - 1]
    };
    let carry_in = input(draft);
    let mut chain = vec![draft.inner(30, Source::High)];
    draft.n(carry_in, [GROUND, chain[0]], 1_500);
    for bit in 0..8 {
        let propagate = input(draft);
        let node = draft.inner(25 + bit, Source::High);
        let ends = [chain[chain.len() - 1], node];
        draft.n(propagate, ends, 1_000 + 10 * u32::from(bit));
        if [1, 3, 5].contains(&bit) {
            let generate = input(draft);
            draft.n(generate, [GROUND, node], 1_500);
        }
        chain.push(node);
    }
    for &node in &chain {
        draft.p(clock, [SUPPLY, node], 4_000);
    }
    for node in [chain[4], chain[8]] {
        let carry = draft.inner(20, Source::Low);
        draft.inverter(node, carry, 1_000);
    }
    (clock, inputs)
}

/// Two cycles of a chain: the clock rises, and the inputs take their sources one
/// after the other, `skew` ps apart; they fall in the same way, and then the clock
/// does.
fn two_cycles(
    mut draft: Draft,
    clock: u8,
    inputs: &[u8],
    skew: u32,
    source: impl Fn(u32, u32) -> Source,
) -> Cell {
    for cycle in 0..2 {
        let begin = BEGIN + cycle * CYCLE;
        draft.at(begin, clock, Source::High);
        for (number, &input) in (0..).zip(inputs) {
            let time = begin + skew * number;
            draft.at(time, input, source(cycle, number));
            draft.at(time + TURN, input, Source::Low);
        }
        draft.at(begin + TURN + 12 * skew, clock, Source::Low);
    }
    draft.finish()
}

/// A carry chain with at most 12 letters, all of them in each of its two cycles: the
/// second has the letters' complements.
///
/// The letters are numbered along the chain, as the wires lie: a node's function
/// then reads its own letters and those before it in their order, and stays small.
pub fn carry_chain(letters: u32, skew: u32) -> Cell {
    let mut draft = Draft::new(letters, BEGIN + 2 * CYCLE);
    let (clock, inputs) = chain_of(&mut draft);
    two_cycles(draft, clock, &inputs, skew, |cycle, number| {
        letter(number, letters, cycle == 1)
    })
}

/// A carry chain whose two cycles have operands of their own: in the first the first
/// inputs along the chain carry `first` letters, in the second its last inputs
/// `second` others; the inputs without a letter are high. What the first cycle left
/// in the chain is charged away before the second.
pub fn carry_additions(first: u32, second: u32, skew: u32) -> Cell {
    let letters = first + second;
    let mut draft = Draft::new(letters, BEGIN + 2 * CYCLE);
    let (clock, inputs) = chain_of(&mut draft);
    let last = inputs.len() as u32 - second;
    two_cycles(draft, clock, &inputs, skew, |cycle, number| match cycle {
        0 if number < first => Source::Letter(number as u8),
        1 if number >= last => Source::Letter((first + number - last) as u8),
        _ => Source::High,
    })
}

/// A column of a barrel shifter, of 24 nodes with at most 12 letters: three levels
/// of pass transistors choose one of eight inputs by three select letters, and an
/// enable letter lets it onto the column's bus. The select letters come first, then
/// enable, then the inputs; they come one after the other, `skew` ps apart, and
/// later their complements do.
pub fn barrel_column(letters: u32, skew: u32) -> Cell {
    let mut draft = Draft::new(letters, BEGIN + 2 * CYCLE);
    let mut number = 0;
    let mut input = |draft: &mut Draft| {
        let input = draft.input(Source::Low);
        for (begin, complement) in [(BEGIN, false), (BEGIN + CYCLE, true)] {
            let time = begin + skew * number;
            draft.at(time, input, letter(number, letters, complement));
        }
        number += 1;
        input
    };
    let selects = [(); 3].map(|()| input(&mut draft));
    let enable = input(&mut draft);
    let mut level: Vec<u8> = (0..8).map(|_| input(&mut draft)).collect();
    for (depth, select) in (1..).zip(selects) {
        let not = draft.inner(15, Source::High);
        draft.inverter(select, not, 1_000);
        let choose = |pair: &[u8]| {
            let node = draft.inner(10 + 5 * depth, Source::Low);
            draft.n(not, [pair[0], node], 1_200);
            draft.n(select, [pair[1], node], 1_200);
            node
        };
        level = level.chunks(2).map(choose).collect();
    }
    let out = draft.inner(20, Source::High);
    draft.inverter(level[0], out, 1_000);
    let bus = draft.inner(120, Source::High);
    draft.n(enable, [out, bus], 1_500);
    draft.finish()
}

/// A random cell of 24 nodes and 64 transistors, most of them between inner nodes:
/// so many inputs, and letters on all of them and on the wires they start from.
pub fn dense(seed: u64, inputs: u32, letters: u32) -> Cell {
    let mut random = Random::new(seed);
    let mut draft = Draft::new(letters, 4_000);
    let mut next = 0;
    let mut source = |random: &mut Random| {
        next += 1;
        match random.one_in(4) {
            true => random.pick(&[Source::Low, Source::High]),
            false => letter(next % letters.max(1), letters, false),
        }
    };
    let inputs: Vec<u8> = (0..inputs)
        .map(|_| draft.input(source(&mut random)))
        .collect();
    let mut inner = Vec::new();
    while draft.has_room(1, 0) {
        let capacitance = random.between(5, 60) as u16;
        inner.push(draft.inner(capacitance, source(&mut random)));
    }
    while draft.has_room(0, 1) {
        let one = random.pick(&inner);
        let other = match random.one_in(4) {
            true => random.pick(&[GROUND, SUPPLY]),
            false => random.pick(&inner),
        };
        let gate = match random.one_in(3) {
            true => random.pick(&inner),
            false => random.pick(&inputs),
        };
        if one != other {
            let channel = random.pick(&[Channel::N, Channel::P]);
            let resistance = random.between(500, 5_000);
            draft.channel(channel, gate, [one, other], resistance);
        }
    }
    for &input in &inputs {
        let time = random.between(1, 1_000);
        draft.at(time, input, source(&mut random));
    }
    draft.finish()
}
