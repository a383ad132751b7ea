//! Legal cells of all sizes, the least and the largest often.

use crate::cell_file::{
    Cell, Channel, Entry, Layout, Node, Role, Source, Transistor, CAPACITANCES, ENTRIES,
    FIRST_NODE, HORIZONS, LETTERS, NODES, RESISTANCES, TRANSISTORS,
};
use crate::random::Random;
use std::ops::RangeInclusive;

/// A legal cell with at least `entries` schedule entries.
pub fn cell(random: &mut Random, entries: u32) -> Cell {
    let letters = within(random, &LETTERS);
    let mut nodes: Vec<Node> = (0..within(random, &NODES))
        .map(|_| node(random, letters))
        .collect();
    let transistors = (0..within(random, &TRANSISTORS))
        .map(|_| transistor(random, nodes.len()))
        .collect();
    let wanted = random.spread(entries, *ENTRIES.end());
    if wanted > 0 {
        let at = random.index(nodes.len());
        nodes[at].role = Role::Input;
    }
    let horizon = within(random, &HORIZONS).max(entries);
    let schedule = schedule(random, &nodes, letters, horizon, wanted);
    Cell {
        letters,
        horizon,
        nodes,
        transistors,
        schedule,
    }
}

/// A legal cell with the most node records, transistors and schedule entries.
pub fn largest(random: &mut Random) -> Cell {
    let mut cell = cell(random, *ENTRIES.end());
    let [nodes, transistors] = [NODES, TRANSISTORS].map(|counts| *counts.end() as usize);
    cell.nodes.resize(nodes, cell.nodes[0]);
    cell.transistors.resize(transistors, cell.transistors[0]);
    cell
}

/// Files of no bytes, about a header, the least and the most bytes that a cell has,
/// and far longer ones: legal cells and the largest, cut or with zeros behind them.
pub fn of_extreme_lengths(random: &mut Random) -> Vec<Vec<u8>> {
    let lengths = [
        0, 1, 15, 16, 47, 48, 49, 2_447, 2_448, 2_449, 2_464, 4_096, 4_097, 10_000, 70_000,
    ];
    let mut files = vec![];
    for length in lengths {
        let large = Layout::in_order(&largest(random)).file;
        for mut file in [layout(random, 0).file, large] {
            file.resize(length, 0);
            files.push(file);
        }
    }
    files
}

/// A legal cell with at least `entries` schedule entries, as a file; its records
/// are in any order.
pub fn layout(random: &mut Random, entries: u32) -> Layout {
    let cell = cell(random, entries);
    Layout::new(&cell, &places(random, cell.records()))
}

/// Where the records go: in order, backwards or shuffled.
pub fn places(random: &mut Random, records: usize) -> Vec<usize> {
    let mut places: Vec<usize> = (1..=records).collect();
    match random.below(8) {
        0 => {}
        1 => places.reverse(),
        _ => random.shuffle(&mut places),
    }
    places
}

fn within(random: &mut Random, range: &RangeInclusive<u32>) -> u32 {
    random.spread(*range.start(), *range.end())
}

/// Any source in a cell of so many letters.
pub fn source(random: &mut Random, letters: u32) -> Source {
    let byte = random.between(0, 1 + 2 * letters) as u8;
    Source::from_byte(byte, letters).expect("a source byte is below 2 + 2 K")
}

fn node(random: &mut Random, letters: u32) -> Node {
    let role = match random.one_in(3) {
        true => Role::Input,
        false => Role::Inner {
            capacitance: within(random, &CAPACITANCES) as u16,
        },
    };
    let start = source(random, letters);
    Node { role, start }
}

fn transistor(random: &mut Random, nodes: usize) -> Transistor {
    let numbers = FIRST_NODE + nodes;
    let one = random.index(numbers);
    let other = (one + 1 + random.index(numbers - 1)) % numbers;
    Transistor {
        channel: random.pick(&[Channel::N, Channel::P]),
        gate: random.index(numbers) as u8,
        ends: [one as u8, other as u8],
        resistance: within(random, &RESISTANCES),
    }
}

/// A rising schedule of `wanted` entries, or of as many as there can be. Its
/// times lie in a window, which is often narrow.
fn schedule(
    random: &mut Random,
    nodes: &[Node],
    letters: u32,
    horizon: u32,
    wanted: u32,
) -> Vec<Entry> {
    let inputs: Vec<u8> = (FIRST_NODE..)
        .zip(nodes)
        .filter(|(_, node)| node.role == Role::Input)
        .map(|(number, _)| number as u8)
        .collect();
    let many = inputs.len() as u32;
    if wanted == 0 || many == 0 {
        return Vec::new();
    }
    let narrowest = wanted.div_ceil(many).min(horizon);
    let window = random.spread(narrowest, horizon);
    let first = random.spread(1, horizon - window + 1);
    let moments = u64::from(window) * u64::from(many);
    let count = u64::from(wanted).min(moments) as usize;
    let at_moment = |moment: u64| Entry {
        time: first + (moment / u64::from(many)) as u32,
        node: inputs[(moment % u64::from(many)) as usize],
        source: Source::Low,
    };
    let mut entries: Vec<Entry> = random
        .distinct(count, moments)
        .into_iter()
        .map(at_moment)
        .collect();
    for entry in &mut entries {
        entry.source = source(random, letters);
    }
    entries
}
