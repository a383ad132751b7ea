//! Damage for one refusal: each maker takes a legal file and leaves one that is
//! refused with its number and with no other.

use super::legal;
use crate::cell_file::{
    record_at, Kind, Layout, ENTRIES, FIRST_NODE, HORIZONS, KINDS, LETTERS, NODES, RECORD,
    RESISTANCES, TRANSISTORS,
};
use crate::random::Random;
use crate::refusal::Refusal;

/// The refusals that a file can earn.
pub const REFUSALS: [Refusal; 5] = [
    Refusal::Length,
    Refusal::Header,
    Refusal::Chain,
    Refusal::Record,
    Refusal::Order,
];

/// A file that is refused for this.
pub fn damaged(random: &mut Random, refusal: Refusal) -> Layout {
    let mut layout = legal::layout(random, entries_for(refusal));
    apply(random, &mut layout, refusal);
    layout
}

/// A file damaged for two different refusals. A length is changed last, since the
/// records may be gone then.
pub fn damaged_twice(random: &mut Random, one: Refusal, other: Refusal) -> Layout {
    let entries = entries_for(one).max(entries_for(other));
    let mut layout = legal::layout(random, entries);
    apply(random, &mut layout, one.max(other));
    apply(random, &mut layout, one.min(other));
    layout
}

/// How many entries a schedule needs to be damaged so.
fn entries_for(refusal: Refusal) -> u32 {
    match refusal {
        Refusal::Order => 2,
        _ => 0,
    }
}

/// Damages a legal file so that it is refused for this. A schedule whose order is
/// to be damaged has two entries at least.
pub fn apply(random: &mut Random, layout: &mut Layout, refusal: Refusal) {
    match refusal {
        Refusal::Length => length(random, layout),
        Refusal::Header => header(random, layout),
        Refusal::Chain => chain(random, layout),
        Refusal::Record => record(random, layout),
        Refusal::Order => order(random, layout),
        other => unreachable!("no file is refused {}", other.number()),
    }
}

/// Another number than `old` from `low` to `high`.
fn other_than(random: &mut Random, old: u32, low: u32, high: u32) -> u32 {
    let drawn = random.spread(low, high);
    match drawn == old {
        true if old == high => low,
        true => old + 1,
        false => drawn,
    }
}

fn length(random: &mut Random, layout: &mut Layout) {
    let records = layout.records() as u32;
    let whole = layout.file.len() as u32;
    match random.below(6) {
        0 => layout.file.truncate(random.index(RECORD)),
        1 => layout.file.truncate(layout.file.len() - 1),
        2 => layout.file.push(random.pick(&[0, 1, 255])),
        3 => {
            let new = other_than(random, records, 0, 160) as usize;
            layout.file.resize(RECORD * (1 + new), 0);
        }
        4 => {
            let new = other_than(random, whole, RECORD as u32, 4096) as usize;
            layout.file.resize(new, 0);
        }
        _ => {
            let (at, range) = random.pick(&[(0, &NODES), (1, &TRANSISTORS), (2, &ENTRIES)]);
            let old = u32::from(layout.file[at]);
            layout.file[at] = other_than(random, old, *range.start(), *range.end()) as u8;
        }
    }
}

fn header(random: &mut Random, layout: &mut Layout) {
    match random.below(6) {
        0 => {
            let at = random.index(2);
            count(random, layout, at, 0);
        }
        1..=3 => {
            let (at, range) = random.pick(&[(0, &NODES), (1, &TRANSISTORS), (2, &ENTRIES)]);
            let wrong = random.spread(range.end() + 1, 255) as u8;
            count(random, layout, at, wrong);
        }
        4 => layout.file[3] = random.spread(LETTERS.end() + 1, 255) as u8,
        _ if random.one_in(2) => {
            let horizon = outside(random, *HORIZONS.end());
            layout.put(4, &horizon.to_le_bytes());
        }
        _ => not_zero(random, layout, &[14, 15]),
    }
}

/// Sets a count; often the file is then as long as the wrong count says.
fn count(random: &mut Random, layout: &mut Layout, at: usize, wrong: u8) {
    layout.file[at] = wrong;
    if random.one_in(2) {
        let records: usize = layout.file[..3].iter().copied().map(usize::from).sum();
        layout.file.resize(RECORD * (1 + records), 0);
    }
}

/// A number that is 0 or above `most`.
fn outside(random: &mut Random, most: u32) -> u32 {
    match random.one_in(3) {
        true => 0,
        false => random.spread(most + 1, u32::MAX),
    }
}

/// Sets one of these bytes to something.
fn not_zero(random: &mut Random, layout: &mut Layout, places: &[usize]) {
    let at = random.pick(places);
    layout.file[at] = random.spread(1, 255) as u8;
}

/// Changes a link, whichever way, or a kind: no chain survives that.
fn chain(random: &mut Random, layout: &mut Layout) {
    if random.one_in(4) {
        return kind(random, layout);
    }
    let chain = random.pick(&KINDS);
    let position = random.index(layout.chain(chain).len() + 1);
    let at = layout.link_at(chain, position);
    let old = u32::from(layout.get_u16(at));
    let records = layout.records() as u32;
    let new = match random.below(5) {
        0 if old != 0 => 0,
        1 => other_than(random, old, records + 1, 65_535),
        2 => old + 256 * random.between(1, 255),
        _ => other_than(random, old, 0, records),
    };
    layout.put(at, &(new as u16).to_le_bytes());
}

fn kind(random: &mut Random, layout: &mut Layout) {
    let at = record_at(1 + random.index(layout.records()));
    let old = u32::from(layout.file[at]);
    layout.file[at] = other_than(random, old, 0, 255) as u8;
}

/// Makes a field of some record wrong.
fn record(random: &mut Random, layout: &mut Layout) {
    let kinds = match layout.chain(Kind::Entry) {
        [] => &KINDS[..2],
        _ => &KINDS[..],
    };
    let kind = random.pick(kinds);
    let place = random.pick(layout.chain(kind));
    let at = record_at(place);
    match kind {
        Kind::Node => node(random, layout, at),
        Kind::Transistor => transistor(random, layout, at),
        Kind::Entry => entry(random, layout, at),
    }
}

/// A source byte that names a letter that the cell has not.
fn source(random: &mut Random, layout: &mut Layout, at: usize) {
    let letters = u32::from(layout.file[3]).min(*LETTERS.end());
    layout.file[at] = random.spread(2 + 2 * letters, 255) as u8;
}

fn unnamed(random: &mut Random, layout: &mut Layout, at: usize, bytes: &[usize]) {
    let places: Vec<usize> = bytes.iter().map(|byte| at + byte).collect();
    not_zero(random, layout, &places);
}

fn node(random: &mut Random, layout: &mut Layout, at: usize) {
    match random.below(5) {
        0 => layout.file[at + 4] = random.spread(2, 255) as u8,
        1 => layout.file[at + 4] ^= 1,
        2 => source(random, layout, at + 5),
        3 => match layout.get_u16(at + 6) {
            0 => not_zero(random, layout, &[at + 6, at + 7]),
            _ => layout.put(at + 6, &[0, 0]),
        },
        _ => unnamed(random, layout, at, &[1, 8, 9, 10, 11, 12, 13, 14, 15]),
    }
}

fn transistor(random: &mut Random, layout: &mut Layout, at: usize) {
    let beyond = (FIRST_NODE + layout.chain(Kind::Node).len()) as u32;
    match random.below(5) {
        0 => layout.file[at + 4] = random.spread(2, 255) as u8,
        1 => {
            let field = at + random.pick(&[5, 6, 7]);
            layout.file[field] = random.spread(beyond, 255) as u8;
        }
        2 => {
            let (from, to) = random.pick(&[(at + 6, at + 7), (at + 7, at + 6)]);
            layout.file[to] = layout.file[from];
        }
        3 => {
            let resistance = outside(random, *RESISTANCES.end());
            layout.put(at + 8, &resistance.to_le_bytes());
        }
        _ => unnamed(random, layout, at, &[1, 12, 13, 14, 15]),
    }
}

fn entry(random: &mut Random, layout: &mut Layout, at: usize) {
    match random.below(4) {
        0 => layout.file[at + 4] = no_input(random, layout),
        1 => source(random, layout, at + 5),
        2 => {
            let horizon = layout.get_u32(4).min(*HORIZONS.end());
            let time = outside(random, horizon);
            layout.put(at + 8, &time.to_le_bytes());
        }
        _ => unnamed(random, layout, at, &[1, 6, 7, 12, 13, 14, 15]),
    }
}

/// The number of a rail, of an inner node or of no node.
fn no_input(random: &mut Random, layout: &Layout) -> u8 {
    let nodes = layout.chain(Kind::Node);
    let beyond = FIRST_NODE + nodes.len();
    let at = random.index(nodes.len());
    let inner = layout.file[record_at(nodes[at]) + 4] == 0;
    match random.below(3) {
        0 if inner => (FIRST_NODE + at) as u8,
        1 => random.index(FIRST_NODE) as u8,
        _ => random.spread(beyond as u32, 255) as u8,
    }
}

/// Makes two entries of the schedule, which has at least two, fall or stay.
fn order(random: &mut Random, layout: &mut Layout) {
    let entries = layout.chain(Kind::Entry);
    let late = 1 + random.index(entries.len() - 1);
    let early = random.index(late);
    let (first, second) = (record_at(entries[early]), record_at(entries[late]));
    let (before, after) = (key(layout, first), key(layout, second));
    match random.below(4) {
        0 => {
            put_key(layout, first, after);
            put_key(layout, second, before);
        }
        1 => put_key(layout, first, after),
        2 => put_key(layout, second, before),
        _ => {
            let time = random.spread(1, before.0);
            put_key(layout, second, (time, before.1));
        }
    }
}

/// The time and the node of the entry at a byte.
fn key(layout: &Layout, at: usize) -> (u32, u8) {
    (layout.get_u32(at + 8), layout.file[at + 4])
}

fn put_key(layout: &mut Layout, at: usize, (time, node): (u32, u8)) {
    layout.put(at + 8, &time.to_le_bytes());
    layout.file[at + 4] = node;
}
