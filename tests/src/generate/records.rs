//! Run records that are damaged, or that are sound without coming from a run; and
//! what a working table may hold before a call.

use super::unsound::resize;
use crate::cell_file::{Cell, Role};
use crate::functions::{Columns, Entry, NEVER};
use crate::random::Random;
use crate::simulator::calls::{NEXT, RECORD, TIME, USED, VALUES, WORKING};

/// The least and the largest number of each entry's function; never counts for
/// the largest only where there is no other.
fn bounds(entries: &[Entry]) -> Vec<(u32, u32)> {
    let mut bounds: Vec<(u32, u32)> = Vec::with_capacity(entries.len());
    for entry in entries {
        bounds.push(match entry.is_terminal() {
            true => (entry.low, entry.low),
            false => {
                let (low, high) = (bounds[entry.low as usize], bounds[entry.high as usize]);
                let most = match (low.1, high.1) {
                    (NEVER, most) | (most, NEVER) => most,
                    (one, other) => one.max(other),
                };
                (low.0.min(high.0), most)
            }
        });
    }
    bounds
}

/// The entries whose functions are 0 or 1 everywhere.
fn values(entries: &[Entry]) -> Vec<u32> {
    let mut is = Vec::with_capacity(entries.len());
    for entry in entries {
        is.push(match entry.is_terminal() {
            true => entry.low <= 1,
            false => is[entry.low as usize] && is[entry.high as usize],
        });
    }
    (0..)
        .zip(is)
        .filter_map(|(at, is)| is.then_some(at))
        .collect()
}

/// The entries whose functions are times from `first` to `last` or never.
fn times(entries: &[Entry], first: u32, last: u32) -> Vec<u32> {
    let allowed = |(least, most): (u32, u32)| least >= first && (most <= last || most == NEVER);
    (0..)
        .zip(bounds(entries))
        .filter_map(|(at, bounds)| allowed(bounds).then_some(at))
        .collect()
}

/// A sound record of a cell in the table of these entries, at some time not after
/// its horizon: any values, and any next changes that lie ahead.
pub fn sound(random: &mut Random, cell: &Cell, entries: &[Entry]) -> Vec<u32> {
    let horizon = cell.horizon;
    let now = match random.below(4) {
        0 => 0,
        1 => horizon - random.spread(0, horizon.min(3)),
        _ => random.spread(0, horizon),
    };
    let values = values(entries);
    let times = times(entries, now + 1, horizon);
    let mut record: Vec<u32> = (0..RECORD).map(|_| random.word()).collect();
    record[TIME] = now;
    record[USED] = entries.len() as u32;
    for (at, node) in cell.nodes.iter().enumerate() {
        record[VALUES + at] = random.pick(&values);
        record[NEXT + at] = match node.role {
            Role::Inner { .. } if !random.one_in(4) => random.pick(&times),
            _ => 2,
        };
    }
    record
}

/// A number that may be wrong at a place of a record, where `old` stands and the
/// table holds so many entries.
pub fn wrong(random: &mut Random, old: u32, used: u32) -> u32 {
    match random.below(10) {
        0 => random.between(0, 2),
        1 => old.wrapping_add(1),
        2 => old.wrapping_sub(1),
        3 => used,
        4 => used - 1,
        5 => random.spread(used, u32::MAX),
        6 => random.word(),
        _ => random.between(0, used - 1),
    }
}

/// Changes one to three places of a record; often it is unsound then.
pub fn damage(random: &mut Random, record: &mut [u32], cell: &Cell, used: u32) {
    let nodes = cell.nodes.len();
    for _ in 0..random.between(1, 3) {
        let at = match random.below(8) {
            0 => TIME,
            1 => USED,
            2..=4 => VALUES + random.index(nodes),
            5 | 6 => NEXT + random.index(nodes),
            _ => random.index(RECORD),
        };
        record[at] = match at {
            TIME if random.one_in(2) => random.spread(0, cell.horizon + 1),
            TIME => cell.horizon + random.between(0, 2),
            _ => wrong(random, record[at], used),
        };
    }
}

/// A record of a wrong length, or an answer.
pub fn misfit(random: &mut Random, column: &mut Vec<u32>) {
    let right = column.len();
    let wrong = match random.below(5) {
        0 => 0,
        1 => right - 1,
        2 => right + 1,
        3 => random.index(right),
        _ => right + 1 + random.index(100),
    };
    column.resize(wrong, random.word());
}

/// A working table of a length, with anything in it.
pub fn working(random: &mut Random, length: usize) -> Columns {
    let mut columns = Columns::of(&[], length);
    let content = random.below(4);
    let number = random.word();
    for column in columns.each_mut() {
        match content {
            0 => {}
            1 => column.fill(number),
            2 => column.fill(u32::MAX),
            _ => column.fill_with(|| random.word()),
        }
    }
    columns
}

/// A length that a working table may have, mostly the shortest.
pub fn working_length(random: &mut Random) -> usize {
    match random.below(64) {
        0 | 1 => *WORKING.end(),
        2 => random.spread(4_096, 65_536) as usize,
        3..=15 => WORKING.start() + random.index(100),
        _ => *WORKING.start(),
    }
}

/// Gives a working table lengths that it may not have.
pub fn misfit_working(random: &mut Random, columns: &mut Columns) {
    let filler = random.word();
    let all = match random.below(6) {
        0 => Some(WORKING.start() - 1),
        1 => Some(WORKING.end() + 1),
        2 => Some(random.index(*WORKING.start())),
        _ => None,
    };
    let other = match random.below(3) {
        0 => columns.letter.len() + 1,
        1 => columns.letter.len() - 1,
        _ => random.index(*WORKING.start()),
    };
    resize(random, columns, all, other, filler);
}
