//! Random calls on a table: most of them legal, and lengths at which the result
//! just fits or just does not.

use crate::functions::{Call, Columns, Entry, Operation, FIRST, LENGTHS, MOST_LETTERS};
use crate::random::Random;

/// A call on the sound table of these entries and so many letters.
pub fn call(random: &mut Random, entries: &[Entry], letters: u32) -> Call {
    let letters = match random.below(40) {
        0 => random.pick(&[13, 14, 31, 32, 44, 64, u32::MAX]),
        1 => random.spread(MOST_LETTERS + 1, u32::MAX),
        2..=4 => random.between(letters, MOST_LETTERS),
        5 => random.between(0, letters),
        _ => letters,
    };
    Call {
        letters,
        used: entries.len() as u32,
        operation: operation(random, entries, letters),
    }
}

fn operation(random: &mut Random, entries: &[Entry], letters: u32) -> Operation {
    let used = entries.len();
    match random.below(14) {
        0..=3 => Operation::Choose {
            selector: zero_or_one(random, entries),
            first: entry(random, used),
            second: entry(random, used),
        },
        4..=5 => Operation::Smaller {
            first: entry(random, used),
            second: entry(random, used),
        },
        6..=8 => Operation::Sum {
            first: entry(random, used),
            second: entry(random, used),
        },
        9..=11 => fix(random, entries, letters),
        12 => Operation::Number {
            function: entry(random, used),
            pattern: pattern(random, letters),
        },
        _ => Operation::Count {
            function: zero_or_one(random, entries),
        },
    }
}

/// Fixes a letter, often one below the function's root.
fn fix(random: &mut Random, entries: &[Entry], letters: u32) -> Operation {
    let function = entry(random, entries.len());
    let root = entries.get(function as usize).map_or(0, |root| root.letter);
    let last = letters.max(1) - 1;
    Operation::Fix {
        function,
        letter: match random.below(16) {
            0 => random.spread(letters, u32::MAX),
            1..=10 if root < last => random.between(root + 1, last),
            _ => random.between(0, last),
        },
        bit: match random.one_in(16) {
            true => random.spread(2, u32::MAX),
            false => random.between(0, 1),
        },
    }
}

/// An entry of a table with so many; rarely one that it does not have.
fn entry(random: &mut Random, used: usize) -> u32 {
    let last = used as u32 - 1;
    match random.below(32) {
        0 => random.spread(last + 1, u32::MAX),
        1..=4 => random.index(FIRST.len()) as u32,
        5..=14 => last - random.spread(0, last.min(12)),
        _ => random.between(0, last),
    }
}

/// An entry whose function is 0 or 1 everywhere; at times any entry.
fn zero_or_one(random: &mut Random, entries: &[Entry]) -> u32 {
    if random.one_in(8) {
        return entry(random, entries.len());
    }
    let mut is = Vec::with_capacity(entries.len());
    for entry in entries {
        is.push(match entry.is_terminal() {
            true => entry.low <= 1,
            false => is[entry.low as usize] && is[entry.high as usize],
        });
    }
    let found: Vec<u32> = (0..)
        .zip(&is)
        .filter(|(_, is)| **is)
        .map(|(at, _)| at)
        .collect();
    match random.one_in(3) {
        true => found[found.len() - 1 - random.index(found.len().min(8))],
        false => random.pick(&found),
    }
}

/// A pattern of so many letters; at times one that there is not.
pub fn pattern(random: &mut Random, letters: u32) -> u32 {
    let end = 1 << letters.min(MOST_LETTERS);
    match random.one_in(8) {
        true => random.spread(end, u32::MAX),
        false => random.between(0, end - 1),
    }
}

/// A length for this call's table, often about what the call needs.
pub fn length(random: &mut Random, entries: &[Entry], call: &Call, usual: usize) -> usize {
    let used = entries.len();
    let length = match random.below(16) {
        0..=3 => need(entries, call),
        4..=8 => need(entries, call) - 1,
        9 => need(entries, call) + 1,
        10 => used,
        11 => used + random.index(20),
        _ => usual,
    };
    length.clamp(used, *LENGTHS.end())
}

/// How many entries the table holds after the call, if it has room for them.
fn need(entries: &[Entry], call: &Call) -> usize {
    // A function has at most so many entries.
    let most = 2 << call.letters.min(MOST_LETTERS);
    let room = (entries.len() + most).min(*LENGTHS.end());
    let answer = call.answer(&mut Columns::of(entries, room));
    answer.map_or(entries.len(), |answer| answer.used as usize)
}
