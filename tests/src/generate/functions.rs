//! Random functions of the letters, and sound tables of all sizes.

use crate::functions::{Entry, Table, FIRST, NEVER};
use crate::random::Random;
use std::collections::HashSet;

/// A number that a function may take: often 0, 1 or never, or close to the ends
/// of what there is.
pub fn number(random: &mut Random) -> u32 {
    match random.below(10) {
        0..=2 => random.between(0, 1),
        3 => NEVER,
        4 => random.between(NEVER - 4, NEVER),
        5 => random.between(1, 1_000_000),
        6 => random.word(),
        7 => NEVER / 2 - 2 + random.between(0, 4),
        _ => random.spread(0, 100),
    }
}

/// A function of so many letters, as the list of its numbers.
pub fn function(random: &mut Random, letters: u32) -> Vec<u32> {
    let end = 1 << letters;
    let numbers: Vec<u32> = match random.below(5) {
        0 | 1 => vec![0, 1],
        2 => vec![1, 0],
        _ => (0..random.between(2, 6)).map(|_| number(random)).collect(),
    };
    // Letters outside the mask make no difference.
    let mask = match random.below(3) {
        0 => end - 1,
        1 => random.index(end),
        _ => (1 << random.below(12)) & (end - 1),
    };
    let kind = random.below(5);
    let common = random.below(10);
    let seed = random.bits();
    let at = |pattern: usize| match (pattern & mask, kind) {
        // Whether all the letters are 1.
        (letters, 0) => numbers[usize::from(letters == mask)],
        // How many letters are 1.
        (letters, 1) => numbers[letters.count_ones() as usize % numbers.len()],
        // Another number at each pattern.
        (letters, 2) if numbers.len() > 2 => numbers[0].wrapping_add(letters as u32),
        // One number that is more or less common than the others.
        (letters, _) => {
            let mut random = Random::of_case(seed, letters as u64);
            match random.below(10) < common {
                true => numbers[0],
                false => random.pick(&numbers),
            }
        }
    };
    (0..end).map(at).collect()
}

/// The entries of a sound table of so many letters; `count`, at least 3, of them.
pub fn table(random: &mut Random, letters: u32, count: usize) -> Vec<Entry> {
    let mut entries = match random.one_in(3) {
        true => scattered(random, letters, count),
        false => stored(random, letters, count),
    };
    let mut present: HashSet<Entry> = entries.iter().copied().collect();
    while entries.len() < count {
        let entry = Entry::terminal(random.word());
        entries.extend(present.insert(entry).then_some(entry));
    }
    entries
}

/// At most `count` entries that come of storing functions.
fn stored(random: &mut Random, letters: u32, count: usize) -> Vec<Entry> {
    let mut table = Table::fresh(letters);
    for _ in 0..count {
        if table.entries().len() >= count {
            break;
        }
        table.store(&function(random, letters));
    }
    // The beginning of a sound table is sound.
    let end = table.entries().len().min(count);
    table.entries()[..end].to_vec()
}

/// At most `count` entries in any order that the conditions allow.
fn scattered(random: &mut Random, letters: u32, count: usize) -> Vec<Entry> {
    let mut entries = FIRST.to_vec();
    let mut present: HashSet<Entry> = FIRST.into();
    // A small share of terminals makes tall tables, a large one wide ones.
    let terminals = 1 + random.below(8);
    for _ in 0..2 * count {
        if entries.len() == count {
            break;
        }
        let entry = match random.below(16) < terminals {
            true => Some(Entry::terminal(number(random))),
            false => branch(random, &entries, letters),
        };
        entries.extend(entry.filter(|&entry| present.insert(entry)));
    }
    entries
}

/// A branch that may follow these entries, unless the parts allow none.
fn branch(random: &mut Random, entries: &[Entry], letters: u32) -> Option<Entry> {
    let [low, high] = [(); 2].map(|()| match random.one_in(3) {
        true => random.index(FIRST.len()),
        false => random.index(entries.len()),
    });
    let end = letters.min(entries[low].letter).min(entries[high].letter);
    (low != high && end > 0).then(|| {
        let letter = match random.one_in(2) {
            true => end - 1,
            false => random.between(0, end - 1),
        };
        Entry::branch(letter, low as u32, high as u32)
    })
}
