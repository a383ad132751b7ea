//! Tables that are damaged: so that one condition alone does not hold, or at
//! random.

use super::functions::number;
use crate::functions::{Call, Columns, Condition, Entry, Table, FIRST, TERMINAL};
use crate::random::Random;

/// How often one condition is tried to be broken alone.
const TRIES: usize = 6;

/// Breaks this condition of a sound table, and no other. Gives false, and leaves
/// all as it was, where that was tried in vain: not every table allows it.
pub fn break_alone(
    random: &mut Random,
    condition: Condition,
    columns: &mut Columns,
    call: &mut Call,
) -> bool {
    for _ in 0..TRIES {
        let mut damaged = columns.clone();
        let mut used = call.used;
        break_one(random, condition, &mut damaged, &mut used, call.letters);
        let broken = Table::read(&damaged, used, call.letters).err();
        if broken.is_some_and(|broken| broken.into_iter().eq([condition])) {
            *columns = damaged;
            call.used = used;
            return true;
        }
    }
    false
}

/// Breaks a condition of a sound table, and perhaps others.
fn break_one(
    random: &mut Random,
    condition: Condition,
    columns: &mut Columns,
    used: &mut u32,
    letters: u32,
) {
    match condition {
        Condition::Used => used_count(random, columns, used),
        Condition::First => first(random, columns, letters),
        Condition::Rest => rest(random, columns, *used),
        _ => {
            let at = place(random, columns, used);
            let bad = bad_entry(random, condition, columns, at, letters);
            columns.put(at, bad);
        }
    }
}

/// A used count below 3, perhaps with nothing beyond it, or above the length.
fn used_count(random: &mut Random, columns: &mut Columns, used: &mut u32) {
    let length = columns.letter.len();
    if random.one_in(2) {
        *used = random.spread(length as u32 + 1, u32::MAX);
        return;
    }
    *used = random.between(0, 2);
    if random.one_in(2) {
        for at in *used as usize..length {
            columns.put(at, Entry::default());
        }
    }
}

/// Another number in the first three entries, two of them exchanged, or a branch
/// among them.
fn first(random: &mut Random, columns: &mut Columns, letters: u32) {
    let at = random.index(FIRST.len());
    match random.below(4) {
        0 => columns.low[at] = number(random),
        1 => {
            let other = (at + random.index(2) + 1) % FIRST.len();
            columns.put(at, FIRST[other]);
            columns.put(other, FIRST[at]);
        }
        2 => {
            let letter = random.spread(0, letters);
            let low = random.between(0, 1);
            columns.put(2, Entry::branch(letter, low, 1 - low));
        }
        _ => {
            let column = random.index(3);
            columns.each_mut()[column][at] = random.word();
        }
    }
}

/// A number past the used count.
fn rest(random: &mut Random, columns: &mut Columns, used: u32) {
    let last = columns.letter.len() as u32 - 1;
    if used <= last {
        let at = random.spread(used, last) as usize;
        let column = random.index(3);
        columns.each_mut()[column][at] = random.spread(1, u32::MAX);
    }
}

/// Where the bad entry goes: after the used ones if there is room, or over one of
/// them.
fn place(random: &mut Random, columns: &Columns, used: &mut u32) -> usize {
    let old = *used as usize;
    let room = old < columns.letter.len();
    if room && random.one_in(2) || old == FIRST.len() {
        *used += u32::from(room);
        old - usize::from(!room)
    } else {
        FIRST.len() + random.index(old - FIRST.len())
    }
}

/// An entry that breaks a condition at this place.
fn bad_entry(
    random: &mut Random,
    condition: Condition,
    columns: &Columns,
    at: usize,
    letters: u32,
) -> Entry {
    let earlier = random.index(at);
    let part = earlier as u32;
    let other = random.between(1, 2);
    let below = |random: &mut Random, end: u32| random.between(0, end.max(1) - 1);
    match condition {
        Condition::Terminal => Entry {
            high: random.spread(1, u32::MAX),
            ..Entry::terminal(number(random))
        },
        Condition::Letter => {
            let letter = random.spread(letters.min(TERMINAL - 1), TERMINAL - 1);
            mirrored(random, letter, 0, other)
        }
        Condition::Earlier => {
            let beyond = random.spread(at as u32, u32::MAX);
            let letter = below(random, letters);
            let other = match random.one_in(4) {
                true => random.spread(at as u32, u32::MAX),
                false => other,
            };
            mirrored(random, letter, beyond, other)
        }
        Condition::Different => {
            let letter = below(random, letters.min(columns.letter[earlier]));
            Entry::branch(letter, part, part)
        }
        Condition::Larger => {
            let least = columns.letter[earlier].min(letters);
            let letter = random.spread(least, letters);
            mirrored(random, letter, part, other)
        }
        _ => columns.entry(earlier),
    }
}

/// A branch with these parts, either of them low.
fn mirrored(random: &mut Random, letter: u32, one: u32, other: u32) -> Entry {
    match random.one_in(2) {
        true => Entry::branch(letter, one, other),
        false => Entry::branch(letter, other, one),
    }
}

/// Changes a table a little, or overwrites all of it. It may stay sound.
pub fn disturb(random: &mut Random, columns: &mut Columns, call: &mut Call) {
    let length = columns.letter.len();
    let used = (call.used as usize).clamp(1, length);
    match random.below(8) {
        0 => {
            let most = random.spread(0, u32::MAX);
            for column in columns.each_mut() {
                column.fill_with(|| random.between(0, most));
            }
        }
        1 => {
            let (one, other) = (random.index(used), random.index(used));
            let (first, second) = (columns.entry(one), columns.entry(other));
            columns.put(one, second);
            columns.put(other, first);
        }
        2 => call.used = random.spread(0, length as u32 + 1),
        3 => call.used = call.used.wrapping_add(random.pick(&[1, u32::MAX])),
        4 => {
            // Letters that only too large a K allows.
            let at = used - 1;
            columns.put(at, Entry::branch(random.between(12, 40), 0, 1));
            call.letters = random.between(11, 42);
        }
        _ => {
            for _ in 0..random.between(1, 3) {
                let column = random.index(3);
                let number = &mut columns.each_mut()[column][random.index(used)];
                *number = match random.below(4) {
                    0 => random.word(),
                    1 => random.spread(0, u32::MAX),
                    2 => number.wrapping_add(1),
                    _ => number.wrapping_sub(1),
                };
            }
        }
    }
}

/// Gives columns lengths that a table may not have.
pub fn misfit(random: &mut Random, columns: &mut Columns) {
    let filler = random.pick(&[0, 0, 1, u32::MAX]);
    let length = columns.letter.len();
    let all = match random.below(16) {
        0..=4 => Some(random.index(3)),
        5 => Some(65_537 + random.spread(0, 2_000) as usize),
        _ => None,
    };
    let other = match random.below(8) {
        0..=2 => length + 1,
        3..=5 => length - 1,
        6 => random.index(length),
        _ => length + 1 + random.index(100),
    };
    resize(random, columns, all, other, filler);
}

/// Gives `all` columns a length, or else one or two of them the length `other`.
pub(super) fn resize(
    random: &mut Random,
    columns: &mut Columns,
    all: Option<usize>,
    other: usize,
    filler: u32,
) {
    let picked = 1 + random.index(6);
    for (at, column) in columns.each_mut().into_iter().enumerate() {
        match all {
            Some(length) => column.resize(length, filler),
            None if picked >> at & 1 == 1 => column.resize(other, filler),
            None => {}
        }
    }
}
