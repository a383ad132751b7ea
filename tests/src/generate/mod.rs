//! Makers of cases: legal cells of all sizes, files that are damaged at random or
//! for one refusal, function tables of all sizes, damaged ones, and calls on them.

pub mod calls;
pub mod counted;
pub mod damage;
pub mod faults;
mod fights;
pub mod functions;
pub mod legal;
pub mod live;
pub mod records;
mod shifter;
pub mod unsound;

use crate::cell_file::{Layout, KINDS, RECORD};
use crate::random::Random;
use crate::refusal::Refusal;
use crate::replay::hex;
use std::fmt;

/// How the file of a case was made.
#[derive(Clone, Copy, Debug, PartialEq, Eq)]
pub enum Making {
    /// A legal cell.
    Legal,
    /// A legal cell with one to three bytes changed.
    Bytes,
    /// A legal cell, cut or made longer.
    Length,
    /// Random bytes.
    Noise,
    /// A legal header and a full length before records of random bytes.
    Records,
    /// A legal cell damaged so that this is the refusal.
    Damaged(Refusal),
    /// A legal cell damaged for two refusals at once.
    Twice(Refusal, Refusal),
}

/// One file to be read, and where it came from.
#[derive(Clone, Debug)]
pub struct Case {
    pub seed: u64,
    pub index: u64,
    pub making: Making,
    pub file: Vec<u8>,
}

impl Case {
    /// The case of a seed with this index.
    pub fn draw(seed: u64, index: u64) -> Case {
        let mut random = Random::of_case(seed, index);
        let making = making(&mut random);
        let file = make(&mut random, making);
        Case {
            seed,
            index,
            making,
            file,
        }
    }

    /// The refusal that the file was made for, if it was made for just one.
    pub fn intended(&self) -> Option<Result<(), Refusal>> {
        match self.making {
            Making::Legal => Some(Ok(())),
            Making::Damaged(refusal) => Some(Err(refusal)),
            _ => None,
        }
    }
}

impl fmt::Display for Case {
    fn fmt(&self, out: &mut fmt::Formatter<'_>) -> fmt::Result {
        write!(
            out,
            "seed {} index {} ({:?}), {} bytes: {}",
            self.seed,
            self.index,
            self.making,
            self.file.len(),
            hex(&self.file)
        )
    }
}

fn making(random: &mut Random) -> Making {
    match random.below(20) {
        0..=4 => Making::Legal,
        5..=8 => Making::Bytes,
        9 => Making::Length,
        10 => Making::Noise,
        11..=12 => Making::Records,
        13..=17 => Making::Damaged(random.pick(&damage::REFUSALS)),
        _ => {
            let mut refusals = damage::REFUSALS;
            random.shuffle(&mut refusals);
            Making::Twice(refusals[0], refusals[1])
        }
    }
}

fn make(random: &mut Random, making: Making) -> Vec<u8> {
    match making {
        Making::Legal => legal::layout(random, 0).file,
        Making::Bytes => changed_bytes(random),
        Making::Length => changed_length(random),
        Making::Noise => noise(random),
        Making::Records => random_records(random),
        Making::Damaged(refusal) => damage::damaged(random, refusal).file,
        Making::Twice(one, other) => damage::damaged_twice(random, one, other).file,
    }
}

fn changed_bytes(random: &mut Random) -> Vec<u8> {
    let mut file = legal::layout(random, 0).file;
    for _ in 0..random.between(1, 3) {
        let at = match random.one_in(4) {
            true => random.index(RECORD),
            false => random.index(file.len()),
        };
        file[at] = match random.below(4) {
            0 => random.byte(),
            1 => file[at] ^ (1 << random.below(8)),
            2 => file[at].wrapping_add(1),
            _ => file[at].wrapping_sub(1),
        };
    }
    file
}

fn changed_length(random: &mut Random) -> Vec<u8> {
    let mut file = legal::layout(random, 0).file;
    let length = file.len();
    let new = match random.below(6) {
        0 => random.index(RECORD),
        1 => random.index(length),
        2 => length - 1,
        3 => length + random.index(2 * RECORD),
        4 => length + RECORD * (1 + random.index(4)),
        _ => RECORD * (1 + random.index(2 * length / RECORD)),
    };
    let filler = random.pick(&[0, 1, 2, 3, 255]);
    file.resize(new, filler);
    file
}

fn noise(random: &mut Random) -> Vec<u8> {
    let length = match random.one_in(2) {
        true => random.index(4 * RECORD),
        false => RECORD * random.index(160),
    };
    let most = random.spread(0, 255);
    let byte = |_| random.between(0, most) as u8;
    (0..length).map(byte).collect()
}

/// Random bytes after a legal header; often with legal links, so that the
/// fields are reached.
fn random_records(random: &mut Random) -> Vec<u8> {
    let layout = legal::layout(random, 0);
    let most = random.spread(0, 255);
    let linked = random.one_in(2);
    let mut file = layout.file.clone();
    for byte in &mut file[RECORD..] {
        *byte = random.between(0, most) as u8;
    }
    if linked {
        restore_links(&layout, &mut file);
    }
    file
}

fn restore_links(layout: &Layout, file: &mut [u8]) {
    for kind in KINDS {
        for (position, &record) in layout.chain(kind).iter().enumerate() {
            let link = layout.link_at(kind, position + 1);
            let start = RECORD * record;
            file[link..link + 2].copy_from_slice(&layout.file[link..link + 2]);
            file[start..start + 2].copy_from_slice(&layout.file[start..start + 2]);
        }
    }
}
