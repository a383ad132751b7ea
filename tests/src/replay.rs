//! What is needed to run a failed case again.
//!
//! `STS_SEED` sets the seed, `STS_INDEX` picks one case of it, and `STS_TRACE`
//! names each case before it is run, for a case that ends the whole process.

use crate::generate::Case;
use std::env;
use std::fmt::Write;
use std::ops::Range;

/// The seed where none is set.
const SEED: u64 = 1;

/// The cases that a test runs.
#[derive(Clone, Debug)]
pub struct Cases {
    seed: u64,
    indices: Range<u64>,
    /// All cases of the test are run, so that it may hold their counts to
    /// something.
    pub complete: bool,
    trace: bool,
}

impl Cases {
    /// The first `count` cases of the seed, or the one that is picked.
    pub fn first(count: u64) -> Cases {
        let picked = setting("STS_INDEX");
        Cases {
            seed: setting("STS_SEED").unwrap_or(SEED),
            indices: picked.map_or(0..count, |index| index..index + 1),
            complete: picked.is_none(),
            trace: env::var_os("STS_TRACE").is_some(),
        }
    }

    /// Draws the file of each case and hands it over.
    pub fn for_each(&self, mut check: impl FnMut(&Case)) {
        self.for_each_index(|seed, index| check(&Case::draw(seed, index)));
    }

    /// Hands over the seed and the index of each case.
    pub fn for_each_index(&self, mut check: impl FnMut(u64, u64)) {
        for index in self.indices.clone() {
            if self.trace {
                eprintln!("seed {} index {index}", self.seed);
            }
            check(self.seed, index);
        }
    }
}

fn setting(name: &str) -> Option<u64> {
    let text = env::var(name).ok()?;
    let number = text.parse();
    Some(number.unwrap_or_else(|_| panic!("{name} is not a number: {text}")))
}

/// Bytes in hexadecimal, two digits each.
pub fn hex(bytes: &[u8]) -> String {
    bytes.iter().fold(String::new(), |mut text, byte| {
        write!(text, "{byte:02x}").expect("a string takes all text");
        text
    })
}
