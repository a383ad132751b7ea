//! Functions of chosen letters whose counts are known without counting.

use crate::functions::Table;

/// When a function is 1; else it is 0.
#[derive(Clone, Copy, Debug)]
pub enum Kind {
    /// All of its letters are 1.
    All,
    /// At least one of its letters is 1.
    Any,
    /// An odd number of its letters are 1.
    Odd,
}

/// A function that depends on each letter of a set and on no other.
#[derive(Clone, Copy, Debug)]
pub struct Counted {
    /// How many letters there are.
    pub letters: u32,
    /// Its own letters: bit k is letter k.
    pub set: u32,
    pub kind: Kind,
}

/// Where a function leaves letters out.
#[derive(Clone, Copy, Debug, Default)]
pub struct Skipped {
    /// Before its first letter.
    pub top: bool,
    /// Between its first letter and its last.
    pub middle: bool,
    /// Behind its last letter.
    pub end: bool,
}

impl Counted {
    /// The functions of each set of so many letters.
    pub fn all(letters: u32) -> impl Iterator<Item = Counted> {
        (0..1 << letters).flat_map(move |set| {
            [Kind::All, Kind::Any, Kind::Odd].map(|kind| Counted { letters, set, kind })
        })
    }

    /// A table that holds it alone, and its entry.
    pub fn stored(&self) -> (Table, u32) {
        let number = |pattern: u32| {
            let ones = (pattern & self.set).count_ones();
            u32::from(match self.kind {
                Kind::All => ones == self.set.count_ones(),
                Kind::Any => ones > 0,
                Kind::Odd => ones % 2 == 1,
            })
        };
        let numbers: Vec<u32> = (0..1 << self.letters).map(number).collect();
        let mut table = Table::fresh(self.letters);
        let entry = table.store(&numbers);
        (table, entry)
    }

    /// At how many patterns it is 1.
    pub fn count(&self) -> u32 {
        let patterns = 1 << self.letters;
        let share = patterns >> self.set.count_ones();
        match self.kind {
            Kind::All => share,
            Kind::Any => patterns - share,
            Kind::Odd if self.set == 0 => 0,
            Kind::Odd => patterns / 2,
        }
    }

    /// Where it leaves letters out; nowhere if it has none of its own.
    pub fn skipped(&self) -> Skipped {
        if self.set == 0 {
            return Skipped::default();
        }
        let first = self.set.trailing_zeros();
        let last = self.set.ilog2();
        Skipped {
            top: first > 0,
            middle: last - first >= self.set.count_ones(),
            end: last + 1 < self.letters,
        }
    }
}
