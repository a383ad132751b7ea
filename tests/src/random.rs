//! A small generator of random numbers (splitmix64). The same seed gives the
//! same numbers on every machine.

/// A stream of random numbers.
#[derive(Clone, Debug)]
pub struct Random {
    state: u64,
}

const STEP: u64 = 0x9e37_79b9_7f4a_7c15;

fn mix(mut z: u64) -> u64 {
    z = (z ^ (z >> 30)).wrapping_mul(0xbf58_476d_1ce4_e5b9);
    z = (z ^ (z >> 27)).wrapping_mul(0x94d0_49bb_1331_11eb);
    z ^ (z >> 31)
}

impl Random {
    /// The stream of a seed.
    pub fn new(seed: u64) -> Self {
        Random { state: seed }
    }

    /// The stream of one case of a seed: each case can be drawn by itself.
    pub fn of_case(seed: u64, index: u64) -> Self {
        Random::new(mix(seed.wrapping_add(STEP)) ^ mix(index.wrapping_mul(STEP)))
    }

    /// The next 64 random bits.
    pub fn bits(&mut self) -> u64 {
        self.state = self.state.wrapping_add(STEP);
        mix(self.state)
    }

    /// Any byte.
    pub fn byte(&mut self) -> u8 {
        (self.bits() >> 56) as u8
    }

    /// Any 32-bit number.
    pub fn word(&mut self) -> u32 {
        (self.bits() >> 32) as u32
    }

    /// A number below `end`, which is at least 1.
    pub fn below(&mut self, end: u64) -> u64 {
        assert!(end > 0, "no number is below 0");
        ((u128::from(self.bits()) * u128::from(end)) >> 64) as u64
    }

    /// An index below `end`, which is at least 1.
    pub fn index(&mut self, end: usize) -> usize {
        self.below(end as u64) as usize
    }

    /// A number from `low` to `high`, both included, each equally often.
    pub fn between(&mut self, low: u32, high: u32) -> u32 {
        assert!(low <= high, "no number is from {low} to {high}");
        low + self.below(u64::from(high - low) + 1) as u32
    }

    /// A number from `low` to `high`, both included, that is often one of the
    /// two or near it.
    pub fn spread(&mut self, low: u32, high: u32) -> u32 {
        assert!(low <= high, "no number is from {low} to {high}");
        let last = u64::from(high - low);
        let widest = u64::from(u64::BITS - last.leading_zeros());
        let width = 1u64 << self.below(widest + 1);
        let away = self.below(width.min(last + 1)) as u32;
        if self.one_in(3) {
            high - away
        } else {
            low + away
        }
    }

    /// True once in `n` times.
    pub fn one_in(&mut self, n: u64) -> bool {
        self.below(n) == 0
    }

    /// One of the items, of which there is at least one.
    pub fn pick<T: Copy>(&mut self, items: &[T]) -> T {
        items[self.index(items.len())]
    }

    /// Puts the items into random order.
    pub fn shuffle<T>(&mut self, items: &mut [T]) {
        for at in (1..items.len()).rev() {
            items.swap(at, self.index(at + 1));
        }
    }

    /// `count` different numbers below `end`, rising; `count` is at most `end`.
    pub fn distinct(&mut self, count: usize, end: u64) -> Vec<u64> {
        assert!(
            count as u64 <= end,
            "fewer than {count} numbers are below {end}"
        );
        let mut drawn = Vec::with_capacity(count);
        for last in end - count as u64..end {
            let number = self.below(last + 1);
            drawn.push(if drawn.contains(&number) {
                last
            } else {
                number
            });
        }
        drawn.sort_unstable();
        drawn
    }
}
