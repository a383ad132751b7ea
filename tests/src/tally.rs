//! Counts of answers and of what happened, so that a comparison shows what it has seen.

use crate::refusal::ANSWERS;
use std::collections::BTreeMap;
use std::fmt;

/// How often each answer occurred.
#[derive(Clone, Debug, Default)]
pub struct Tally {
    counts: [u64; ANSWERS],
}

impl Tally {
    /// Counts an answer.
    pub fn count(&mut self, answer: u32) {
        self.counts[answer as usize] += 1;
    }

    /// Fails unless each of these answers occurred at least so often.
    pub fn expect(&self, least: u64, answers: &[u32]) {
        for &answer in answers {
            let count = self.counts[answer as usize];
            assert!(
                count >= least,
                "answer {answer} occurred {count} times: {self}"
            );
        }
    }
}

impl fmt::Display for Tally {
    fn fmt(&self, out: &mut fmt::Formatter<'_>) -> fmt::Result {
        let seen = (0..).zip(self.counts).filter(|(_, count)| *count > 0);
        let parts: Vec<String> = seen
            .map(|(answer, count): (u32, u64)| format!("{answer}: {count}"))
            .collect();
        write!(out, "answers {}", parts.join(", "))
    }
}

/// How often each thing happened.
#[derive(Clone, Debug, Default)]
pub struct Seen(BTreeMap<&'static str, u64>);

impl Seen {
    /// Counts a thing, if it happened.
    pub fn count(&mut self, what: &'static str, happened: bool) {
        *self.0.entry(what).or_default() += u64::from(happened);
    }

    /// Tells all counts, and fails unless each thing happened at least so often.
    pub fn expect(&self, least: u64) {
        for (what, count) in &self.0 {
            println!("{what}: {count}");
        }
        for (what, count) in &self.0 {
            assert!(*count >= least, "{what}: {count}");
        }
    }
}
