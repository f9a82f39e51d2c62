//! How often each answer came up: 0 is acceptance, every other a refusal's number.

use dansevik_host::Fault;
use std::collections::BTreeMap;

#[derive(Clone, Debug, Default, PartialEq, Eq)]
pub struct Tally {
    often: BTreeMap<u64, u64>,
}

impl Tally {
    pub fn count(&mut self, answer: u64) {
        *self.often.entry(answer).or_insert(0) += 1;
    }

    pub fn join(&mut self, other: &Tally) {
        for (answer, new) in &other.often {
            *self.often.entry(*answer).or_insert(0) += new;
        }
    }

    pub fn of(&self, answer: u64) -> u64 {
        self.often.get(&answer).copied().unwrap_or(0)
    }

    pub fn all(&self) -> u64 {
        self.often.values().sum()
    }
}

/// The numbers of all refusals, in the order of the table.
pub fn refusals() -> impl Iterator<Item = u64> {
    Fault::ALL.iter().map(|fault| *fault as u64)
}
