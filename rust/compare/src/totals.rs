//! What came out of many files.

use super::every_call::Outcome;
use super::files::{Sort, SORTS};
use super::tally::{refusals, Tally};
use std::{fmt, iter};

#[derive(Clone, Debug, Default, PartialEq, Eq)]
pub struct Totals {
    pub files: u64,
    pub different: u64,
    sorts: [u64; 6],
    verdicts: Tally,
    answers: Tally,
}

impl Totals {
    pub fn drawn(&mut self, sort: Sort) {
        self.sorts[SORTS.iter().position(|s| *s == sort).unwrap_or(0)] += 1;
    }

    pub fn add(&mut self, outcome: &Outcome) {
        self.verdicts.count(outcome.verdict);
        self.answers.join(&outcome.answers);
    }

    pub fn join(&mut self, other: &Totals) {
        self.files += other.files;
        self.different += other.different;
        for (all, new) in self.sorts.iter_mut().zip(&other.sorts) {
            *all += new;
        }
        self.verdicts.join(&other.verdicts);
        self.answers.join(&other.answers);
    }

    pub fn calls(&self) -> u64 {
        self.answers.all()
    }

    /// The refusals that no call gave.
    pub fn never(&self) -> Vec<u64> {
        refusals().filter(|number| self.answers.of(*number) == 0).collect()
    }
}

impl fmt::Display for Totals {
    fn fmt(&self, f: &mut fmt::Formatter) -> fmt::Result {
        write!(f, "files by chance:")?;
        for (sort, many) in SORTS.iter().zip(self.sorts) {
            write!(f, " {sort:?} {many}")?;
        }
        writeln!(f, "\n{:>8} {:>10} {:>10}", "answer", "verdicts", "calls")?;
        for number in iter::once(0).chain(refusals()) {
            let name = if number == 0 { "accepted".to_string() } else { number.to_string() };
            writeln!(f, "{name:>8} {:>10} {:>10}", self.verdicts.of(number), self.answers.of(number))?;
        }
        write!(f, "{} files and {} calls compared, {} different", self.files, self.calls(), self.different)
    }
}
