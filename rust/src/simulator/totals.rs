//! What was compared, and what was found.

use super::batch::Bench;
use super::compare::Difference;
use super::starts::Pattern;
use super::wires::Wire;
use std::collections::BTreeSet;
use std::fmt;

#[derive(Clone, Debug, Default)]
pub struct Totals {
    pub designs: u64,
    pub refused: u64,
    components: u64,
    /// Start lines with each pattern.
    patterns: [u64; 4],
    cycles: u64,
    /// An instance input in a cycle, driven or not.
    ports: u64,
    driven: u64,
    started: u64,
    pub differences: usize,
    /// With guards through k+e: components that have a guard, those of them that differ, and the differences.
    guarded: u64,
    found: u64,
    wrong: usize,
    clashes: usize,
}

impl Totals {
    /// Adds a component that was compared with its own guards.
    pub fn add(&mut self, bench: &Bench, found: &[Difference]) {
        let inputs: BTreeSet<(usize, usize)> = bench.control.inputs.iter().map(|row| (row.instance, row.port)).collect();
        self.components += 1;
        self.cycles += bench.line.cycles;
        self.ports += bench.line.cycles * inputs.len() as u64;
        for (_, wire) in bench.timetable.keys() {
            match wire {
                Wire::Input { .. } => self.driven += 1,
                Wire::Start { .. } => self.started += 1,
                Wire::Output { .. } => (),
            }
        }
        for (count, pattern) in self.patterns.iter_mut().zip(Pattern::ALL) {
            *count += u64::from(bench.line.patterns.contains(&pattern));
        }
        self.differences += found.len();
    }

    /// Adds a component with a guard, compared with guards through k+e.
    pub fn add_wrong(&mut self, found: &[Difference]) {
        self.guarded += 1;
        self.found += u64::from(!found.is_empty());
        self.wrong += found.len();
        self.clashes += found.iter().filter(|difference| difference.clashes()).count();
    }

    /// No difference, and with wrong guards one in every component that has a guard, of which there is one.
    pub fn right(&self) -> bool {
        self.differences == 0 && self.guarded > 0 && self.found == self.guarded
    }
}

impl fmt::Display for Totals {
    fn fmt(&self, f: &mut fmt::Formatter) -> fmt::Result {
        let [single, tight, sparse, idle] = self.patterns;
        writeln!(f, "designs {}, refused files {}, built components {}", self.designs, self.refused, self.components)?;
        writeln!(f, "start lines with a single start {single}, back to back {tight}, sparse {sparse}, long idle {idle}")?;
        writeln!(f, "cycles {}, ports compared {}, of them driven {}", self.cycles, self.ports, self.driven)?;
        writeln!(f, "starts of instances {}", self.started)?;
        writeln!(f, "differences {}", self.differences)?;
        writeln!(f, "with guards through k+e: differences {}, of them two guards at once {}", self.wrong, self.clashes)?;
        write!(f, "with guards through k+e: found in {} of {} components with a guard", self.found, self.guarded)
    }
}
