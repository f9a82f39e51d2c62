//! Start lines by chance that keep a component's delay.

use crate::designs::Chance;

/// How the starts of a part of a line lie.
#[derive(Clone, Copy, Debug, PartialEq, Eq)]
pub enum Pattern {
    /// One start, and then as many cycles as the register has states.
    Single,
    /// Back to back, exactly the delay apart.
    Tight,
    /// The delay and a few cycles more apart.
    Sparse,
    /// None, for longer than the register remembers.
    Idle,
}

impl Pattern {
    pub const ALL: [Pattern; 4] = [Pattern::Single, Pattern::Tight, Pattern::Sparse, Pattern::Idle];
}

/// The compared part of a start line; the register is known in its cycle 0.
#[derive(Clone, Debug, PartialEq, Eq)]
pub struct Line {
    pub starts: Vec<u64>,
    pub cycles: u64,
    pub patterns: Vec<Pattern>,
}

/// After so many cycles a line takes no further pattern, and a pattern has no more than two starts that lie as far apart: the
/// components with the longest registers take one pattern or two.
const ENOUGH: u64 = 400;

impl Line {
    /// A line of patterns in any order, with one start at least, and with time at its end for all that the last start drives
    /// and for one cycle more.
    pub fn drawn(chance: &mut Chance, delay: u64, states: u64) -> Line {
        let mut order = Pattern::ALL;
        chance.shuffle(&mut order);
        let mut line = Line { starts: vec![], cycles: 0, patterns: vec![] };
        for pattern in order {
            if line.cycles < ENOUGH || line.starts.is_empty() {
                line.add(chance, pattern, delay, states);
            }
        }
        line.cycles += states + 1;
        line
    }

    fn add(&mut self, chance: &mut Chance, pattern: Pattern, delay: u64, states: u64) {
        self.patterns.push(pattern);
        let more = 1 + ENOUGH / delay;
        match pattern {
            Pattern::Single => self.start(delay.max(states)),
            Pattern::Tight => {
                // a register that holds many starts gets many
                for _ in 0..2 + (states / delay).min(8) + chance.below(more.min(4) as usize) as u64 {
                    self.start(delay);
                }
            }
            Pattern::Sparse => {
                for _ in 0..2 + chance.below(more.min(6) as usize) {
                    self.start(delay + chance.below(2 + delay.min(20) as usize) as u64);
                }
            }
            Pattern::Idle => self.cycles += states + chance.below(8) as u64,
        }
    }

    /// A start now, and the next thing so many cycles later.
    fn start(&mut self, cycles: u64) {
        self.starts.push(self.cycles);
        self.cycles += cycles;
    }
}
