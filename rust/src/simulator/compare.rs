//! The simulator held against the timetable.

use super::wires::{told, Cycles, Wire};
use std::fmt;

/// A wire that the two sides drive differently in a cycle.
#[derive(Clone, Debug, PartialEq, Eq)]
pub struct Difference {
    pub cycle: u64,
    pub wire: Wire,
    pub timetable: Option<String>,
    pub simulated: Option<String>,
}

/// Every wire and cycle in which they differ: a wire that only one of them drives too.
pub fn differences(timetable: &Cycles, simulated: &Cycles) -> Vec<Difference> {
    let only_simulated = simulated.iter().filter(|(at, _)| !timetable.contains_key(at)).map(|(at, bits)| (at, None, Some(bits)));
    timetable
        .iter()
        .map(|(at, bits)| (at, Some(bits), simulated.get(at)))
        .filter(|(_, timetable, simulated)| timetable != simulated)
        .chain(only_simulated)
        .map(|((cycle, wire), timetable, simulated)| Difference {
            cycle: *cycle,
            wire: *wire,
            timetable: timetable.cloned(),
            simulated: simulated.cloned(),
        })
        .collect()
}

impl Difference {
    /// Whether the simulator saw more than one guard active.
    pub fn clashes(&self) -> bool {
        self.simulated.as_ref().map_or(false, |bits| bits.ends_with(" 1"))
    }
}

impl fmt::Display for Difference {
    fn fmt(&self, f: &mut fmt::Formatter) -> fmt::Result {
        let said = |bits: &Option<String>| bits.as_ref().map_or("nothing".to_string(), |bits| told(bits));
        let (timetable, simulated) = (said(&self.timetable), said(&self.simulated));
        write!(f, "cycle {} {}: timetable {timetable}, simulator {simulated}", self.cycle, self.wire)
    }
}
