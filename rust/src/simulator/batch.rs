//! Many components in one run of the simulator.

use super::compare::{differences, Difference};
use super::icarus::run;
use super::rows::Control;
use super::starts::Line;
use super::timetable::timetable;
use super::verilog;
use super::wires::Cycles;
use crate::designs::Chance;
use crate::naive::Component;
use std::io;
use std::path::Path;

/// A built component with the rows that were printed for it, a start line, and what the records say of that line.
pub struct Bench {
    /// The design's name.
    pub name: String,
    pub control: Control,
    pub line: Line,
    pub timetable: Cycles,
}

impl Bench {
    pub fn new(name: &str, design: &[Component], control: Control, chance: &mut Chance) -> Bench {
        let line = Line::drawn(chance, design[control.component].delay, control.states);
        let timetable = timetable(design, control.component, &line.starts);
        Bench { name: name.to_string(), control, line, timetable }
    }
}

/// The differences of each bench, its rows changed as asked.
pub fn simulate(benches: &[&Bench], changed: fn(&Control) -> Control, folder: &Path) -> io::Result<Vec<Vec<Difference>>> {
    if benches.is_empty() {
        return Ok(vec![]);
    }
    let mut text = String::new();
    for (number, bench) in benches.iter().enumerate() {
        let control = changed(&bench.control);
        text += &verilog::control(number, &control);
        text += &verilog::bench(number, &control, &bench.line);
    }
    let simulated = run(&text, benches.len(), folder)?;
    let mut found = Vec::new();
    for (bench, simulated) in benches.iter().zip(simulated) {
        if simulated.cycles != Some(bench.line.cycles) {
            let said = format!("{} component {}: the simulator did not come to its end", bench.name, bench.control.component);
            return Err(io::Error::new(io::ErrorKind::Other, said));
        }
        found.push(differences(&bench.timetable, &simulated.driven));
    }
    Ok(found)
}
