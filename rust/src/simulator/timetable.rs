//! The timetable of a built component, from its records by document 01's sentence.

use super::wires::{Cycles, Drive, Wire};
use crate::naive::Component;

/// What is driven in which cycle: "for a start at cycle c, an invocation at offset k and its input [s, e), that instance's
/// input is driven by that invocation's argument in cycles c+k+s to c+k+e−1, and in no other cycle on account of this start
/// and invocation"; and the instance is started at c+k.
pub fn timetable(design: &[Component], component: usize, starts: &[u64]) -> Cycles {
    let own = &design[component];
    let mut cycles = Cycles::new();
    for c in starts {
        for (j, call) in own.calls.iter().enumerate() {
            let (instance, event) = (call.instance, c + call.offset);
            enter(&mut cycles, event, Wire::Start { instance }, Drive { invocation: Some(j), source: None });
            let inputs = &design[own.instances[instance]].inputs;
            for (port, (interval, argument)) in inputs.iter().zip(&own.arguments[j]).enumerate() {
                for cycle in event + interval.start..event + interval.end {
                    let drive = Drive { invocation: Some(j), source: Some(argument) };
                    enter(&mut cycles, cycle, Wire::Input { instance, port }, drive);
                }
            }
        }
    }
    for (port, source) in own.connections.iter().enumerate() {
        enter(&mut cycles, 0, Wire::Output { port }, Drive { invocation: None, source: Some(source) });
    }
    cycles
}

/// Two that drive one wire in one cycle are both kept, and then no simulator agrees.
fn enter(cycles: &mut Cycles, cycle: u64, wire: Wire, drive: Drive) {
    let said = cycles.entry((cycle, wire)).or_default();
    if !said.is_empty() {
        said.push_str(" and ");
    }
    said.push_str(&drive.code());
    said.push_str(" 0");
}
