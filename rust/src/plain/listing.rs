//! The flat listing: when each physical unit of one component starts.
//!
//! A plain expansion need not end: thirty invocations on each of 63 levels over a component without rows. So rows and
//! units are counted first, upwards from the leaves and no further than the limit; the expansion then leaves out what
//! has no rows.

use super::answers::{Accepted, Fault, Refusal};
use super::blocks::RECORDS;
use super::current::INSTANCES;
use super::table::{Signature, ROWS};
use super::verdict::judge_then;
use super::walk::Walk;

/// Bytes of a row.
const ROW: usize = 8;

/// Most rows, and most units.
const LIMIT: u16 = 4096;

/// Writes the unit starts of a component; answers their number. Refusals as the verdict, then 14, then 13.
pub fn list(file: &[u8], table: &mut [Signature], component: u64, out: &mut [u8]) -> Result<usize, Refusal> {
    judge_then(file, table, |rows, accepted| listed(file, rows, accepted, component, out))
}

fn listed(file: &[u8], rows: &[Signature; ROWS], accepted: Accepted, component: u64, out: &mut [u8]) -> Result<usize, Refusal> {
    if component >= accepted.components as u64 {
        return Err(Refusal { fault: Fault::Absent, position: component });
    }
    let mut hierarchy = Hierarchy::none();
    for component in 0..component as usize + 1 {
        hierarchy.enter(file, rows, accepted, component);
    }
    let top = hierarchy.components[component as usize];
    let size = ROW * usize::from(top.rows);
    if top.rows > LIMIT || top.units > LIMIT || out.len() < size {
        return Err(Refusal::at_start(Fault::Room));
    }
    if top.rows > 0 {
        hierarchy.expand(component as usize, 0, 0, &mut out[..size]);
    }
    Ok(usize::from(top.rows))
}

/// A component: its rows and units, counted to one above the limit, and its invocations that have rows.
#[derive(Clone, Copy)]
struct Counted {
    leaf: bool,
    rows: u16,
    units: u16,
    from: u16,
    to: u16,
}

/// An invocation that has rows: what it invokes, when, and the first unit of its instance in its component.
#[derive(Clone, Copy)]
struct Start {
    component: u16,
    offset: u16,
    unit: u16,
}

struct Hierarchy {
    components: [Counted; ROWS],
    starts: [Start; RECORDS],
    used: u16,
}

impl Hierarchy {
    fn none() -> Hierarchy {
        Hierarchy {
            components: [Counted { leaf: false, rows: 0, units: 0, from: 0, to: 0 }; ROWS],
            starts: [Start { component: 0, offset: 0, unit: 0 }; RECORDS],
            used: 0,
        }
    }

    /// Counts a component whose lower ones have been entered.
    fn enter(&mut self, file: &[u8], rows: &[Signature; ROWS], accepted: Accepted, number: usize) {
        if !rows[number].is_built() {
            self.components[number] = Counted { leaf: true, rows: 1, units: 1, from: 0, to: 0 };
            return;
        }
        let mut walk = Walk::of(file, rows, accepted, number);
        let mut counted = Counted { leaf: false, rows: 0, units: 0, from: self.used, to: 0 };
        // component and first unit of each instance
        let mut instances = [(0, 0); INSTANCES];
        for instance in &mut instances {
            match walk.instance() {
                Some(component) => {
                    *instance = (component, counted.units);
                    counted.units = added(counted.units, self.components[component % ROWS].units);
                }
                None => break,
            }
        }
        while let Some((instance, offset)) = walk.invocation() {
            let (component, unit) = instances[usize::from(instance) % INSTANCES];
            walk.number += usize::from(rows[component % ROWS].inputs);
            let below = self.components[component % ROWS].rows;
            if below > 0 {
                counted.rows = added(counted.rows, below);
                self.starts[usize::from(self.used)] = Start { component: component as u16, offset, unit };
                self.used += 1;
            }
        }
        counted.to = self.used;
        self.components[number] = counted;
    }

    /// Writes the rows of a component that has some, from this cycle and unit on; hands back the room that is left.
    fn expand<'a>(&self, number: usize, cycle: u32, unit: u16, out: &'a mut [u8]) -> &'a mut [u8] {
        let component = &self.components[number % ROWS];
        if component.leaf {
            let (row, left) = out.split_at_mut(ROW);
            let fields = u64::from(cycle) | u64::from(unit) << 32 | (number as u64) << 48;
            row.copy_from_slice(&fields.to_le_bytes());
            return left;
        }
        let mut left = out;
        for start in &self.starts[usize::from(component.from)..usize::from(component.to)] {
            left = self.expand(usize::from(start.component), cycle + u32::from(start.offset), unit + start.unit, left);
        }
        left
    }
}

/// The sum, no further than one above the limit.
fn added(a: u16, b: u16) -> u16 {
    (a + b).min(LIMIT + 1)
}
