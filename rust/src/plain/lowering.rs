//! Lowering: the control rows of one built component.

use super::answers::{Accepted, Fault, Refusal};
use super::current::INSTANCES;
use super::records::held;
use super::table::{Signature, ROWS};
use super::verdict::judge_then;
use super::walk::Walk;

/// Bytes of a row.
const ROW: usize = 16;

/// Writes the rows of a component; answers their number. Refusals as the verdict, then 14, then 13.
pub fn lower(file: &[u8], table: &mut [Signature], component: u64, out: &mut [u8]) -> Result<usize, Refusal> {
    judge_then(file, table, |rows, accepted| lowered(file, rows, accepted, component, out))
}

fn lowered(file: &[u8], rows: &[Signature; ROWS], accepted: Accepted, component: u64, out: &mut [u8]) -> Result<usize, Refusal> {
    if component >= accepted.components as u64 || !rows[component as usize].is_built() {
        return Err(Refusal { fault: Fault::Absent, position: component });
    }
    let own = &rows[component as usize];
    let mut walk = Walk::of(file, rows, accepted, component as usize);
    let mut instances = [Signature::default(); INSTANCES];
    for instance in &mut instances {
        match walk.instance() {
            Some(component) => *instance = rows[component % ROWS],
            None => break,
        }
    }
    // one row for the component, and one for each record that is left
    let count = 1 + walk.end - walk.number;
    if out.len() < ROW * count {
        return Err(Refusal::at_start(Fault::Room));
    }
    write(file, own, &instances, walk, &mut out[..ROW * count]);
    Ok(count)
}

/// The rows, the states counted on the way.
fn write(file: &[u8], own: &Signature, instances: &[Signature; INSTANCES], mut walk: Walk, out: &mut [u8]) {
    let (head, body) = out.split_at_mut(ROW);
    let mut rows = body.chunks_exact_mut(ROW);
    let mut states = greatest_end(file, own.first_input(), own.inputs + own.outputs).max(1);
    let mut invocation = 0;
    while let Some((instance, k)) = walk.invocation() {
        let invoked = &instances[usize::from(instance) % INSTANCES];
        put(rows.next(), [2, invocation, instance, k, 0, 0]);
        states = states.max(k + 1);
        for input in 0..invoked.inputs {
            let port = held(file, invoked.first_input() + usize::from(input));
            put(rows.next(), [3, invocation, u16::from(input), k + port.start(), k + port.end() - 1, walk.number as u16]);
            states = states.max(k + port.end());
            walk.number += 1;
        }
        states = states.max(k + greatest_end(file, invoked.first_output(), invoked.outputs));
        invocation += 1;
    }
    for output in 0..own.outputs {
        put(rows.next(), [4, u16::from(output), walk.number as u16, 0, 0, 0]);
        walk.number += 1;
    }
    put(Some(head), [1, own.delay, states, 0, 0, 0]);
}

/// The greatest end of so many ports; 0 of none.
fn greatest_end(file: &[u8], first: usize, count: u8) -> u16 {
    (first..first + usize::from(count)).map(|number| held(file, number).end()).max().unwrap_or(0)
}

#[inline]
fn put(row: Option<&mut [u8]>, fields: [u16; 6]) {
    if let Some(row) = row {
        let [a, b, c, d, e, f] = fields.map(u64::from);
        row[..8].copy_from_slice(&(a | b << 16 | c << 32 | d << 48).to_le_bytes());
        row[8..ROW].copy_from_slice(&(e | f << 16).to_le_bytes());
    }
}
