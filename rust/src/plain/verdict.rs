//! The verdict: every record of a file against the order, the limits and the timing rules, in one pass.
//!
//! Of finished components a row of the lent table is kept, of the component being read what `current` holds.

use super::answers::{Accepted, Fault, Refusal};
use super::blocks::{sound, BLOCK, HEADER, RECORD};
use super::calls::Calls;
use super::current::{Current, Instance, INSTANCES};
use super::records::Slot;
use super::table::{Signature, ROWS};

/// Judges a file; the table is zero afterwards. Refusals 13 for the table, then those of the file.
pub fn judge(file: &[u8], table: &mut [Signature]) -> Result<Accepted, Refusal> {
    judge_then(file, table, |_, accepted| Ok(accepted))
}

/// Judges a file and, where it is accepted, goes on with the filled rows; the table is zero afterwards.
pub(super) fn judge_then<T>(
    file: &[u8],
    table: &mut [Signature],
    go_on: impl FnOnce(&[Signature; ROWS], Accepted) -> Result<T, Refusal>,
) -> Result<T, Refusal> {
    let answer = match rows(table) {
        Some(rows) => read(file, rows).and_then(|accepted| go_on(rows, accepted)),
        None => Err(Refusal::at_start(Fault::Room)),
    };
    table.fill(Signature::default());
    answer
}

fn rows(table: &mut [Signature]) -> Option<&mut [Signature; ROWS]> {
    table.get_mut(..ROWS)?.try_into().ok()
}

fn read(file: &[u8], rows: &mut [Signature; ROWS]) -> Result<Accepted, Refusal> {
    let records = sound(file)?;
    let mut current = Current::nothing();
    let mut instances = [Instance::default(); INSTANCES];
    let mut calls = Calls::none();
    let mut number = 0;
    for block in file.chunks_exact(BLOCK) {
        let end = HEADER + RECORD * usize::from(block[4]);
        for bytes in block[HEADER..end].chunks_exact(RECORD) {
            let slot = Slot::of(bytes);
            let step = match slot.kind() {
                1 => current.component(slot, number, rows, &mut calls),
                2 => current.port(slot),
                3 => current.instance(slot, rows, &mut instances),
                4 => current.invocation(slot, &mut instances, &mut calls),
                5 => current.argument(slot, file, &calls),
                6 => current.connection(slot, file, &calls),
                _ => Err(Fault::Record),
            };
            if let Err(fault) = step {
                return Err(Refusal::at(fault, number));
            }
            number += 1;
        }
    }
    current.end(rows).map_err(|fault| Refusal::at(fault, records))?;
    Ok(Accepted { components: current.begun, records })
}
