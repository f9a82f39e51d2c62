//! A record list to a file, and a file to its record list.

use super::answers::{Fault, Refusal};
use super::blocks::{check, header, sound, BLOCK, COVERED, HEADER, RECORD, RECORDS, SLOTS};

/// Writes the file of a list of records of any content; answers the bytes written. Refusals 1, 13.
pub fn pack(list: &[u8], out: &mut [u8]) -> Result<usize, Refusal> {
    if list.is_empty() || list.len() % RECORD != 0 || list.len() > RECORDS * RECORD {
        return Err(Refusal::at_start(Fault::Length));
    }
    let full = SLOTS * RECORD;
    let blocks = (list.len() + full - 1) / full;
    let size = blocks * BLOCK;
    if out.len() < size {
        return Err(Refusal::at_start(Fault::Room));
    }
    let pieces = out[..size].chunks_exact_mut(BLOCK).zip(list.chunks(full));
    for (number, (block, records)) in pieces.enumerate() {
        let end = HEADER + records.len();
        block[..HEADER].copy_from_slice(&header(number, records.len() / RECORD, number + 1 == blocks).to_le_bytes());
        block[HEADER..end].copy_from_slice(records);
        block[end..COVERED].fill(0);
        let sum = check(&block[..COVERED]);
        block[COVERED..].copy_from_slice(&sum.to_le_bytes());
    }
    Ok(size)
}

/// Writes the record list of a file; answers the bytes written. Refusals 1, 2, 3, 13.
pub fn unpack(file: &[u8], out: &mut [u8]) -> Result<usize, Refusal> {
    let size = RECORD * sound(file)?;
    if out.len() < size {
        return Err(Refusal::at_start(Fault::Room));
    }
    let parts = out[..size].chunks_mut(SLOTS * RECORD).zip(file.chunks_exact(BLOCK));
    for (part, block) in parts {
        part.copy_from_slice(&block[HEADER..HEADER + part.len()]);
    }
    Ok(size)
}
