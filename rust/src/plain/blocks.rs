//! A file's blocks: whether they are sound, and a record by its number.

use super::answers::{Fault, Refusal};

/// Bytes of a block.
pub const BLOCK: usize = 512;
/// Most blocks of a file.
pub const BLOCKS: usize = 128;
/// Bytes of a record.
pub const RECORD: usize = 16;
/// Slots of a block.
pub const SLOTS: usize = 31;
/// Most records of a file.
pub const RECORDS: usize = BLOCKS * SLOTS;

/// Bytes before the first slot, before the spare bytes, and before the check.
pub(super) const HEADER: usize = 8;
const SPARE: usize = 504;
pub(super) const COVERED: usize = 508;

/// 32-bit FNV-1a.
#[inline]
pub fn check(bytes: &[u8]) -> u32 {
    bytes.iter().fold(2_166_136_261, |h: u32, b| (h ^ u32::from(*b)).wrapping_mul(16_777_619))
}

#[inline]
pub(super) fn word(bytes: &[u8]) -> u64 {
    let mut w = [0; 8];
    w.copy_from_slice(bytes);
    u64::from_le_bytes(w)
}

/// The header of a block: its number, record count, and mark of the last.
#[inline]
pub(super) fn header(number: usize, count: usize, last: bool) -> u64 {
    number as u64 | (count as u64) << 32 | u64::from(last) << 40
}

/// How many records the blocks of a file hold. Refusals 1, 2, 3.
pub fn sound(file: &[u8]) -> Result<usize, Refusal> {
    if file.is_empty() || file.len() % BLOCK != 0 || file.len() > BLOCKS * BLOCK {
        return Err(Refusal::at_start(Fault::Length));
    }
    let last = file.len() / BLOCK - 1;
    let mut records = 0;
    for (number, block) in file.chunks_exact(BLOCK).enumerate() {
        records += count(block, number, number == last).map_err(|fault| Refusal::at(fault, number))?;
    }
    Ok(records)
}

/// How many records a block holds.
fn count(block: &[u8], number: usize, last: bool) -> Result<usize, Fault> {
    let given = [block[508], block[509], block[510], block[511]];
    if check(&block[..COVERED]) != u32::from_le_bytes(given) {
        return Err(Fault::Check);
    }
    let count = usize::from(block[4]);
    let allowed = if last { (1..=SLOTS).contains(&count) } else { count == SLOTS };
    if !allowed || word(&block[..HEADER]) != header(number, count, last) {
        return Err(Fault::Header);
    }
    let unused = block[HEADER + RECORD * count..SPARE].chunks_exact(8).any(|half| word(half) != 0);
    if unused || block[SPARE..COVERED] != [0; 4] {
        return Err(Fault::Header);
    }
    Ok(count)
}

/// Where a record of a file stands in it: a block holds 31 records in the room of 32.
#[inline]
pub(super) fn place(number: usize) -> usize {
    HEADER + RECORD * (number + block_of(number))
}

/// The number divided by 31, in two instructions; right of every number of a file.
#[inline]
fn block_of(number: usize) -> usize {
    (number * 33_826) >> 20
}

/// The sixteen bytes of a record, a part of the caller's own file. Refusals 1, 2, 3, 14.
pub fn record(file: &[u8], number: u64) -> Result<&[u8], Refusal> {
    let records = sound(file)?;
    if number >= records as u64 {
        return Err(Refusal { fault: Fault::Absent, position: number });
    }
    let at = place(number as usize);
    Ok(&file[at..at + RECORD])
}

#[cfg(test)]
mod tests {
    use super::*;

    #[test]
    fn every_record_lies_in_its_block() {
        for number in 0..RECORDS {
            assert_eq!(block_of(number), number / SLOTS);
            assert_eq!(place(number), BLOCK * (number / SLOTS) + HEADER + RECORD * (number % SLOTS));
        }
    }

    #[test]
    fn published_vectors_hold() {
        assert_eq!(check(b""), 0x811c_9dc5);
        assert_eq!(check(b"a"), 0xe40c_292c);
        assert_eq!(check(b"foobar"), 0xbf9c_f968);
    }
}
