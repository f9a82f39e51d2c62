//! The calls as the archive has them, with a lent table of any length: fewer than 64 rows are refusal 13, before everything
//! else. Every call, accepted or refused, sets every row to zero.
//!
//! A slice is never null and aligned as its elements, and a `&mut` overlaps nothing: all that the archive asks of its caller.

use super::answers::{Accepted, Refusal};
use super::archive::{self, Rows};

/// A row of the working table, zero after every call.
#[repr(C)]
#[derive(Clone, Copy, Debug, Default, PartialEq, Eq)]
pub struct Signature {
    pub class: u16,
    pub delay: u16,
    pub inputs: u16,
    pub outputs: u16,
    pub first: u16,
}

/// Judges a file. Refusals 13 for the table, then those of the file.
pub fn judge(file: &[u8], table: &mut [Signature]) -> Result<Accepted, Refusal> {
    let answer = unsafe { archive::dansevik_judge(file.as_ptr(), file.len(), table.as_mut_ptr(), table.len()) }.accepted()?;
    Ok(Accepted { components: answer.components as usize, records: answer.count as usize })
}

/// Judges a file, then writes the control rows of one of its built components, 16 bytes each; answers how many.
pub fn lower(file: &[u8], table: &mut [Signature], component: u64, out: &mut [u8]) -> Result<usize, Refusal> {
    rows(archive::dansevik_lower, file, table, component, out)
}

/// Judges a file, then writes when each leaf unit of one of its components starts, 8 bytes each; answers how many.
pub fn list(file: &[u8], table: &mut [Signature], component: u64, out: &mut [u8]) -> Result<usize, Refusal> {
    rows(archive::dansevik_list, file, table, component, out)
}

#[inline(always)]
fn rows(call: Rows, file: &[u8], table: &mut [Signature], component: u64, out: &mut [u8]) -> Result<usize, Refusal> {
    let (rows, length) = (table.as_mut_ptr(), table.len());
    let answer = unsafe { call(file.as_ptr(), file.len(), rows, length, component, out.as_mut_ptr(), out.len()) };
    Ok(answer.accepted()?.count as usize)
}

/// Writes the file of a list of records of any content; answers the bytes written. Refusals 1, 13.
pub fn pack(list: &[u8], out: &mut [u8]) -> Result<usize, Refusal> {
    let answer = unsafe { archive::dansevik_pack(list.as_ptr(), list.len(), out.as_mut_ptr(), out.len()) };
    Ok(answer.accepted()?.count as usize)
}

/// Writes the record list of a file; answers the bytes written. Refusals 1, 2, 3, 13.
pub fn unpack(file: &[u8], out: &mut [u8]) -> Result<usize, Refusal> {
    let answer = unsafe { archive::dansevik_unpack(file.as_ptr(), file.len(), out.as_mut_ptr(), out.len()) };
    Ok(answer.accepted()?.count as usize)
}

/// The sixteen bytes of a record, a part of the caller's own file. Refusals 1, 2, 3, 14.
pub fn record(file: &[u8], number: u64) -> Result<&[u8], Refusal> {
    let answer = unsafe { archive::dansevik_record(file.as_ptr(), file.len(), number) }.accepted()?;
    let at = answer.offset as usize;
    Ok(&file[at..at + answer.count as usize])
}
