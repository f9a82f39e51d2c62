//! A walk over the records of a component that the verdict has accepted, from its instances on.

use super::answers::Accepted;
use super::records::{slot, Slot};
use super::table::{Signature, ROWS};

pub(super) struct Walk<'a> {
    file: &'a [u8],
    /// The number of the next record, and of the one after the component's last.
    pub(super) number: usize,
    pub(super) end: usize,
}

impl<'a> Walk<'a> {
    pub(super) fn of(file: &'a [u8], rows: &[Signature; ROWS], accepted: Accepted, component: usize) -> Walk<'a> {
        let row = rows[component];
        let end = match rows.get(component + 1) {
            Some(next) if component + 1 < accepted.components => usize::from(next.first),
            _ => accepted.records,
        };
        Walk { file, number: row.first_output() + usize::from(row.outputs), end }
    }

    #[inline]
    fn next(&self, kind: u8) -> Option<Slot> {
        if self.number >= self.end {
            return None;
        }
        let slot = slot(self.file, self.number);
        if slot.kind() == kind {
            Some(slot)
        } else {
            None
        }
    }

    /// The component of the next record, where that is an instance.
    #[inline]
    pub(super) fn instance(&mut self) -> Option<usize> {
        let component = self.next(3)?.instance()?;
        self.number += 1;
        Some(usize::from(component))
    }

    /// Instance and offset of the next record, where that is an invocation; its arguments follow.
    #[inline]
    pub(super) fn invocation(&mut self) -> Option<(u16, u16)> {
        let invocation = self.next(4)?.invocation()?;
        self.number += 1;
        Some(invocation)
    }
}
