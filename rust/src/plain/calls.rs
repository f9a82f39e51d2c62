//! The invocations of the component being read.

use super::records::Shift;
use super::table::Signature;

/// Most invocations of a component.
pub(super) const INVOCATIONS: usize = 64;

/// Field by field: instance, offset, and the outputs that each gives.
pub(super) struct Calls {
    instance: [u16; INVOCATIONS],
    offset: [u16; INVOCATIONS],
    pub(super) shift: [Shift; INVOCATIONS],
    pub(super) first_output: [u16; INVOCATIONS],
    pub(super) outputs: [u16; INVOCATIONS],
}

/// In place of an instance, where there is no invocation.
const NO_INSTANCE: u16 = u16::MAX;

impl Calls {
    pub(super) fn none() -> Calls {
        Calls {
            instance: [NO_INSTANCE; INVOCATIONS],
            offset: [0; INVOCATIONS],
            shift: [Shift::default(); INVOCATIONS],
            first_output: [0; INVOCATIONS],
            outputs: [0; INVOCATIONS],
        }
    }

    /// There is no invocation any more.
    #[inline(always)]
    pub(super) fn clear(&mut self) {
        self.instance = [NO_INSTANCE; INVOCATIONS];
    }

    /// Stores the invocation with this number: its instance, its offset, and the row of what it invokes.
    #[inline(always)]
    pub(super) fn put(&mut self, number: usize, instance: u16, offset: u16, row: &Signature) {
        self.instance[number] = instance;
        self.offset[number] = offset;
        self.shift[number] = Shift::by(offset);
        self.first_output[number] = row.first_output() as u16;
        self.outputs[number] = u16::from(row.outputs);
    }

    /// Whether offset k lies less than d from an invocation of this instance. All are asked, so that the compiler may ask
    /// several at once.
    #[inline(always)]
    pub(super) fn meets(&self, instance: u16, k: u16, d: u16) -> bool {
        let least = k.wrapping_sub(d - 1);
        let mut close = false;
        for (other, offset) in self.instance.iter().zip(&self.offset) {
            close |= (*other == instance) & (offset.wrapping_sub(least) < 2 * d - 1);
        }
        close
    }
}
