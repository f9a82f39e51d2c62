//! The lent table: a row for each component.

/// Rows that the lent table must have, one for each component.
pub const ROWS: usize = 64;

/// What later components need of a component: a row of the lent table.
#[repr(C)]
#[derive(Clone, Copy, Debug, Default, PartialEq, Eq)]
pub struct Signature {
    /// 0 leaf, 1 built
    pub class: u8,
    pub delay: u16,
    pub inputs: u8,
    pub outputs: u8,
    /// The component record's number.
    pub first: u16,
}

impl Signature {
    /// The record number of the first input; the outputs follow the inputs.
    #[inline]
    pub(super) fn first_input(&self) -> usize {
        usize::from(self.first) + 1
    }

    #[inline]
    pub(super) fn first_output(&self) -> usize {
        self.first_input() + usize::from(self.inputs)
    }

    #[inline]
    pub(super) fn is_built(&self) -> bool {
        self.class != 0
    }
}
