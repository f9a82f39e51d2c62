//! What every call answers: acceptance with its values, or the first refusal with its position.

use std::fmt;

/// Makes the refusals of the table below, which alone names and numbers them.
macro_rules! refusals {
    ($($(#[$says:meta])* $name:ident = $number:literal,)*) => {
        /// The refusals, in the order of document 01's table: `fault as u64` is the number.
        #[derive(Clone, Copy, Debug, PartialEq, Eq)]
        pub enum Fault {
            $($(#[$says])* $name = $number,)*
        }

        impl Fault {
            /// Every refusal, in that order.
            pub const ALL: &'static [Fault] = &[$(Fault::$name,)*];
        }
    };
}

refusals! {
    /// A length that is not allowed.
    Length = 1,
    /// A block's check differs.
    Check = 2,
    /// A block's header, an unused slot or spare bytes differ.
    Header = 3,
    /// Kind, range or zero byte wrong in a record.
    Record = 4,
    /// A record not allowed at its place, or a file that ends in an incomplete component.
    Place = 5,
    /// One of a kind too many.
    TooMany = 6,
    /// What a record names is absent.
    Reference = 7,
    /// Source and reader not equally wide.
    Width = 8,
    /// A port's interval longer than its component's delay.
    Interval = 9,
    /// Two invocations of one instance too close.
    Spacing = 10,
    /// The invocations of one instance spread too far.
    Span = 11,
    /// A source not available as long as it is required.
    Reading = 12,
    /// A lent buffer too short, or a flat limit passed.
    Room = 13,
    /// The component or record asked for is absent.
    Absent = 14,
}

impl Fault {
    /// Whether it is one of a file, and not of what is lent or asked for.
    pub fn in_a_file(self) -> bool {
        !matches!(self, Fault::Room | Fault::Absent)
    }
}

/// A refusal and where it stands: a block, a record, an asked number, or 0.
#[derive(Clone, Copy, Debug, PartialEq, Eq)]
pub struct Refusal {
    pub fault: Fault,
    pub position: u64,
}

impl Refusal {
    pub(super) fn at(fault: Fault, position: usize) -> Refusal {
        Refusal { fault, position: position as u64 }
    }

    /// 01 gives 1 and 13 the position 0.
    pub(super) fn at_start(fault: Fault) -> Refusal {
        Refusal { fault, position: 0 }
    }
}

impl fmt::Display for Refusal {
    fn fmt(&self, f: &mut fmt::Formatter) -> fmt::Result {
        write!(f, "refused {} at {}", self.fault as u64, self.position)
    }
}

/// What an accepted file holds.
#[derive(Clone, Copy, Debug, PartialEq, Eq)]
pub struct Accepted {
    pub components: usize,
    pub records: usize,
}

impl fmt::Display for Accepted {
    fn fmt(&self, f: &mut fmt::Formatter) -> fmt::Result {
        write!(f, "accepted {} {}", self.components, self.records)
    }
}
