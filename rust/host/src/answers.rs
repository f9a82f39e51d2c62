//! What every call answers: acceptance with its values, or the first refusal with its position.

use std::error::Error;
use std::fmt;

/// Makes the refusals of the table below: what is said of one stands there alone.
macro_rules! refusals {
    ($($name:ident = $number:literal, $says:literal;)*) => {
        /// The refusals, in the order of the table in docs/RULES.md: `fault as u64` is the number.
        #[derive(Clone, Copy, Debug, PartialEq, Eq, Hash)]
        pub enum Fault {
            $(#[doc = $says] $name = $number,)*
        }

        impl Fault {
            /// Every refusal, in that order.
            pub const ALL: &'static [Fault] = &[$(Fault::$name,)*];

            fn says(self) -> &'static str {
                match self {
                    $(Fault::$name => $says,)*
                }
            }
        }
    };
}

refusals! {
    Length = 1, "length not allowed";
    Check = 2, "check differs";
    Header = 3, "header, unused slot or spare bytes differ";
    Record = 4, "kind, range or zero byte wrong in a record";
    Place = 5, "record not allowed at this place, or file ends in an incomplete component";
    TooMany = 6, "one of a kind too many";
    Reference = 7, "reference: instance's component not below its own; instance, own input, output or invocation absent; or argument \
                    naming its own or a later invocation";
    Width = 8, "width rule: source and reader not equally wide, or the constant too great";
    Interval = 9, "interval longer than the component's delay";
    Spacing = 10, "spacing, against earlier invocations";
    Span = 11, "span, over this and earlier invocations";
    Reading = 12, "reading: the source's interval does not contain the required one";
    Room = 13, "lent buffer too short, or a flat limit passed";
    Absent = 14, "component or record asked for is absent, or the component is a leaf when lowering";
}

impl Fault {
    /// The refusal with a number.
    pub fn numbered(number: u64) -> Option<Fault> {
        Fault::ALL.iter().copied().find(|fault| *fault as u64 == number)
    }
}

impl fmt::Display for Fault {
    fn fmt(&self, f: &mut fmt::Formatter) -> fmt::Result {
        f.write_str(self.says())
    }
}

/// A refusal and where it stands: a block, a record, the number asked for, or 0.
#[derive(Clone, Copy, Debug, PartialEq, Eq, Hash)]
pub struct Refusal {
    pub fault: Fault,
    pub position: u64,
}

impl fmt::Display for Refusal {
    fn fmt(&self, f: &mut fmt::Formatter) -> fmt::Result {
        write!(f, "refused {} at {}: {}", self.fault as u64, self.position, self.fault)
    }
}

impl Error for Refusal {}

/// What an accepted file holds.
#[derive(Clone, Copy, Debug, PartialEq, Eq, Hash)]
pub struct Accepted {
    pub components: usize,
    pub records: usize,
}
