//! The verified library (`dansevik_host`) and the independent implementation (`dansevik::plain`) on the same files.
//!
//! `files` draws what they are run on, `pair` makes one call of both, `every_call` all calls on one file, `tally` and `totals`
//! count what came out. `counter` is for the program whose instructions are counted.

pub mod counter;
pub mod every_call;
pub mod files;
pub mod pair;
pub mod tally;
pub mod totals;
