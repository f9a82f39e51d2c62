//! The rows of `lower` in a real simulator: read back from their text, written as a Verilog shift register with guards, run
//! in Icarus Verilog on start lines by chance, and compared in every cycle with the timetable of the records.
//!
//! The two sides meet only in `wires`: the rows never see the records, and the timetable never sees the rows.

mod batch;
mod compare;
mod icarus;
mod rows;
mod starts;
mod timetable;
mod totals;
mod verilog;
mod wires;

pub use batch::{simulate, Bench};
pub use compare::{differences, Difference};
pub use icarus::{run, Simulated};
pub use rows::{parse, Control, Go, In, Out};
pub use starts::{Line, Pattern};
pub use timetable::timetable;
pub use totals::Totals;
pub use verilog::{bench, control};
pub use wires::{Cycles, Drive, Wire};
