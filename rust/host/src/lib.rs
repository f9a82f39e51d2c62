//! The verified timetable checker for Rust programs. Every call borrows what it reads and what it writes, and answers `Ok` or
//! the first refusal; nothing is allocated.
//!
//! ```no_run
//! let file = std::fs::read("squaring.design")?;
//! let mut table = dansevik_host::Table::new();
//! match dansevik_host::judge(&file, &mut table) {
//!     Ok(accepted) => println!("{} components", accepted.components),
//!     Err(refusal) => println!("{refusal}"),
//! }
//! # Ok::<(), std::io::Error>(())
//! ```
//!
//! On refusal every byte of `out` keeps its value, on acceptance every byte past the written part.

mod answers;
mod archive;
pub mod lent;

pub use answers::{Accepted, Fault, Refusal};
pub use lent::{pack, record, unpack, Signature};

/// Rows of the working table.
pub const ROWS: usize = 64;

/// Most bytes that each call can write: the control rows of a component, the unit starts of one, a file, a record list.
pub const CONTROL_BYTES: usize = 16 * (1 + 64 * (1 + 16) + 16);
pub const START_BYTES: usize = 8 * 4096;
pub const FILE_BYTES: usize = 512 * 128;
pub const LIST_BYTES: usize = 16 * 31 * 128;

/// Most stack that a call takes, as measured: listing makes its rows there before it writes them. Every other call takes less
/// than 8 KiB.
pub const STACK_BYTES: usize = 72 * 1024;

/// Working memory with a row for each component that a file may have, so that no call refuses it as too short. It serves any
/// number of calls.
#[derive(Clone, Debug)]
pub struct Table {
    rows: [Signature; ROWS],
}

impl Table {
    pub fn new() -> Table {
        Table { rows: [Signature::default(); ROWS] }
    }
}

impl Default for Table {
    fn default() -> Table {
        Table::new()
    }
}

/// Judges a file. Refusals: those of the file.
pub fn judge(file: &[u8], table: &mut Table) -> Result<Accepted, Refusal> {
    lent::judge(file, &mut table.rows)
}

/// Judges a file, then writes the control rows of one of its built components, 16 bytes each; answers how many.
/// Refusals as the verdict, then 14, then 13 for `out`.
pub fn lower(file: &[u8], table: &mut Table, component: u64, out: &mut [u8]) -> Result<usize, Refusal> {
    lent::lower(file, &mut table.rows, component, out)
}

/// Judges a file, then writes when each leaf unit of one of its components starts, 8 bytes each; answers how many.
/// Refusals as the verdict, then 14, then 13 for a flat limit or for `out`.
pub fn list(file: &[u8], table: &mut Table, component: u64, out: &mut [u8]) -> Result<usize, Refusal> {
    lent::list(file, &mut table.rows, component, out)
}
