//! An implementation of the whole of document 01: one pass over the records, no allocation, no unsafe code.
//!
//! The layers go one way: answers, blocks and packing, records, verdict, lowering and listing.
#![forbid(unsafe_code)]

mod answers;
mod blocks;
mod calls;
mod current;
mod listing;
mod lowering;
mod packing;
mod records;
mod table;
mod verdict;
mod walk;

pub use answers::{Accepted, Fault, Refusal};
pub use blocks::{check, record, sound, BLOCK, BLOCKS, RECORD, RECORDS, SLOTS};
pub use listing::list;
pub use lowering::lower;
pub use packing::{pack, unpack};
pub use records::{decode, encode, Class, Port, Record, Side, Source};
pub use table::{Signature, ROWS};
pub use verdict::judge;
