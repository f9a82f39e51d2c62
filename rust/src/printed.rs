//! What the programs print for a file, by the fast implementation.

use crate::cases::line;
use crate::plain::{decode, judge, list, lower, unpack, Record, Refusal, Signature, Source, RECORD, RECORDS, ROWS};
use std::fmt::Write;

/// Most rows that a component is lowered to: one, and one for each record.
const LOWERED: usize = 1 + RECORDS;

/// Most rows of a flat listing.
const LISTED: usize = 4096;

fn table() -> [Signature; ROWS] {
    [Signature::default(); ROWS]
}

/// `accepted C R`, or the refusal.
pub fn judged(file: &[u8]) -> String {
    format!("{}\n", line(file))
}

/// The rows of all built components, or the refusal.
pub fn lowered(file: &[u8]) -> String {
    fn text(file: &[u8]) -> Result<String, Refusal> {
        let components = judge(file, &mut table())?.components;
        let mut records = vec![0; RECORD * RECORDS];
        unpack(file, &mut records)?;
        let mut text = String::new();
        let mut rows = vec![0; 16 * LOWERED];
        for component in 0..components {
            // a leaf is refused and prints nothing
            let count = lower(file, &mut table(), component as u64, &mut rows).unwrap_or(0);
            for row in rows[..16 * count].chunks(16) {
                let row: Vec<u16> = row.chunks(2).map(|b| u16::from_le_bytes([b[0], b[1]])).collect();
                text.push_str(&lowered_row(&records, component, &row));
            }
        }
        Ok(text + "end\n")
    }
    text(file).unwrap_or_else(|refusal| format!("{refusal}\n"))
}

fn lowered_row(records: &[u8], component: usize, row: &[u16]) -> String {
    match row[0] {
        1 => format!("component {component} delay {} states {}\n", row[1], row[2]),
        2 => format!("go {} {} {}\n", row[1], row[2], row[3]),
        3 => format!("in {} {} {} {} {}\n", row[1], row[2], row[3], row[4], source(records, row[5])),
        _ => format!("out {} {}\n", row[1], source(records, row[2])),
    }
}

fn source(records: &[u8], number: u16) -> String {
    let at = RECORD * usize::from(number);
    let bytes: &[u8; RECORD] = records[at..at + RECORD].try_into().expect("sixteen bytes");
    match decode(bytes) {
        Some(Record::Argument(source) | Record::Connection(source)) => match source {
            Source::Own(input) => format!("own {input}"),
            Source::Output { invocation, output } => format!("inv {invocation} {output}"),
            Source::Constant(value) => format!("const {value}"),
        },
        other => panic!("a row names record {number}, which is {other:?}"),
    }
}

/// The unit starts of a component, the last one where none is asked for; or the refusal.
pub fn listed(file: &[u8], asked: Option<u64>) -> String {
    fn text(file: &[u8], asked: Option<u64>) -> Result<String, Refusal> {
        let components = judge(file, &mut table())?.components;
        let mut rows = vec![0; 8 * LISTED];
        let count = list(file, &mut table(), asked.unwrap_or(components as u64 - 1), &mut rows)?;
        let mut text = String::new();
        for row in rows[..8 * count].chunks(8) {
            let cycle = u32::from_le_bytes([row[0], row[1], row[2], row[3]]);
            let half = |at: usize| u16::from_le_bytes([row[at], row[at + 1]]);
            let _ = writeln!(text, "start {cycle} {} {}", half(4), half(6));
        }
        Ok(text + "end\n")
    }
    text(file, asked).unwrap_or_else(|refusal| format!("{refusal}\n"))
}
