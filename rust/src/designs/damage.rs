//! Faults by chance, most of them small, so that the rest of the file stays lawful.

use super::chance::Chance;
use super::list::{seal, List};
use crate::plain::{encode, Record, Source, RECORDS};

/// The values around every limit of document 01.
const EDGES: [u16; 20] = [0, 1, 2, 15, 16, 17, 31, 32, 33, 63, 64, 65, 255, 256, 1022, 1023, 1024, 1025, 1026, 65_535];

/// A list with one change, most often a fault.
pub fn damaged(chance: &mut Chance, mut list: List) -> List {
    let many = list.records.len();
    let n = chance.below(many);
    let m = chance.below(many);
    match chance.below(20) {
        0 => list.records[n][chance.below(16)] = chance.number() as u8,
        1 => list.records[n][chance.below(16)] ^= 1 << chance.below(8),
        2 => {
            let at = chance.pick(&[2, 4]);
            list.records[n][at..at + 2].copy_from_slice(&chance.pick(&EDGES).to_le_bytes());
        }
        3 if many > 1 => {
            list.records.remove(n);
        }
        4 if many < RECORDS => list.records.insert(m, list.records[n]),
        5 => list.records.swap(n, m),
        6 if n + 1 < many => list.records.swap(n, n + 1),
        7 if n > 0 && chance.one_in(4) => list.records.truncate(n),
        8 if many + 70 < RECORDS => repeat(chance, &mut list, n),
        9 if chance.one_in(4) => list.records[n][0] = chance.below(8) as u8,
        _ => aim(chance, &mut list.records[n]),
    }
    list
}

/// Repeats a record about as often as a limit allows.
fn repeat(chance: &mut Chance, list: &mut List, n: usize) {
    let often = chance.pick(&[14, 15, 16, 31, 32, 62, 63, 64]);
    let again = vec![list.records[n]; often];
    list.records.splice(n..n, again);
}

/// A small change of what a record of its kind says, in range most of the time.
fn aim(chance: &mut Chance, record: &mut [u8; 16]) {
    let up = chance.one_in(2);
    match record[0] {
        1 | 3 => nudge(record, 2, up),
        2 if chance.one_in(3) => record[6] = chance.pick(&[1, 8, 31, 32, 33, 64]),
        4 if chance.one_in(4) => record[2..4].copy_from_slice(&[chance.below(5) as u8, 0]),
        4 if chance.one_in(2) => record[4..6].copy_from_slice(&[chance.below(20) as u8, 0]),
        4 => nudge(record, 4, up),
        5 | 6 if chance.one_in(2) => other_source(chance, record),
        _ => nudge(record, chance.pick(&[2, 4]), up),
    }
}

/// One more or one less in a 16-bit field.
fn nudge(record: &mut [u8; 16], at: usize, up: bool) {
    let field = u16::from_le_bytes([record[at], record[at + 1]]);
    let next = if up { field.wrapping_add(1) } else { field.wrapping_sub(1) };
    record[at..at + 2].copy_from_slice(&next.to_le_bytes());
}

/// Another source for an argument or a connection; other records stay.
fn other_source(chance: &mut Chance, record: &mut [u8; 16]) {
    let source = match chance.below(3) {
        0 => Source::Own(chance.below(18) as u16),
        1 => Source::Output { invocation: chance.below(12) as u16, output: chance.below(4) as u16 },
        _ => Source::Constant(1 << chance.below(64)),
    };
    match record[0] {
        5 => *record = encode(&Record::Argument(source)),
        6 => *record = encode(&Record::Connection(source)),
        _ => (),
    }
}

/// A file with a change in its blocks: bytes, headers, spare bytes, length; most with the check made right again.
pub fn damaged_blocks(chance: &mut Chance, mut file: Vec<u8>) -> Vec<u8> {
    let blocks = file.len() / 512;
    let block = 512 * chance.below(blocks);
    match chance.below(8) {
        0 => file[block + chance.below(512)] ^= 1 << chance.below(8),
        1 => file.truncate(chance.below(file.len() + 1)),
        2 => {
            let more = chance.pick(&[1, 16, 511, 512]);
            file.extend(vec![0; more]);
        }
        3 => file.truncate(512 * chance.below(blocks + 1)),
        4 => file[block + 4] = chance.pick(&[0, 1, 2, 29, 30, 31, 32, 255]),
        5 => file[block + 5] ^= 1,
        6 => file[block + chance.pick(&[0, 1, 2, 3, 6, 7, 504, 505, 506, 507])] ^= 1 << chance.below(8),
        _ => file[block + 8 + chance.below(496)] = 1,
    }
    if !chance.one_in(4) {
        seal(&mut file);
    }
    file
}
