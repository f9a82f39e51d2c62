//! Bytes to records: refusals 1 to 4.

use super::{Call, Port, Record, Refused, Source};

/// The records of a file: refusals 1, 2, 3.
pub fn records(file: &[u8]) -> Result<Vec<Vec<u8>>, Refused> {
    if (1..=128).all(|blocks| file.len() != 512 * blocks) {
        return Err((1, 0));
    }
    let blocks: Vec<&[u8]> = file.chunks(512).collect();
    let mut list = Vec::new();
    for (number, block) in blocks.iter().enumerate() {
        if fnv(&block[..508]) != little(&block[508..512]) {
            return Err((2, number as u64));
        }
        let last = number == blocks.len() - 1;
        let count = block[4] as usize;
        let number_right = little(&block[0..4]) == number as u64;
        let count_right = if last { (1..=31).contains(&count) } else { count == 31 };
        let mark_right = block[5] == if last { 1 } else { 0 };
        let zero_right = block[6] == 0 && block[7] == 0;
        let spare_right = block[504..508].iter().all(|b| *b == 0);
        let slots: Vec<&[u8]> = block[8..504].chunks(16).collect();
        let unused_right = slots.iter().skip(count).all(|slot| slot.iter().all(|b| *b == 0));
        if !(number_right && count_right && mark_right && zero_right && spare_right && unused_right) {
            return Err((3, number as u64));
        }
        list.extend(slots[..count].iter().map(|slot| slot.to_vec()));
    }
    Ok(list)
}

fn little(bytes: &[u8]) -> u64 {
    bytes.iter().rev().fold(0, |sum, b| sum * 256 + *b as u64)
}

fn fnv(bytes: &[u8]) -> u64 {
    let mut h = 2_166_136_261u64;
    for b in bytes {
        h ^= *b as u64;
        h = h * 16_777_619 % (1 << 32);
    }
    h
}

/// Sixteen bytes to a record: none where kind, range or a zero byte is wrong.
pub(super) fn record(bytes: &[u8]) -> Option<Record> {
    let field = |at: usize| little(&bytes[at..at + 2]);
    let second = bytes[1];
    let port = Port { start: field(2), end: field(4), width: bytes[6] as u64 };
    let port_right = port.start < port.end && port.end <= 1024 && port.width >= 1 && port.width <= 64;
    let source = match second {
        0 => Source::Own(field(2) as usize),
        1 => Source::Output(field(2) as usize, field(4) as usize),
        _ => Source::Constant(little(&bytes[8..16])),
    };
    let source_right = second <= 2
        && match source {
            Source::Own(input) => input <= 15,
            Source::Output(invocation, output) => invocation <= 63 && output <= 15,
            Source::Constant(_) => true,
        };
    let source_named: &[usize] = match source {
        Source::Own(_) => &[0, 1, 2, 3],
        Source::Output(..) => &[0, 1, 2, 3, 4, 5],
        Source::Constant(_) => &[0, 1, 8, 9, 10, 11, 12, 13, 14, 15],
    };
    let (named, in_range, record): (&[usize], bool, Record) = match bytes[0] {
        1 => {
            let delay = field(2);
            (&[0, 1, 2, 3], second <= 1 && (1..=1024).contains(&delay), Record::Component { built: second == 1, delay })
        }
        2 if second == 0 => (&[0, 1, 2, 3, 4, 5, 6], port_right, Record::Input(port)),
        2 if second == 1 => (&[0, 1, 2, 3, 4, 5, 6], port_right, Record::Output(port)),
        3 => (&[0, 2, 3], field(2) <= 63, Record::Instance(field(2) as usize)),
        4 => {
            let call = Call { instance: field(2) as usize, offset: field(4) };
            (&[0, 2, 3, 4, 5], call.instance <= 31 && call.offset <= 1023, Record::Invocation(call))
        }
        5 => (source_named, source_right, Record::Argument(source)),
        6 => (source_named, source_right, Record::Connection(source)),
        _ => return None,
    };
    let rest_zero = (0..16).all(|at| named.contains(&at) || bytes[at] == 0);
    if in_range && rest_zero {
        Some(record)
    } else {
        None
    }
}
