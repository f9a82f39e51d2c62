//! Sixteen bytes to a record and back.

use super::blocks::{place, word, RECORD};

#[derive(Clone, Copy, Debug, PartialEq, Eq)]
pub enum Class {
    Leaf,
    Built,
}

#[derive(Clone, Copy, Debug, PartialEq, Eq)]
pub enum Side {
    Input,
    Output,
}

/// The interval [start, end) and the width.
#[derive(Clone, Copy, Debug, PartialEq, Eq)]
pub struct Port {
    pub start: u16,
    pub end: u16,
    pub width: u8,
}

/// What an argument or a connection reads.
#[derive(Clone, Copy, Debug, PartialEq, Eq)]
pub enum Source {
    Own(u16),
    Output { invocation: u16, output: u16 },
    Constant(u64),
}

#[derive(Clone, Copy, Debug, PartialEq, Eq)]
pub enum Record {
    Component { class: Class, delay: u16 },
    Port { side: Side, port: Port },
    Instance { component: u16 },
    Invocation { instance: u16, offset: u16 },
    Argument(Source),
    Connection(Source),
}

/// The bytes of a record as two numbers. Each function below reads one kind; none where a range or a zero byte is wrong.
/// A field that ends a half is read with all the bytes above it, so that its bound also says that these are zero.
#[derive(Clone, Copy)]
pub(super) struct Slot {
    low: u64,
    high: u64,
}

impl Slot {
    #[inline]
    pub(super) fn of(bytes: &[u8]) -> Slot {
        Slot { low: word(&bytes[..8]), high: word(&bytes[8..RECORD]) }
    }

    #[inline]
    pub(super) fn kind(self) -> u8 {
        self.low as u8
    }

    #[inline]
    fn second(self) -> u8 {
        (self.low >> 8) as u8
    }

    #[inline]
    pub(super) fn component(self) -> Option<(Class, u16)> {
        let delay = self.low >> 16;
        if delay.wrapping_sub(1) >= 1024 || self.high != 0 {
            return None;
        }
        match self.second() {
            0 => Some((Class::Leaf, delay as u16)),
            1 => Some((Class::Built, delay as u16)),
            _ => None,
        }
    }

    #[inline]
    pub(super) fn port(self) -> Option<(Side, Port)> {
        let port = Held(self.low).port();
        let width = self.low >> 48;
        if port.start >= port.end || port.end > 1024 || width.wrapping_sub(1) >= 64 || self.high != 0 {
            return None;
        }
        match self.second() {
            0 => Some((Side::Input, port)),
            1 => Some((Side::Output, port)),
            _ => None,
        }
    }

    #[inline]
    pub(super) fn instance(self) -> Option<u16> {
        let component = self.low >> 16;
        if component >= 64 || self.second() != 0 || self.high != 0 {
            return None;
        }
        Some(component as u16)
    }

    /// Instance and offset.
    #[inline]
    pub(super) fn invocation(self) -> Option<(u16, u16)> {
        let instance = (self.low >> 16) as u16;
        let offset = self.low >> 32;
        if instance >= 32 || offset >= 1024 || self.second() != 0 || self.high != 0 {
            return None;
        }
        Some((instance, offset as u16))
    }

    #[inline]
    pub(super) fn source(self) -> Option<Source> {
        let rest = self.low >> 16;
        match self.second() {
            0 if rest < 16 && self.high == 0 => Some(Source::Own(rest as u16)),
            1 => {
                let invocation = rest as u16;
                let output = rest >> 16;
                if invocation >= 64 || output >= 16 || self.high != 0 {
                    return None;
                }
                Some(Source::Output { invocation, output: output as u16 })
            }
            2 if rest == 0 => Some(Source::Constant(self.high)),
            _ => None,
        }
    }
}

/// A port as the first half of its record holds it: start, end and width, above the kind.
#[derive(Clone, Copy)]
pub(super) struct Held(u64);

/// How far an event's offset moves a held port: its start and its end at once.
#[derive(Clone, Copy, Default)]
pub(super) struct Shift(u64);

impl Shift {
    #[inline]
    pub(super) fn by(offset: u16) -> Shift {
        Shift(u64::from(offset) << 16 | u64::from(offset) << 32)
    }
}

impl Held {
    #[inline]
    pub(super) fn start(self) -> u16 {
        (self.0 >> 16) as u16
    }

    #[inline]
    pub(super) fn end(self) -> u16 {
        (self.0 >> 32) as u16
    }

    #[inline]
    pub(super) fn width(self) -> u8 {
        (self.0 >> 48) as u8
    }

    /// The port at the cycles of another event; neither sum reaches the next field.
    #[inline]
    pub(super) fn moved(self, shift: Shift) -> Held {
        Held(self.0 + shift.0)
    }

    #[inline]
    pub(super) fn equally_wide(self, other: Held) -> bool {
        (self.0 ^ other.0) >> 48 == 0
    }

    /// Whether this port's interval contains the other's.
    #[inline]
    pub(super) fn contains(self, other: Held) -> bool {
        self.start() <= other.start() && other.end() <= self.end()
    }

    #[inline]
    fn port(self) -> Port {
        Port { start: self.start(), end: self.end(), width: self.width() }
    }
}

/// The record of a sound file with this number.
#[inline]
pub(super) fn slot(file: &[u8], number: usize) -> Slot {
    let at = place(number);
    Slot::of(&file[at..at + RECORD])
}

/// The port that the record with this number declares; it has passed.
#[inline]
pub(super) fn held(file: &[u8], number: usize) -> Held {
    let at = place(number);
    Held(word(&file[at..at + 8]))
}

/// What sixteen bytes say; none is refusal 4.
pub fn decode(bytes: &[u8; RECORD]) -> Option<Record> {
    let slot = Slot::of(bytes);
    match slot.kind() {
        1 => slot.component().map(|(class, delay)| Record::Component { class, delay }),
        2 => slot.port().map(|(side, port)| Record::Port { side, port }),
        3 => slot.instance().map(|component| Record::Instance { component }),
        4 => slot.invocation().map(|(instance, offset)| Record::Invocation { instance, offset }),
        5 => slot.source().map(Record::Argument),
        6 => slot.source().map(Record::Connection),
        _ => None,
    }
}

/// The sixteen bytes of a record, its numbers in range or not.
pub fn encode(record: &Record) -> [u8; RECORD] {
    match *record {
        Record::Component { class, delay } => bytes(1, class as u8, [delay, 0, 0], 0),
        Record::Port { side, port } => bytes(2, side as u8, [port.start, port.end, u16::from(port.width)], 0),
        Record::Instance { component } => bytes(3, 0, [component, 0, 0], 0),
        Record::Invocation { instance, offset } => bytes(4, 0, [instance, offset, 0], 0),
        Record::Argument(source) => encode_source(5, source),
        Record::Connection(source) => encode_source(6, source),
    }
}

fn encode_source(kind: u8, source: Source) -> [u8; RECORD] {
    match source {
        Source::Own(input) => bytes(kind, 0, [input, 0, 0], 0),
        Source::Output { invocation, output } => bytes(kind, 1, [invocation, output, 0], 0),
        Source::Constant(value) => bytes(kind, 2, [0, 0, 0], value),
    }
}

fn bytes(kind: u8, second: u8, fields: [u16; 3], high: u64) -> [u8; RECORD] {
    let mut out = [0; RECORD];
    out[0] = kind;
    out[1] = second;
    for (place, field) in out[2..8].chunks_exact_mut(2).zip(fields) {
        place.copy_from_slice(&field.to_le_bytes());
    }
    out[8..].copy_from_slice(&high.to_le_bytes());
    out
}
