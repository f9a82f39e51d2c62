//! A record list, written record by record, in range and in place or not.

use crate::plain::{check, encode, pack, Class, Port, Record, Side, Source, BLOCK};

#[derive(Clone, Debug, Default, PartialEq, Eq)]
pub struct List {
    pub records: Vec<[u8; 16]>,
}

pub fn own(input: u16) -> Source {
    Source::Own(input)
}

pub fn output_of(invocation: u16, output: u16) -> Source {
    Source::Output { invocation, output }
}

pub fn constant(value: u64) -> Source {
    Source::Constant(value)
}

impl List {
    pub fn new() -> List {
        List::default()
    }

    pub fn record(mut self, record: Record) -> List {
        self.records.push(encode(&record));
        self
    }

    pub fn leaf(self, delay: u16) -> List {
        self.record(Record::Component { class: Class::Leaf, delay })
    }

    pub fn built(self, delay: u16) -> List {
        self.record(Record::Component { class: Class::Built, delay })
    }

    pub fn input(self, start: u16, end: u16, width: u8) -> List {
        self.record(Record::Port { side: Side::Input, port: Port { start, end, width } })
    }

    pub fn output(self, start: u16, end: u16, width: u8) -> List {
        self.record(Record::Port { side: Side::Output, port: Port { start, end, width } })
    }

    pub fn instance(self, component: u16) -> List {
        self.record(Record::Instance { component })
    }

    pub fn invocation(self, instance: u16, offset: u16) -> List {
        self.record(Record::Invocation { instance, offset })
    }

    pub fn argument(self, source: Source) -> List {
        self.record(Record::Argument(source))
    }

    pub fn connection(self, source: Source) -> List {
        self.record(Record::Connection(source))
    }

    /// Goes on with each number from 0 to n−1.
    pub fn times(self, n: u16, more: impl Fn(List, u16) -> List) -> List {
        (0..n).fold(self, more)
    }

    /// The list with a record replaced.
    pub fn with(mut self, number: usize, record: Record) -> List {
        self.records[number] = encode(&record);
        self
    }

    /// The list with one byte of a record replaced.
    pub fn with_byte(mut self, number: usize, at: usize, byte: u8) -> List {
        self.records[number][at] = byte;
        self
    }

    pub fn without(mut self, number: usize) -> List {
        self.records.remove(number);
        self
    }

    /// The file of the list: 1 to 3,968 records.
    pub fn file(&self) -> Vec<u8> {
        let list = self.records.concat();
        let mut file = vec![0; BLOCK * ((self.records.len() + 30) / 31)];
        pack(&list, &mut file).expect("a list of 1 to 3,968 records");
        file
    }
}

/// Makes the check of every block right.
pub fn seal(file: &mut [u8]) {
    for block in file.chunks_exact_mut(BLOCK) {
        let sum = check(&block[..508]);
        block[508..].copy_from_slice(&sum.to_le_bytes());
    }
}
