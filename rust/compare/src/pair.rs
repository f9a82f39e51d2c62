//! One call, made of both implementations on memory with the same content.

use dansevik::plain;
use dansevik_host as host;

/// What a call may answer.
#[derive(Clone, Copy, Debug, PartialEq, Eq)]
pub enum Answered {
    /// Records, rows or bytes; and of a verdict the components, of a record its place in the file.
    Accepted(u64, u64),
    /// A number and a position.
    Refused(u64, u64),
}

impl Answered {
    /// 0 where it is accepted, otherwise the number of the refusal.
    pub fn number(self) -> u64 {
        match self {
            Answered::Accepted(..) => 0,
            Answered::Refused(number, _) => number,
        }
    }
}

fn of_plain<T>(answer: Result<T, plain::Refusal>, told: impl FnOnce(T) -> (u64, u64)) -> Answered {
    match answer {
        Ok(values) => accepted(told(values)),
        Err(refusal) => Answered::Refused(refusal.fault as u64, refusal.position),
    }
}

fn of_host<T>(answer: Result<T, host::Refusal>, told: impl FnOnce(T) -> (u64, u64)) -> Answered {
    match answer {
        Ok(values) => accepted(told(values)),
        Err(refusal) => Answered::Refused(refusal.fault as u64, refusal.position),
    }
}

fn accepted((count, other): (u64, u64)) -> Answered {
    Answered::Accepted(count, other)
}

fn amount(count: usize) -> (u64, u64) {
    (count as u64, 0)
}

/// The longest buffer that is lent: more than any component's control rows, any list of unit starts and any file take.
pub const AMPLE: usize = 65_536 + 512;

/// Bytes in front of and behind every buffer: nobody may touch them.
const GUARD: usize = 32;

/// The tables and buffers that are lent, kept from call to call.
pub struct Lent {
    /// What the lent bytes hold before a call.
    before: Vec<u8>,
    plain_rows: Vec<plain::Signature>,
    host_rows: Vec<host::Signature>,
    plain_out: Vec<u8>,
    host_out: Vec<u8>,
}

impl Lent {
    pub fn new() -> Lent {
        let before: Vec<u8> = (0..AMPLE + 2 * GUARD).map(|at| (at as u8).wrapping_mul(167) ^ (at >> 8) as u8 ^ 0x5A).collect();
        Lent { before, plain_rows: vec![], host_rows: vec![], plain_out: vec![], host_out: vec![] }
    }

    /// Tables that are not zero, and buffers of so many bytes.
    fn fill(&mut self, rows: usize, room: usize) {
        self.plain_rows.clear();
        self.plain_rows.resize(rows, plain::Signature { class: 1, delay: 2, inputs: 3, outputs: 4, first: 5 });
        self.host_rows.clear();
        self.host_rows.resize(rows, host::Signature { class: 1, delay: 0xFFFF, inputs: 3, outputs: 4, first: 5 });
        for out in [&mut self.plain_out, &mut self.host_out] {
            out.clear();
            out.extend_from_slice(&self.before[..room + 2 * GUARD]);
        }
    }

    /// Both buffers of so many bytes, without their guards.
    fn outs(&mut self, room: usize) -> (&mut [u8], &mut [u8]) {
        (&mut self.plain_out[GUARD..GUARD + room], &mut self.host_out[GUARD..GUARD + room])
    }

    /// The answer of both; or how they differ. The tables are zero, and the buffers equal and untouched but for so many bytes
    /// of each that was answered.
    fn compared(&self, plain: Answered, host: Answered, each: usize) -> Result<Answered, String> {
        if plain != host {
            return Err(format!("answered {host:?}, expected {plain:?}"));
        }
        if self.host_rows.iter().any(|row| *row != host::Signature::default()) {
            return Err("left a table that is not zero".to_string());
        }
        if let Some(at) = first_unequal(&self.host_out, &self.plain_out) {
            return Err(format!("left another byte at {} of the buffer", at as isize - GUARD as isize));
        }
        let written = match host {
            Answered::Accepted(count, _) => GUARD + each * count as usize,
            Answered::Refused(..) => GUARD,
        };
        let kept = &self.before[..self.host_out.len()];
        if self.host_out[..GUARD] != kept[..GUARD] || self.host_out[written..] != kept[written..] {
            return Err("changed bytes outside the written part".to_string());
        }
        Ok(host)
    }

    pub fn judge(&mut self, file: &[u8], rows: usize) -> Result<Answered, String> {
        self.fill(rows, 0);
        let plain = of_plain(plain::judge(file, &mut self.plain_rows), |a| (a.records as u64, a.components as u64));
        let host = of_host(host::lent::judge(file, &mut self.host_rows), |a| (a.records as u64, a.components as u64));
        self.compared(plain, host, 0)
    }

    pub fn lower(&mut self, file: &[u8], rows: usize, asked: u64, room: usize) -> Result<Answered, String> {
        self.fill(rows, room);
        let range = GUARD..GUARD + room;
        let plain = plain::lower(file, &mut self.plain_rows, asked, &mut self.plain_out[range.clone()]);
        let host = host::lent::lower(file, &mut self.host_rows, asked, &mut self.host_out[range]);
        self.compared(of_plain(plain, amount), of_host(host, amount), 16)
    }

    pub fn list(&mut self, file: &[u8], rows: usize, asked: u64, room: usize) -> Result<Answered, String> {
        self.fill(rows, room);
        let range = GUARD..GUARD + room;
        let plain = plain::list(file, &mut self.plain_rows, asked, &mut self.plain_out[range.clone()]);
        let host = host::lent::list(file, &mut self.host_rows, asked, &mut self.host_out[range]);
        self.compared(of_plain(plain, amount), of_host(host, amount), 8)
    }

    pub fn pack(&mut self, list: &[u8], room: usize) -> Result<Answered, String> {
        self.fill(0, room);
        let (plain_out, host_out) = self.outs(room);
        let (plain, host) = (plain::pack(list, plain_out), host::pack(list, host_out));
        self.compared(of_plain(plain, amount), of_host(host, amount), 1)
    }

    pub fn unpack(&mut self, file: &[u8], room: usize) -> Result<Answered, String> {
        self.fill(0, room);
        let (plain_out, host_out) = self.outs(room);
        let (plain, host) = (plain::unpack(file, plain_out), host::unpack(file, host_out));
        self.compared(of_plain(plain, amount), of_host(host, amount), 1)
    }

    /// What the last call wrote, so many bytes.
    pub fn written(&self, bytes: usize) -> &[u8] {
        &self.host_out[GUARD..GUARD + bytes]
    }
}

impl Default for Lent {
    fn default() -> Lent {
        Lent::new()
    }
}

fn first_unequal(one: &[u8], other: &[u8]) -> Option<usize> {
    if one == other {
        return None;
    }
    (0..one.len()).find(|at| one[*at] != other[*at])
}

/// Where a record stands in the file: its length and its place.
pub fn record(file: &[u8], number: u64) -> Result<Answered, String> {
    let place = |part: &[u8]| (part.len() as u64, part.as_ptr() as u64 - file.as_ptr() as u64);
    let plain = of_plain(plain::record(file, number), place);
    let host = of_host(host::record(file, number), place);
    if plain != host {
        return Err(format!("answered {host:?}, expected {plain:?}"));
    }
    Ok(host)
}
