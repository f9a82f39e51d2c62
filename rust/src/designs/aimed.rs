//! A lawful design with one fault, aimed at a refusal, often by one past what its rule allows.

use super::chance::Chance;
use super::draft::{Draft, Drawing};
use super::list::{seal, List};
use crate::plain::{Fault, Port, Source, RECORDS};

/// The refusals that a file can be aimed at.
pub fn targets() -> Vec<Fault> {
    Fault::ALL.iter().copied().filter(|fault| fault.in_a_file()).collect()
}

/// The file of a design with a fault that most often gives this refusal; lawful still where the design has nothing that the
/// fault could be made in.
pub fn aimed(chance: &mut Chance, target: Fault, mut drawing: Drawing) -> Vec<u8> {
    match target {
        Fault::Length => return length(chance, drawing.list().file()),
        Fault::Check => return check(chance, drawing.list().file()),
        Fault::Header => return header(chance, drawing.list().file()),
        Fault::Record => return record(chance, drawing.list()).file(),
        Fault::Place => return place(chance, drawing.list()).file(),
        Fault::TooMany => return too_many(chance, drawing.list()).file(),
        _ => (),
    }
    // the built components are the ones that have anything but ports
    let several: Vec<usize> = (0..drawing.components.len()).filter(|c| !drawing.components[*c].calls.is_empty()).collect();
    let own = if several.is_empty() || target == Fault::Interval {
        chance.below(drawing.components.len())
    } else {
        chance.pick(&several)
    };
    let mut draft = drawing.components[own].clone();
    match target {
        Fault::Reference => reference(chance, &mut draft, own),
        Fault::Width => width(chance, &mut draft),
        Fault::Interval => interval(chance, &mut draft),
        Fault::Spacing => spacing(chance, &drawing, &mut draft),
        Fault::Span => span(chance, &drawing, &mut draft),
        _ => reading(chance, &mut draft),
    }
    let more = draft.records() - drawing.components[own].records();
    if drawing.records() + more <= RECORDS {
        drawing.components[own] = draft;
    }
    drawing.list().file()
}

fn length(chance: &mut Chance, mut file: Vec<u8>) -> Vec<u8> {
    match chance.below(4) {
        0 => Vec::new(),
        1 => {
            let blocks = file.len() / 512;
            file.truncate(512 * chance.below(blocks) + 1 + chance.below(511));
            file
        }
        2 => {
            file.extend(vec![0; 1 + chance.below(511)]);
            file
        }
        _ => {
            let block = file[..512].to_vec();
            file.extend(block.repeat(129 - file.len() / 512));
            file
        }
    }
}

fn check(chance: &mut Chance, mut file: Vec<u8>) -> Vec<u8> {
    let at = chance.below(file.len());
    file[at] ^= 1 << chance.below(8);
    file
}

fn header(chance: &mut Chance, mut file: Vec<u8>) -> Vec<u8> {
    let last = file.len() - 512;
    let block = 512 * chance.below(file.len() / 512);
    let used = 8 + 16 * usize::from(file[last + 4]);
    match chance.below(4) {
        0 => file[block + chance.pick(&[0, 1, 2, 3, 5, 6, 7])] ^= 1 << chance.below(8),
        1 => file[block + 4] = chance.pick(&[0, 30, 32, 33, 255]),
        2 => file[block + 504 + chance.below(4)] = 1 << chance.below(8),
        _ => file[last + used + chance.below(508 - used)] = 1 << chance.below(8),
    }
    seal(&mut file);
    file
}

fn put(record: &mut [u8; 16], at: usize, field: u16) {
    record[at..at + 2].copy_from_slice(&field.to_le_bytes());
}

fn field(record: &[u8; 16], at: usize) -> u16 {
    u16::from_le_bytes([record[at], record[at + 1]])
}

/// A kind, a field one past its range, or a byte that is to be zero.
fn record(chance: &mut Chance, mut list: List) -> List {
    let n = chance.below(list.records.len());
    let record = &mut list.records[n];
    let start = field(record, 2);
    match (record[0], chance.below(6)) {
        (_, 0) => record[0] = chance.pick(&[0, 7, 255]),
        (1 | 2, 1) => record[1] = 2,
        (1, 2) => put(record, 2, 0),
        (1, 3) => put(record, 2, 1025),
        (2, 2) => put(record, 4, start),
        (2, 3) => put(record, 4, 1025),
        (2, 4) => record[6] = chance.pick(&[0, 65]),
        (3, 1 | 2) => put(record, 2, 64),
        (4, 1) => put(record, 2, 32),
        (4, 2) => put(record, 4, 1024),
        (5 | 6, 1) => record[1] = 3,
        (5 | 6, 2) if record[1] == 0 => put(record, 2, 16),
        (5 | 6, 2) if record[1] == 1 => put(record, 2, 64),
        (5 | 6, 3) if record[1] == 1 => put(record, 4, 16),
        (5 | 6, _) if record[1] == 2 => record[2 + chance.below(6)] = 1,
        _ => record[8 + chance.below(8)] = 1 << chance.below(8),
    }
    list
}

/// An argument or connection missing or too many, a record before its place, or a file that is cut.
fn place(chance: &mut Chance, mut list: List) -> List {
    let many = list.records.len();
    let bound: Vec<usize> = (0..many).filter(|n| list.records[*n][0] >= 5).collect();
    let n = if bound.is_empty() { chance.below(many) } else { chance.pick(&bound) };
    match chance.below(5) {
        0 if many > 1 => {
            list.records.remove(n);
        }
        1 if many < RECORDS => list.records.insert(n, list.records[n]),
        2 if n > 0 => list.records.truncate(n),
        3 if n > 0 => list.records.swap(n - 1, n),
        _ => list.records.swap(0, chance.below(many)),
    }
    list
}

/// A port, an instance or an invocation one time too often, or a component at the end.
fn too_many(chance: &mut Chance, mut list: List) -> List {
    let limit = |record: &[u8; 16]| [65, 16, 32, 64][usize::from(record[0]).min(4) - 1];
    let counted: Vec<usize> = (0..list.records.len()).filter(|n| matches!(list.records[*n][0], 2..=4)).collect();
    let n = if counted.is_empty() || chance.one_in(4) { 0 } else { chance.pick(&counted) };
    let again = vec![list.records[n]; limit(&list.records[n])];
    let at = if n == 0 { list.records.len() } else { n };
    if list.records.len() + again.len() <= RECORDS {
        list.records.splice(at..at, again);
    }
    list
}

/// The number of something that is just not there.
fn reference(chance: &mut Chance, draft: &mut Draft, own: usize) {
    let call = chance.below(draft.calls.len());
    match chance.below(5) {
        0 if !draft.instances.is_empty() => {
            let instance = chance.below(draft.instances.len());
            draft.instances[instance] = chance.pick(&[own, 63, (own + 1).min(63)]);
        }
        1 if !draft.calls.is_empty() => draft.calls[call].0 = draft.instances.len().min(31),
        2 => source(chance, draft, Source::Own(draft.inputs.len().min(15) as u16)),
        3 => {
            let invocation = chance.pick(&[call, call + 1, 63]) as u16;
            source(chance, draft, Source::Output { invocation: invocation.min(63), output: 0 });
        }
        _ => {
            let output = chance.below(16) as u16;
            source(chance, draft, Source::Output { invocation: 0, output });
        }
    }
}

/// Another source at an argument or a connection.
fn source(chance: &mut Chance, draft: &mut Draft, source: Source) {
    let mut all: Vec<&mut Source> = draft.arguments.iter_mut().flatten().chain(&mut draft.connections).collect();
    let many = all.len();
    if many > 0 {
        *all[chance.below(many)] = source;
    }
}

/// A port one bit wider or narrower, or a constant one past what is allowed to the narrowest of its readers.
fn width(chance: &mut Chance, draft: &mut Draft) {
    if chance.one_in(3) {
        let value = 1 << chance.pick(&[1, 8, 32, 63]);
        source(chance, draft, Source::Constant(value));
        return;
    }
    let up = chance.one_in(2);
    if let Some(port) = a_port(chance, draft) {
        port.width = if up { (port.width + 1).min(64) } else { (port.width - 1).max(1) };
    }
}

fn a_port<'a>(chance: &mut Chance, draft: &'a mut Draft) -> Option<&'a mut Port> {
    let many = draft.inputs.len() + draft.outputs.len();
    let n = chance.below(many);
    draft.inputs.iter_mut().chain(&mut draft.outputs).nth(n)
}

/// A port one cycle longer than the delay.
fn interval(chance: &mut Chance, draft: &mut Draft) {
    let delay = draft.delay;
    if let Some(port) = a_port(chance, draft) {
        port.end = (port.start + delay + 1).min(1024);
    }
}

/// An invocation one cycle too close to an earlier one of its instance.
fn spacing(chance: &mut Chance, drawing: &Drawing, draft: &mut Draft) {
    let call = chance.below(draft.calls.len());
    if draft.calls.is_empty() {
        return;
    }
    let (instance, k) = draft.calls[call];
    let d = drawing.of(draft, instance).delay;
    let other = if chance.one_in(2) { k + d - 1 } else { (k + 1).saturating_sub(d) };
    let mut close = draft.calls.clone();
    close.insert(call + 1, (instance, other.min(1023)));
    if close.len() <= 64 {
        draft.arguments.insert(call + 1, draft.arguments[call].clone());
        draft.calls = close;
        moved(draft, call + 1);
    }
}

/// An invocation more has been put at this number: sources that name a later one name the one after it.
fn moved(draft: &mut Draft, new: usize) {
    for source in draft.arguments.iter_mut().flatten().chain(&mut draft.connections) {
        if let Source::Output { invocation, .. } = source {
            if usize::from(*invocation) >= new {
                *invocation += 1;
            }
        }
    }
}

/// A delay one less than the span of an instance, or an invocation one cycle too far from the others of its instance.
fn span(chance: &mut Chance, drawing: &Drawing, draft: &mut Draft) {
    if draft.calls.is_empty() {
        return;
    }
    let call = chance.below(draft.calls.len());
    let (instance, k) = draft.calls[call];
    let d = drawing.of(draft, instance).delay;
    let others: Vec<u16> =
        (0..draft.calls.len()).filter(|j| *j != call && draft.calls[*j].0 == instance).map(|j| draft.calls[j].1).collect();
    let least = others.iter().copied().min().unwrap_or(k);
    let greatest = others.iter().copied().max().unwrap_or(k);
    let past = draft.delay + 1 - d;
    if !others.is_empty() && least + past < 1024 && chance.one_in(2) {
        draft.calls[call].1 = least + past;
    } else if !others.is_empty() && greatest >= past && chance.one_in(2) {
        draft.calls[call].1 = greatest - past;
    } else {
        let spread = greatest.max(k) - least.min(k) + d;
        shorten(draft, (spread - 1).max(1));
    }
}

/// Another delay, and own ports that keep the interval rule.
fn shorten(draft: &mut Draft, delay: u16) {
    draft.delay = delay;
    for port in draft.inputs.iter_mut().chain(&mut draft.outputs) {
        port.end = port.end.min(port.start + delay);
    }
}

/// An own input that is there one cycle less, an own output one cycle more, or an invocation one cycle earlier or later.
fn reading(chance: &mut Chance, draft: &mut Draft) {
    let call = chance.below(draft.calls.len());
    let input = chance.below(draft.inputs.len());
    let output = chance.below(draft.outputs.len());
    let early = chance.one_in(2);
    match chance.below(3) {
        0 if !draft.inputs.is_empty() => {
            let port = &mut draft.inputs[input];
            if port.end - port.start > 1 {
                port.start += u16::from(early);
                port.end -= u16::from(!early);
            }
        }
        1 if !draft.outputs.is_empty() => {
            let port = &mut draft.outputs[output];
            port.start -= u16::from(early && port.start > 0);
            port.end += u16::from(!early && port.end < 1024);
        }
        _ if !draft.calls.is_empty() => {
            let k = &mut draft.calls[call].1;
            *k = if early { k.saturating_sub(1) } else { (*k + 1).min(1023) };
        }
        _ => (),
    }
}
