//! Lawful designs by chance, many of their rules kept with equality.

use super::chance::Chance;
use super::draft::{Draft, Drawing};
use crate::plain::{Class, Port, Source, RECORDS};

const WIDTHS: [u8; 8] = [32, 32, 32, 32, 32, 8, 1, 64];

/// How many instances and invocations a built component mostly has at most, and whether its instances are of the components
/// right below it.
pub struct Shape {
    pub instances: usize,
    pub calls: usize,
    pub deep: bool,
}

/// A lawful design of at most so many components.
pub fn drawn(chance: &mut Chance, most: usize) -> Drawing {
    shaped(chance, most, &Shape { instances: 4, calls: 8, deep: false })
}

/// A lawful design of at most so many components and of this shape.
pub fn shaped(chance: &mut Chance, most: usize, shape: &Shape) -> Drawing {
    let mut drawing = Drawing::default();
    for _ in 0..1 + chance.below(most) {
        let leaf = drawing.components.is_empty() && !chance.one_in(20) || chance.one_in(if shape.deep { 16 } else { 4 });
        let draft = if leaf { leaf_drawn(chance) } else { built_drawn(chance, &drawing, shape) };
        if drawing.records() + draft.records() > RECORDS {
            break;
        }
        drawing.components.push(draft);
    }
    drawing
}

fn leaf_drawn(chance: &mut Chance) -> Draft {
    let delay = if chance.one_in(12) { 1 + chance.below(1024) } else { 1 + chance.below(6) };
    let mut draft = Draft::new(Class::Leaf, delay as u16);
    for _ in 0..count(chance, 3, 16) {
        let start = chance.below(3) as u16;
        draft.inputs.push(port(chance, start, delay as u16));
    }
    for _ in 0..count(chance, 2, 16) {
        let start = (delay.min(40) + chance.below(3)) as u16;
        draft.outputs.push(port(chance, start, delay as u16));
    }
    draft
}

/// A count that is mostly small and sometimes anything up to the limit.
fn count(chance: &mut Chance, often: usize, limit: usize) -> usize {
    if chance.one_in(25) {
        chance.below(limit + 1)
    } else {
        chance.below(often + 1)
    }
}

/// A port from here on, no longer than its component's delay, often as long.
fn port(chance: &mut Chance, start: u16, delay: u16) -> Port {
    let most = delay.min(1024 - start);
    let long = match chance.below(3) {
        0 => most,
        1 => 1,
        _ => 1 + chance.below(usize::from(most)) as u16,
    };
    Port { start, end: start + long, width: chance.pick(&WIDTHS) }
}

fn built_drawn(chance: &mut Chance, drawing: &Drawing, shape: &Shape) -> Draft {
    let mut draft = Draft::new(Class::Built, 1);
    for _ in 0..count(chance, shape.instances, 32).max(usize::from(shape.deep)) {
        if drawing.components.is_empty() {
            break;
        }
        let below = drawing.components.len();
        draft.instances.push(if shape.deep { below - 1 - chance.below(4) / 3 % below } else { chance.below(below) });
    }
    let longest = draft.instances.iter().map(|c| drawing.components[*c].delay).max().unwrap_or(1);
    let delay = usize::from(longest) * (1 + chance.below(4)) + chance.pick(&[0, 0, 1, 5]);
    draft.delay = delay.min(1024) as u16;
    for _ in 0..count(chance, shape.calls, 64) {
        call(chance, drawing, &mut draft);
    }
    connect(chance, drawing, &mut draft);
    draft
}

/// Adds an invocation with its arguments, where one of a few offsets is allowed.
fn call(chance: &mut Chance, drawing: &Drawing, draft: &mut Draft) {
    if draft.instances.is_empty() {
        return;
    }
    let instance = chance.below(draft.instances.len());
    for _ in 0..6 {
        let offset = offset(chance, drawing, draft, instance);
        if drawing.may_call(draft, instance, offset) {
            draft.calls.push((instance, offset));
            break;
        }
    }
    if draft.calls.len() == draft.arguments.len() {
        return;
    }
    let made = drawing.of(draft, instance).inputs.clone();
    let arguments = made.into_iter().map(|port| argument(chance, drawing, draft, port)).collect();
    draft.arguments.push(arguments);
}

/// An offset to try: right beside the others of the instance, where an earlier output becomes ready, or anywhere.
fn offset(chance: &mut Chance, drawing: &Drawing, draft: &Draft, instance: usize) -> u16 {
    let made = drawing.of(draft, instance);
    let others = || draft.calls.iter().filter(|call| call.0 == instance).map(|call| call.1);
    match chance.below(8) {
        0 => others().max().map_or(0, |k| k + made.delay),
        1 => others().min().map_or(0, |k| k.saturating_sub(made.delay)),
        2 => chance.below(1024) as u16,
        3 => chance.below(usize::from(draft.delay) + 4) as u16,
        _ => {
            let given = drawing.given(draft, draft.calls.len());
            let outputs = &given[draft.inputs.len()..];
            if outputs.is_empty() || made.inputs.is_empty() {
                return chance.below(4) as u16;
            }
            chance.pick(outputs).1.start.saturating_sub(chance.pick(&made.inputs).start)
        }
    }
}

/// A source for this input of the last invocation: an earlier output, an own input, made if need be, or a constant.
fn argument(chance: &mut Chance, drawing: &Drawing, draft: &mut Draft, port: Port) -> Source {
    let last = draft.calls.len() - 1;
    let k = draft.calls[last].1;
    let fitting = drawing.fitting(draft, last, port, k);
    let outputs: Vec<Source> = fitting.iter().copied().filter(|source| matches!(source, Source::Output { .. })).collect();
    if !outputs.is_empty() && !chance.one_in(4) {
        return chance.pick(&outputs);
    }
    if !fitting.is_empty() && !chance.one_in(5) {
        return chance.pick(&fitting);
    }
    if draft.inputs.len() < 16 && k + port.end <= 1024 && !chance.one_in(4) {
        let (start, end) = widened(chance, k + port.start, k + port.end, draft.delay);
        draft.inputs.push(Port { start, end, width: port.width });
        return Source::Own(draft.inputs.len() as u16 - 1);
    }
    constant(chance, port.width)
}

/// An interval that holds this one and is no longer than the delay: often just this one, often as long as may be.
fn widened(chance: &mut Chance, start: u16, end: u16, delay: u16) -> (u16, u16) {
    let spare = usize::from(delay - (end - start));
    let before = chance.below(1 + spare.min(usize::from(start))) as u16;
    let after = chance.below(1 + spare - usize::from(before)) as u16;
    match chance.below(3) {
        0 => (start, end),
        1 => (start - before, (start - before + delay).min(1024).max(end)),
        _ => (start - before, (end + after).min(1024)),
    }
}

fn constant(chance: &mut Chance, width: u8) -> Source {
    let most = u64::MAX >> (64 - width);
    Source::Constant(if chance.one_in(3) { most } else { chance.number() & most })
}

/// Adds own outputs, each made to fit what it reads.
fn connect(chance: &mut Chance, drawing: &Drawing, draft: &mut Draft) {
    let given: Vec<(Source, Port)> =
        drawing.given(draft, draft.calls.len()).into_iter().filter(|(_, port)| port.start < 1024).collect();
    for _ in 0..count(chance, 3, 16) {
        if given.is_empty() || chance.one_in(6) {
            let start = chance.below(900) as u16;
            let port = port(chance, start, draft.delay);
            draft.connections.push(constant(chance, port.width));
            draft.outputs.push(port);
            continue;
        }
        let (source, port) = chance.pick(&given);
        let end = port.end.min(1024);
        let long = end - port.start;
        let cut = if chance.one_in(2) { 0 } else { chance.below(usize::from(long)) as u16 };
        let start = port.start + chance.below(usize::from(cut) + 1) as u16;
        draft.connections.push(source);
        draft.outputs.push(Port { start, end: start + long - cut, width: port.width });
    }
}
