//! The largest rich file: all blocks, all records, all components, and as many invocations and arguments as go with them.

use super::chance::Chance;
use super::draft::{Draft, Drawing};
use super::list::List;
use crate::plain::{Class, Port, Source, RECORDS};
use std::ops::Range;

/// The delays of the leaves, and of the four tiers above them; each divides the next.
const LEAVES: [u16; 6] = [1, 2, 3, 4, 6, 12];
const TIERS: [(usize, u16); 4] = [(20, 12), (18, 48), (14, 192), (6, 768)];

/// 3,968 records of 64 components with 770 invocations and 2,310 arguments. Every built component has instances packed at
/// exactly their delay over exactly its own, offsets that do not rise, and arguments of every kind of source.
pub fn rich() -> List {
    let mut chance = Chance::new(64);
    let mut drawing = Drawing::default();
    for d in LEAVES {
        drawing.components.push(leaf(d));
    }
    let mut below = 0;
    for (many, delay) in TIERS {
        let here = drawing.components.len();
        for _ in 0..many {
            let number = drawing.components.len();
            let calls = if number % 4 == 0 || number > 61 { 14 } else { 13 };
            let draft = built(&mut chance, &drawing, below..here, delay, calls);
            drawing.components.push(draft);
        }
        below = here;
    }
    fill(&mut drawing);
    drawing.list()
}

fn port(start: u16, end: u16, width: u8) -> Port {
    Port { start, end, width }
}

fn leaf(d: u16) -> Draft {
    let mut draft = Draft::new(Class::Leaf, d);
    draft.inputs = vec![port(0, 1, 32), port(0, d.min(2), 32), port(0, 1, 8)];
    draft.outputs = vec![port(d, 2 * d, 32), port(d, 2 * d, 8)];
    draft
}

/// Outputs that nobody reads, on the leaves, until the file is full.
fn fill(drawing: &mut Drawing) {
    let mut left = RECORDS - drawing.records();
    for draft in &mut drawing.components[..LEAVES.len()] {
        while left > 0 && draft.outputs.len() < 16 {
            draft.outputs.push(port(draft.delay, 2 * draft.delay, 16));
            left -= 1;
        }
    }
    assert_eq!(left, 0, "the leaves hold what is left");
}

/// A component of so many invocations: two instances of the tier below packed, and others where there is room.
fn built(chance: &mut Chance, drawing: &Drawing, below: Range<usize>, delay: u16, many: usize) -> Draft {
    let mut draft = Draft::new(Class::Built, delay);
    draft.inputs = vec![port(0, delay, 32), port(0, 1, 32), port(0, if chance.one_in(2) { delay } else { 2 }, 8)];
    draft.instances = instances(chance, drawing, below, delay);
    for instance in 0..2 {
        let d = drawing.of(&draft, instance).delay;
        draft.calls.extend((0..delay / d).map(|turn| (instance, turn * d)));
    }
    while draft.calls.len() < many {
        let instance = 2 + chance.below(draft.instances.len() - 2);
        let d = drawing.of(&draft, instance).delay;
        let offset = d * chance.below(usize::from(delay / d)) as u16;
        if drawing.may_call(&draft, instance, offset) {
            draft.calls.push((instance, offset));
        }
    }
    // the order of time, and then three pairs the other way round
    draft.calls.sort_by_key(|call| call.1);
    for _ in 0..3 {
        let rising: Vec<usize> = (2..many).filter(|j| draft.calls[j - 2].1 < draft.calls[*j].1).collect();
        let j = chance.pick(&rising);
        draft.calls.swap(j - 2, j);
    }
    for j in 0..many {
        let (instance, k) = draft.calls[j];
        let arguments =
            drawing.of(&draft, instance).inputs.iter().map(|port| argument(chance, drawing, &draft, j, *port, k)).collect();
        draft.arguments.push(arguments);
    }
    for width in [32, 8] {
        connect(chance, drawing, &mut draft, width);
    }
    draft
}

/// Six or seven: two whose delay is a half to a sixth of the component's own, the others anything below.
fn instances(chance: &mut Chance, drawing: &Drawing, below: Range<usize>, delay: u16) -> Vec<usize> {
    let here = below.end;
    let packed: Vec<usize> = below.filter(|c| (2..=6).contains(&(delay / drawing.components[*c].delay))).collect();
    let mut all = vec![chance.pick(&packed), chance.pick(&packed)];
    all.extend((0..3 + chance.below(2)).map(|_| chance.below(here)));
    // one that fits beside all others
    all.push(chance.below(2));
    all
}

fn argument(chance: &mut Chance, drawing: &Drawing, draft: &Draft, calls: usize, port: Port, k: u16) -> Source {
    let fitting = drawing.fitting(draft, calls, port, k);
    let (own, outputs): (Vec<Source>, Vec<Source>) = fitting.into_iter().partition(|source| matches!(source, Source::Own(_)));
    if chance.one_in(8) || own.is_empty() && outputs.is_empty() {
        return Source::Constant(chance.number() & u64::MAX >> (64 - port.width));
    }
    if own.is_empty() || !outputs.is_empty() && !chance.one_in(10) {
        return chance.pick(&outputs);
    }
    chance.pick(&own)
}

/// An output of this width that is the whole of what a late invocation gives.
fn connect(chance: &mut Chance, drawing: &Drawing, draft: &mut Draft, width: u8) {
    let mut given = drawing.given(draft, draft.calls.len());
    given.retain(|(source, port)| port.width == width && port.end <= 1024 && !matches!(source, Source::Own(_)));
    let late = given.len() - given.len().min(4);
    let (source, port) = given[late + chance.below(given.len() - late)];
    draft.connections.push(source);
    draft.outputs.push(port);
}
