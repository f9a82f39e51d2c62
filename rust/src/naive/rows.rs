//! The rows of lowering and of the flat listing, from a design as vectors.

use super::{Call, Component};

/// The rows of lowering, each eight numbers; the component is built.
pub fn rows(design: &[Component], component: usize) -> Vec<[u64; 8]> {
    let own = &design[component];
    let called = |call: &Call| &design[own.instances[call.instance]];
    let before: usize = design[..component].iter().map(record_count).sum();
    let mut number = (before + 1 + own.inputs.len() + own.outputs.len() + own.instances.len()) as u64;
    let mut ends = vec![1];
    ends.extend(own.inputs.iter().chain(&own.outputs).map(|port| port.end));
    let mut body = Vec::new();
    for (j, call) in own.calls.iter().enumerate() {
        let k = call.offset;
        ends.push(k + 1);
        ends.extend(called(call).inputs.iter().chain(&called(call).outputs).map(|port| k + port.end));
        body.push([2, j as u64, call.instance as u64, k, 0, 0, 0, 0]);
        number += 1;
        for (i, port) in called(call).inputs.iter().enumerate() {
            body.push([3, j as u64, i as u64, k + port.start, k + port.end - 1, number, 0, 0]);
            number += 1;
        }
    }
    for o in 0..own.outputs.len() {
        body.push([4, o as u64, number, 0, 0, 0, 0, 0]);
        number += 1;
    }
    let states = *ends.iter().max().expect("the 1");
    body.insert(0, [1, own.delay, states, 0, 0, 0, 0, 0]);
    body
}

fn record_count(component: &Component) -> usize {
    let arguments: usize = component.arguments.iter().map(Vec::len).sum();
    1 + component.inputs.len()
        + component.outputs.len()
        + component.instances.len()
        + component.calls.len()
        + arguments
        + component.connections.len()
}

/// How many rows the flat list of a component has, as far as a number of this size can say.
pub fn start_count(design: &[Component], component: usize) -> u128 {
    let counts = counts(design, |own| own.calls.iter().map(|call| own.instances[call.instance]).collect());
    counts[component]
}

/// How many leaf units a component has.
pub fn unit_count(design: &[Component], component: usize) -> u128 {
    let counts = counts(design, |own| own.instances.clone());
    counts[component]
}

fn counts(design: &[Component], below: impl Fn(&Component) -> Vec<usize>) -> Vec<u128> {
    let mut counts: Vec<u128> = Vec::new();
    for own in design {
        let sum = below(own).iter().fold(0u128, |sum, c| sum.saturating_add(counts[*c]));
        counts.push(if own.built { sum } else { 1 });
    }
    counts
}

/// The flat list by plain recursion: cycle, unit and component of every row. Only for designs whose recursion is small.
pub fn starts(design: &[Component], component: usize) -> Vec<(u64, u64, u64)> {
    let own = &design[component];
    if !own.built {
        return vec![(0, 0, component as u64)];
    }
    let first_unit = |instance: usize| -> u64 { own.instances[..instance].iter().map(|c| unit_count(design, *c) as u64).sum() };
    own.calls
        .iter()
        .flat_map(|call| {
            let unit = first_unit(call.instance);
            let below = starts(design, own.instances[call.instance]);
            below.into_iter().map(move |(cycle, u, leaf)| (cycle + call.offset, u + unit, leaf))
        })
        .collect()
}
