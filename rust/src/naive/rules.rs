//! What document 01 asks of a record after those before it: a function for each refusal but 4, that of the record by itself.

use super::{Call, Component, Port, Record, Source};

/// Whether a record keeps a rule after the components entered before it, the last one as far as it is said.
pub(super) type Rule = fn(&[Component], &Record) -> bool;

/// The rules by their numbers, in the order of the table.
pub(super) const RULES: &[(u64, Rule)] =
    &[(5, in_place), (6, not_too_many), (7, there), (8, equally_wide), (9, short), (10, spaced), (11, spanned), (12, ready)];

/// The component that a call of the last component invokes.
fn invoked<'a>(entered: &'a [Component], call: &Call) -> &'a Component {
    let own = entered.last().expect("a component");
    &entered[own.instances[call.instance]]
}

fn all_arguments(entered: &[Component]) -> bool {
    let own = entered.last().expect("a component");
    own.calls.iter().zip(&own.arguments).all(|(call, arguments)| arguments.len() == invoked(entered, call).inputs.len())
}

/// Nothing of the last component is missing.
pub(super) fn complete(entered: &[Component]) -> bool {
    match entered.last() {
        None => false,
        Some(own) => all_arguments(entered) && (!own.built || own.connections.len() == own.outputs.len()),
    }
}

/// 5: the order of the records.
fn in_place(entered: &[Component], record: &Record) -> bool {
    let own = match entered.last() {
        None => return matches!(record, Record::Component { .. }),
        Some(own) => own,
    };
    let no_outputs = own.outputs.is_empty();
    let no_instances = own.instances.is_empty();
    let no_calls = own.calls.is_empty();
    let no_connections = own.connections.is_empty();
    match record {
        Record::Component { .. } => complete(entered),
        Record::Input(_) => no_outputs && no_instances && no_calls && no_connections,
        Record::Output(_) => no_instances && no_calls && no_connections,
        Record::Instance(_) => own.built && no_calls && no_connections,
        Record::Invocation(_) => own.built && all_arguments(entered) && no_connections,
        Record::Argument(_) => !no_calls && !all_arguments(entered),
        Record::Connection(_) => own.built && all_arguments(entered) && own.connections.len() < own.outputs.len(),
    }
}

/// 6: the limits.
fn not_too_many(entered: &[Component], record: &Record) -> bool {
    let own = match entered.last() {
        None => return true,
        Some(own) => own,
    };
    match record {
        Record::Component { .. } => entered.len() < 64,
        Record::Input(_) => own.inputs.len() < 16,
        Record::Output(_) => own.outputs.len() < 16,
        Record::Instance(_) => own.instances.len() < 32,
        Record::Invocation(_) => own.calls.len() < 64,
        Record::Argument(_) | Record::Connection(_) => true,
    }
}

/// 7: what a record names is there.
fn there(entered: &[Component], record: &Record) -> bool {
    let own = match entered.last() {
        None => return true,
        Some(own) => own,
    };
    let source_there = |source: &Source, earlier: usize| match source {
        Source::Own(input) => *input < own.inputs.len(),
        Source::Output(invocation, output) => {
            *invocation < earlier && *output < invoked(entered, &own.calls[*invocation]).outputs.len()
        }
        Source::Constant(_) => true,
    };
    match record {
        Record::Instance(component) => *component < entered.len() - 1,
        Record::Invocation(call) => call.instance < own.instances.len(),
        Record::Argument(source) => source_there(source, own.calls.len() - 1),
        Record::Connection(source) => source_there(source, own.calls.len()),
        _ => true,
    }
}

/// The port that an argument or connection feeds and the offset of its event.
fn reader<'a>(entered: &'a [Component], record: &'a Record) -> Option<(&'a Source, &'a Port, u64)> {
    let own = entered.last()?;
    match record {
        Record::Argument(source) => {
            let call = own.calls.last()?;
            Some((source, &invoked(entered, call).inputs[own.arguments.last()?.len()], call.offset))
        }
        Record::Connection(source) => Some((source, &own.outputs[own.connections.len()], 0)),
        _ => None,
    }
}

/// The port that a source gives and the offset of its event; none of a constant.
fn given<'a>(entered: &'a [Component], source: &Source) -> Option<(&'a Port, u64)> {
    let own = entered.last()?;
    match source {
        Source::Own(input) => Some((&own.inputs[*input], 0)),
        Source::Output(invocation, output) => {
            let call = &own.calls[*invocation];
            Some((&invoked(entered, call).outputs[*output], call.offset))
        }
        Source::Constant(_) => None,
    }
}

/// 8: "source and reader are equally wide; a constant is below 2 to the width".
fn equally_wide(entered: &[Component], record: &Record) -> bool {
    match reader(entered, record) {
        None => true,
        Some((Source::Constant(value), port, _)) => (*value as u128) < 1 << port.width,
        Some((source, port, _)) => given(entered, source).map(|(from, _)| from.width) == Some(port.width),
    }
}

/// 9: "every port has e−s ≤ its own component's D".
fn short(entered: &[Component], record: &Record) -> bool {
    match (entered.last(), record) {
        (Some(own), Record::Input(port)) | (Some(own), Record::Output(port)) => port.end - port.start <= own.delay,
        _ => true,
    }
}

/// The offsets of this and the earlier invocations of one instance, and the invoked delay.
fn uses(entered: &[Component], call: &Call) -> (Vec<u64>, u64) {
    let own = entered.last().expect("a component");
    let earlier = own.calls.iter().filter(|other| other.instance == call.instance).map(|other| other.offset);
    (earlier.chain([call.offset]).collect(), invoked(entered, call).delay)
}

/// 10: "two invocations of one instance stand at least d cycles apart".
fn spaced(entered: &[Component], record: &Record) -> bool {
    let call = match record {
        Record::Invocation(call) => call,
        _ => return true,
    };
    let (offsets, d) = uses(entered, call);
    let apart = |k: u64, j: u64| k + d <= j || j + d <= k;
    (0..offsets.len()).all(|a| (0..a).all(|b| apart(offsets[a], offsets[b])))
}

/// 11: "greatest offset − least offset + d ≤ D".
fn spanned(entered: &[Component], record: &Record) -> bool {
    let (own, call) = match (entered.last(), record) {
        (Some(own), Record::Invocation(call)) => (own, call),
        _ => return true,
    };
    let (offsets, d) = uses(entered, call);
    let greatest = offsets.iter().max().expect("this one");
    let least = offsets.iter().min().expect("this one");
    greatest - least + d <= own.delay
}

/// 12: "the source's interval contains the required one": cycle by cycle.
fn ready(entered: &[Component], record: &Record) -> bool {
    let (source, port, at) = match reader(entered, record) {
        None => return true,
        Some(reader) => reader,
    };
    match given(entered, source) {
        None => true,
        Some((from, event)) => {
            (at + port.start..at + port.end).all(|cycle| event + from.start <= cycle && cycle < event + from.end)
        }
    }
}
