//! The rules of document 01 as they stand there, with no thought of speed: the whole design is built as vectors, and every
//! record is asked rule by rule. Shares nothing with `plain`, so that the two can be held against each other.
#![forbid(unsafe_code)]

mod bytes;
mod rows;
mod rules;

pub use bytes::records;
pub use rows::{rows, start_count, starts, unit_count};

#[derive(Clone, Debug, PartialEq, Eq)]
pub struct Port {
    pub start: u64,
    pub end: u64,
    pub width: u64,
}

#[derive(Clone, Debug, PartialEq, Eq)]
pub enum Source {
    Own(usize),
    Output(usize, usize),
    Constant(u64),
}

#[derive(Clone, Debug, PartialEq, Eq)]
pub struct Call {
    pub instance: usize,
    pub offset: u64,
}

#[derive(Clone, Debug, PartialEq, Eq)]
pub struct Component {
    pub built: bool,
    pub delay: u64,
    pub inputs: Vec<Port>,
    pub outputs: Vec<Port>,
    pub instances: Vec<usize>,
    pub calls: Vec<Call>,
    /// For each call, the arguments that it has by now.
    pub arguments: Vec<Vec<Source>>,
    pub connections: Vec<Source>,
}

enum Record {
    Component { built: bool, delay: u64 },
    Input(Port),
    Output(Port),
    Instance(usize),
    Invocation(Call),
    Argument(Source),
    Connection(Source),
}

/// Number and position of a refusal.
pub type Refused = (u64, u64);

/// The component and record counts, or the first refusal.
pub fn judge(file: &[u8]) -> Result<(usize, usize), Refused> {
    let list = records(file)?;
    let design = design(&list)?;
    Ok((design.len(), list.len()))
}

/// The design that a record list says, or the first refusal of a record.
pub fn design(list: &[Vec<u8>]) -> Result<Vec<Component>, Refused> {
    let mut entered: Vec<Component> = Vec::new();
    for (number, bytes) in list.iter().enumerate() {
        let refused = |fault| Err((fault, number as u64));
        let record = match bytes::record(bytes) {
            Some(record) => record,
            None => return refused(4),
        };
        for (fault, holds) in rules::RULES {
            if !holds(&entered, &record) {
                return refused(*fault);
            }
        }
        enter(&mut entered, record);
    }
    if !rules::complete(&entered) {
        return Err((5, list.len() as u64));
    }
    Ok(entered)
}

fn enter(entered: &mut Vec<Component>, record: Record) {
    if let Record::Component { built, delay } = record {
        entered.push(Component {
            built,
            delay,
            inputs: vec![],
            outputs: vec![],
            instances: vec![],
            calls: vec![],
            arguments: vec![],
            connections: vec![],
        });
        return;
    }
    let own = entered.last_mut().expect("a component record comes first");
    match record {
        Record::Component { .. } => (),
        Record::Input(port) => own.inputs.push(port),
        Record::Output(port) => own.outputs.push(port),
        Record::Instance(component) => own.instances.push(component),
        Record::Invocation(call) => {
            own.calls.push(call);
            own.arguments.push(vec![]);
        }
        Record::Argument(source) => own.arguments.last_mut().expect("an invocation comes first").push(source),
        Record::Connection(source) => own.connections.push(source),
    }
}
