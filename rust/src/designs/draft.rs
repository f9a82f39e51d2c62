//! A design drafted from the inside out: invocations first, then sources that fit, then own ports as they are needed.

use super::list::List;
use crate::plain::{Class, Port, Record, Side, Source};

#[derive(Clone, Debug)]
pub struct Draft {
    pub class: Class,
    pub delay: u16,
    pub inputs: Vec<Port>,
    pub outputs: Vec<Port>,
    /// The component of each instance.
    pub instances: Vec<usize>,
    /// Instance and offset of each invocation.
    pub calls: Vec<(usize, u16)>,
    pub arguments: Vec<Vec<Source>>,
    pub connections: Vec<Source>,
}

impl Draft {
    pub fn new(class: Class, delay: u16) -> Draft {
        Draft {
            class,
            delay,
            inputs: vec![],
            outputs: vec![],
            instances: vec![],
            calls: vec![],
            arguments: vec![],
            connections: vec![],
        }
    }

    pub fn records(&self) -> usize {
        let arguments: usize = self.arguments.iter().map(Vec::len).sum();
        1 + self.inputs.len() + self.outputs.len() + self.instances.len() + self.calls.len() + arguments + self.connections.len()
    }
}

#[derive(Clone, Debug, Default)]
pub struct Drawing {
    pub components: Vec<Draft>,
}

impl Drawing {
    pub fn records(&self) -> usize {
        self.components.iter().map(Draft::records).sum()
    }

    /// The component that an instance of a draft above is made of.
    pub fn of(&self, draft: &Draft, instance: usize) -> &Draft {
        &self.components[draft.instances[instance]]
    }

    /// Whether an invocation at this offset keeps spacing and span.
    pub fn may_call(&self, draft: &Draft, instance: usize, offset: u16) -> bool {
        let d = self.of(draft, instance).delay;
        let others = || draft.calls.iter().filter(|call| call.0 == instance).map(|call| call.1);
        let greatest = others().chain([offset]).max().unwrap_or(0);
        let least = others().chain([offset]).min().unwrap_or(0);
        offset < 1024 && others().all(|k| k.abs_diff(offset) >= d) && greatest - least + d <= draft.delay
    }

    /// Every port that a draft's own inputs and its first `calls` invocations give, at its own cycles, ends above 1,024 too.
    pub fn given(&self, draft: &Draft, calls: usize) -> Vec<(Source, Port)> {
        let own = draft.inputs.iter().enumerate().map(|(i, port)| (Source::Own(i as u16), *port));
        let mut all: Vec<(Source, Port)> = own.collect();
        for (j, (instance, k)) in draft.calls.iter().enumerate().take(calls) {
            for (o, port) in self.of(draft, *instance).outputs.iter().enumerate() {
                let source = Source::Output { invocation: j as u16, output: o as u16 };
                all.push((source, Port { start: k + port.start, end: k + port.end, width: port.width }));
            }
        }
        all
    }

    /// Those of them that a port, its event at offset k, may read.
    pub fn fitting(&self, draft: &Draft, calls: usize, port: Port, k: u16) -> Vec<Source> {
        let fits = |from: &Port| from.width == port.width && from.start <= k + port.start && k + port.end <= from.end;
        self.given(draft, calls).into_iter().filter(|(_, from)| fits(from)).map(|(source, _)| source).collect()
    }

    pub fn list(&self) -> List {
        self.components.iter().fold(List::new(), |mut list, draft| {
            list = list.record(Record::Component { class: draft.class, delay: draft.delay });
            for port in &draft.inputs {
                list = list.record(Record::Port { side: Side::Input, port: *port });
            }
            for port in &draft.outputs {
                list = list.record(Record::Port { side: Side::Output, port: *port });
            }
            for component in &draft.instances {
                list = list.instance(*component as u16);
            }
            for ((instance, offset), arguments) in draft.calls.iter().zip(&draft.arguments) {
                list = list.invocation(*instance as u16, *offset);
                for source in arguments {
                    list = list.argument(*source);
                }
            }
            for source in &draft.connections {
                list = list.connection(*source);
            }
            list
        })
    }
}
