//! What both sides tell of a component: which wire is driven by what in which cycle.

use crate::naive::Source;
use std::collections::BTreeMap;
use std::fmt;

/// What a component drives: the starts and inputs of its instances, and its own outputs.
#[derive(Clone, Copy, Debug, PartialEq, Eq, PartialOrd, Ord)]
pub enum Wire {
    Start {
        instance: usize,
    },
    Input {
        instance: usize,
        port: usize,
    },
    /// Carries no guard; told in cycle 0 only.
    Output {
        port: usize,
    },
}

impl fmt::Display for Wire {
    fn fmt(&self, f: &mut fmt::Formatter) -> fmt::Result {
        match self {
            Wire::Start { instance } => write!(f, "start {instance}"),
            Wire::Input { instance, port } => write!(f, "input {instance} {port}"),
            Wire::Output { port } => write!(f, "output {port}"),
        }
    }
}

/// Each wire that is driven in a cycle, with the bits on it and whether guards clash there, as the simulator prints them:
/// an unknown bit has no number.
pub type Cycles = BTreeMap<(u64, Wire), String>;

/// Who drives a wire, and from where.
#[derive(Clone, Debug, PartialEq, Eq)]
pub struct Drive<'a> {
    /// None for an own output.
    pub invocation: Option<usize>,
    /// None for a start.
    pub source: Option<&'a Source>,
}

impl Drive<'_> {
    /// Bits of a code.
    pub const BITS: usize = 80;

    /// The two numbers in hexadecimal that stand for it on a wire, different for any two that differ.
    pub fn code(&self) -> String {
        let (kind, value) = match self.source {
            None => (0, 0),
            Some(Source::Own(input)) => (1, *input as u64),
            Some(Source::Output(invocation, output)) => (2, (*invocation as u64) << 32 | *output as u64),
            Some(Source::Constant(value)) => (3, *value),
        };
        let invocation = self.invocation.map_or(0, |invocation| invocation + 1);
        format!("{invocation:02x}{kind:02x}{value:016x}")
    }
}

/// The bits of a wire, as they stand in `Cycles`, in document 01's words.
pub fn told(bits: &str) -> String {
    let (code, clash) = bits.split_once(' ').unwrap_or((bits, ""));
    let code = match u128::from_str_radix(code, 16) {
        Ok(code) => code,
        Err(_) => return format!("unknown bits {bits}"),
    };
    let value = code as u64;
    let source = match code >> 64 & 0xFF {
        0 => String::new(),
        1 => format!(" own {value}"),
        2 => format!(" inv {} {}", value >> 32, value as u32),
        _ => format!(" const {value}"),
    };
    let invocation = match code >> 72 {
        0 => String::new(),
        number => format!(" invocation {}", number - 1),
    };
    let guards = if clash == "0" { "" } else { " with two guards at once" };
    format!("{invocation}{source}{guards}").trim_start().to_string()
}
