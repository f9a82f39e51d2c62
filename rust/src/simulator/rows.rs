//! The rows that `lower` prints, read back from their text.

use crate::naive::Source;
use std::str::FromStr;

/// `go`: invocation, instance, state.
#[derive(Clone, Debug, PartialEq, Eq)]
pub struct Go {
    pub invocation: usize,
    pub instance: usize,
    pub state: u64,
}

/// `in`: invocation, port, first and last state, source; the instance is that of its `go`.
#[derive(Clone, Debug, PartialEq, Eq)]
pub struct In {
    pub invocation: usize,
    pub instance: usize,
    pub port: usize,
    pub first: u64,
    pub last: u64,
    pub source: Source,
}

/// `out`: port, source.
#[derive(Clone, Debug, PartialEq, Eq)]
pub struct Out {
    pub port: usize,
    pub source: Source,
}

/// The rows of one built component.
#[derive(Clone, Debug, Default, PartialEq, Eq)]
pub struct Control {
    pub component: usize,
    pub delay: u64,
    pub states: u64,
    pub goes: Vec<Go>,
    pub inputs: Vec<In>,
    pub outputs: Vec<Out>,
}

impl Control {
    /// The deliberately wrong guards: through k+e in place of k+e−1, with a state more where that is needed.
    pub fn through_end(&self) -> Control {
        let mut wrong = self.clone();
        for row in &mut wrong.inputs {
            row.last += 1;
            wrong.states = wrong.states.max(row.last + 1);
        }
        wrong
    }
}

/// The components of a printed text, up to its `end`; or the line that does not belong there.
pub fn parse(text: &str) -> Result<Vec<Control>, String> {
    let mut controls: Vec<Control> = Vec::new();
    let mut lines = text.lines().enumerate();
    for (number, line) in &mut lines {
        if line == "end" {
            return match lines.next() {
                None => Ok(controls),
                Some((_, more)) => Err(format!("after the end: {more:?}")),
            };
        }
        enter(&mut controls, line).ok_or_else(|| format!("line {}: {line:?}", number + 1))?;
    }
    Err("no end".to_string())
}

/// Adds what a line says; none where it is no row, or not in its place.
fn enter(controls: &mut Vec<Control>, line: &str) -> Option<()> {
    let words: Vec<&str> = line.split(' ').collect();
    if let ["component", component, "delay", delay, "states", states] = words[..] {
        let (component, delay, states) = (number(component)?, number(delay)?, number(states)?);
        if delay == 0 || states == 0 {
            return None;
        }
        controls.push(Control { component, delay, states, ..Control::default() });
        return Some(());
    }
    let control = controls.last_mut()?;
    match words[..] {
        ["go", invocation, instance, state] if control.outputs.is_empty() => {
            let go = Go { invocation: number(invocation)?, instance: number(instance)?, state: number(state)? };
            control.goes.push(go);
        }
        ["in", invocation, port, first, last, ref source @ ..] if control.outputs.is_empty() => {
            let go = control.goes.last()?;
            let (invocation, instance, port) = (number(invocation)?, go.instance, number(port)?);
            if invocation != go.invocation {
                return None;
            }
            let (first, last, source) = (number(first)?, number(last)?, named(source)?);
            control.inputs.push(In { invocation, instance, port, first, last, source });
        }
        ["out", port, ref source @ ..] => control.outputs.push(Out { port: number(port)?, source: named(source)? }),
        _ => return None,
    }
    Some(())
}

fn named(words: &[&str]) -> Option<Source> {
    match words {
        ["own", input] => Some(Source::Own(number(input)?)),
        ["inv", invocation, output] => Some(Source::Output(number(invocation)?, number(output)?)),
        ["const", value] => Some(Source::Constant(number(value)?)),
        _ => None,
    }
}

/// A number as the programs print it: digits, and no zero before others.
fn number<N: FromStr>(word: &str) -> Option<N> {
    let digits = word.bytes().all(|b| b.is_ascii_digit());
    if digits && (word == "0" || !word.starts_with('0')) {
        word.parse().ok()
    } else {
        None
    }
}
