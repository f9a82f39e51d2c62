//! Widths, intervals, spacing, span and reading, with equality and one past it.

use super::{listed, Case};
use crate::designs::{constant, output_of, own, List};

pub fn cases() -> Vec<Case> {
    let mut all = widths();
    all.extend(intervals());
    all.extend(invocations());
    all.extend(reading());
    all
}

/// Source and reader of unequal width, on both sides of an argument and of a connection.
fn widths() -> Vec<Case> {
    let argument_own = |source, reader| {
        let list = List::new().leaf(1).input(0, 1, reader).built(1).input(0, 1, source);
        list.instance(0).invocation(0, 0).argument(own(0))
    };
    let argument_output = |source, reader| {
        let list = List::new().leaf(1).output(0, 1, source).leaf(1).input(0, 1, reader).built(1).instance(0).instance(1);
        list.invocation(0, 0).invocation(1, 0).argument(output_of(0, 0))
    };
    let connection_own = |source, reader| List::new().built(1).input(0, 1, source).output(0, 1, reader).connection(own(0));
    let connection_output = |source, reader| {
        let list = List::new().leaf(1).output(0, 1, source).built(1).output(0, 1, reader);
        list.instance(0).invocation(0, 0).connection(output_of(0, 0))
    };
    let argument = |value| List::new().leaf(1).input(0, 1, 8).built(1).instance(0).invocation(0, 0).argument(constant(value));
    let connection = |value| List::new().built(1).output(0, 1, 8).connection(constant(value));
    vec![
        listed("width-argument-own-wider", argument_own(9, 8), "refused 8 at 6"),
        listed("width-argument-own-narrower", argument_own(8, 9), "refused 8 at 6"),
        listed("width-argument-output-wider", argument_output(9, 8), "refused 8 at 9"),
        listed("width-argument-output-narrower", argument_output(8, 9), "refused 8 at 9"),
        listed("width-argument-constant-wider", argument(256), "refused 8 at 5"),
        listed("width-connection-own-wider", connection_own(9, 8), "refused 8 at 3"),
        listed("width-connection-own-narrower", connection_own(8, 9), "refused 8 at 3"),
        listed("width-connection-output-wider", connection_output(9, 8), "refused 8 at 6"),
        listed("width-connection-output-narrower", connection_output(8, 9), "refused 8 at 6"),
        listed("width-connection-constant-wider", connection(256), "refused 8 at 2"),
    ]
}

fn intervals() -> Vec<Case> {
    vec![
        listed("interval-equal", List::new().leaf(4).output(3, 7, 8), "accepted 1 2"),
        listed("interval-more", List::new().leaf(4).output(3, 8, 8), "refused 9 at 1"),
        listed("interval-built-more", List::new().built(4).input(3, 8, 8), "refused 9 at 1"),
    ]
}

/// Invocations of one instance of delay d in a component of delay D, at these offsets.
fn shared(d: u16, own: u16, offsets: &[u16]) -> List {
    let list = List::new().leaf(d).built(own).instance(0);
    offsets.iter().fold(list, |list, k| list.invocation(0, *k))
}

fn invocations() -> Vec<Case> {
    vec![
        listed("offsets-fall", shared(2, 8, &[6, 0, 4, 2]), "accepted 2 7"),
        listed("offsets-fall-near", shared(2, 8, &[6, 0, 5]), "refused 10 at 5"),
        listed("offsets-fall-span", shared(2, 8, &[4, 7, 0]), "refused 11 at 5"),
        listed("spacing-equal", shared(3, 6, &[0, 3]), "accepted 2 5"),
        listed("spacing-less", shared(3, 6, &[0, 2]), "refused 10 at 4"),
        listed("span-equal", shared(3, 9, &[0, 6]), "accepted 2 5"),
        listed("span-more", shared(3, 9, &[0, 7]), "refused 11 at 4"),
        listed("10-before-11", shared(3, 3, &[0, 1]), "refused 10 at 4"),
    ]
}

/// An invocation at offset 2 gives [4, 7); the connection reads it for this interval.
fn reading() -> Vec<Case> {
    let read = |start, end| {
        let list = List::new().leaf(3).output(2, 5, 8).built(9).output(start, end, 8);
        list.instance(0).invocation(0, 2).connection(output_of(0, 0))
    };
    vec![listed("reading-equal", read(4, 7), "accepted 2 7"), listed("reading-early", read(3, 7), "refused 12 at 6")]
}
