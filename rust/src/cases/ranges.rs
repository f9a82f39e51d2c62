//! Sixteen bytes: every range at its bounds and one past them, and bytes that must be zero.

use super::{listed, Case};
use crate::designs::{constant, output_of, own, squaring, List};

pub fn cases() -> Vec<Case> {
    let mut all = components_and_ports();
    all.extend(numbers());
    all.extend(constants());
    all.extend(zero_bytes());
    all
}

fn components_and_ports() -> Vec<Case> {
    let leaf = |delay| List::new().leaf(delay);
    let width = |width| leaf(1).input(0, 1, width);
    vec![
        listed("delay-0", leaf(0), "refused 4 at 0"),
        listed("delay-1", leaf(1), "accepted 1 1"),
        listed("delay-1024", leaf(1024), "accepted 1 1"),
        listed("delay-1025", leaf(1025), "refused 4 at 0"),
        listed("end-is-start", leaf(1).input(3, 3, 8), "refused 4 at 1"),
        listed("end-1024", leaf(1).input(1023, 1024, 8), "accepted 1 2"),
        listed("end-1025", leaf(1).input(1024, 1025, 8), "refused 4 at 1"),
        listed("width-0", width(0), "refused 4 at 1"),
        listed("width-1", width(1), "accepted 1 2"),
        listed("width-64", width(64), "accepted 1 2"),
        listed("width-65", width(65), "refused 4 at 1"),
    ]
}

/// In range but absent is 7, beyond the range 4.
fn numbers() -> Vec<Case> {
    let instance = |component| List::new().leaf(1).built(1).instance(component);
    let invocation = |instance, offset| List::new().leaf(1).built(1).instance(0).invocation(instance, offset);
    let output =
        |source| List::new().leaf(1).output(0, 1, 8).built(1).output(0, 1, 8).instance(0).invocation(0, 0).connection(source);
    vec![
        listed("component-63", instance(63), "refused 7 at 2"),
        listed("component-64", instance(64), "refused 4 at 2"),
        listed("instance-31", invocation(31, 0), "refused 7 at 3"),
        listed("instance-32", invocation(32, 0), "refused 4 at 3"),
        listed("offset-1023", invocation(0, 1023), "accepted 2 4"),
        listed("offset-1024", invocation(0, 1024), "refused 4 at 3"),
        listed("own-15", output(own(15)), "refused 7 at 6"),
        listed("own-16", output(own(16)), "refused 4 at 6"),
        listed("invocation-63", output(output_of(63, 0)), "refused 7 at 6"),
        listed("invocation-64", output(output_of(64, 0)), "refused 4 at 6"),
        listed("output-15", output(output_of(0, 15)), "refused 7 at 6"),
        listed("output-16", output(output_of(0, 16)), "refused 4 at 6"),
    ]
}

fn constants() -> Vec<Case> {
    let wide = |width, value| List::new().built(1).output(0, 1, width).connection(constant(value));
    vec![listed("ones-64", wide(64, u64::MAX), "accepted 1 3"), listed("ones-63", wide(63, u64::MAX), "refused 8 at 2")]
}

fn zero_bytes() -> Vec<Case> {
    let with = |record, at, byte| squaring().with_byte(record, at, byte);
    let constant = |at| squaring().record(crate::plain::Record::Argument(constant(0))).with_byte(16, at, 1);
    let mut empty = List::new().leaf(1).leaf(1).leaf(1);
    empty.records[1] = [0; 16];
    vec![
        listed("zero-record", empty, "refused 4 at 1"),
        listed("class-2", with(4, 1, 2), "refused 4 at 4"),
        listed("byte-component-4", with(4, 4, 1), "refused 4 at 4"),
        listed("byte-port-7", with(5, 7, 1), "refused 4 at 5"),
        listed("byte-instance-1", with(8, 1, 1), "refused 4 at 8"),
        listed("byte-invocation-1", with(9, 1, 1), "refused 4 at 9"),
        listed("byte-invocation-6", with(9, 6, 1), "refused 4 at 9"),
        listed("byte-own-4", with(10, 4, 1), "refused 4 at 10"),
        listed("byte-output-6", with(15, 6, 1), "refused 4 at 15"),
        listed("byte-constant-2", constant(2), "refused 4 at 16"),
    ]
}
