//! The order of the records, the limits, and what a record names.

use super::{listed, Case};
use crate::designs::{constant, output_of, own, squaring, List};

pub fn cases() -> Vec<Case> {
    let mut all = places();
    all.extend(limits());
    all.extend(references());
    all
}

/// The first records of the squaring example.
fn first(records: usize) -> List {
    let mut list = squaring();
    list.records.truncate(records);
    list
}

fn places() -> Vec<Case> {
    let called = || List::new().leaf(1).built(1).instance(0).invocation(0, 0);
    let misplaced = List::new().leaf(1).connection(constant(0));
    vec![
        listed("argument-due-component", first(11).leaf(1), "refused 5 at 11"),
        listed("argument-due-end", first(11), "refused 5 at 11"),
        listed("argument-too-many", first(15).argument(own(0)), "refused 5 at 15"),
        listed("argument-after-connection", squaring().argument(own(0)), "refused 5 at 16"),
        listed("invocation-after-connection", squaring().invocation(0, 1), "refused 5 at 16"),
        listed("instance-after-invocation", called().instance(0), "refused 5 at 4"),
        listed("input-after-output", List::new().leaf(1).output(0, 1, 1).input(0, 1, 1), "refused 5 at 2"),
        listed("leaf-instance", List::new().leaf(1).leaf(1).instance(0), "refused 5 at 2"),
        listed("first-port", List::new().input(0, 1, 1), "refused 5 at 0"),
        listed("4-before-5", misplaced.with_byte(1, 1, 3), "refused 4 at 1"),
        listed("built-empty", List::new().built(1), "accepted 1 1"),
    ]
}

fn limits() -> Vec<Case> {
    let components = |n| List::new().times(n, |list, _| list.leaf(1));
    let inputs = |n| List::new().built(1).times(n, |list, _| list.input(0, 1, 8)).output(0, 1, 8).connection(own(n - 1));
    let outputs = |n| {
        let list = List::new().leaf(1).times(n, |list, _| list.output(0, 1, 8));
        list.built(1).output(0, 1, 8).instance(0).invocation(0, 0).connection(output_of(0, n - 1))
    };
    let instances = |n| List::new().leaf(1).built(1).times(n, |list, _| list.instance(0)).invocation(n - 1, 0);
    let invocations = |n| {
        let list = List::new().leaf(1).output(0, 1, 8).built(65).output(63, 64, 8).instance(0);
        list.times(n, |list, k| list.invocation(0, k)).connection(output_of(63, 0))
    };
    let due = components(63).built(1).output(0, 1, 8);
    vec![
        listed("limit-components-64", components(64), "accepted 64 64"),
        listed("limit-components-65", components(65), "refused 6 at 64"),
        listed("limit-inputs-16", inputs(16), "accepted 1 19"),
        listed("limit-inputs-17", inputs(17), "refused 6 at 17"),
        listed("limit-outputs-16", outputs(16), "accepted 2 22"),
        listed("limit-outputs-17", outputs(17), "refused 6 at 17"),
        listed("limit-instances-32", instances(32), "accepted 2 35"),
        listed("limit-instances-33", instances(33), "refused 6 at 34"),
        listed("limit-invocations-64", invocations(64), "accepted 2 70"),
        listed("limit-invocations-65", invocations(65), "refused 6 at 69"),
        listed("5-before-6", due.leaf(1), "refused 5 at 65"),
    ]
}

fn references() -> Vec<Case> {
    let stage = List::new().leaf(1).input(0, 1, 8).output(0, 1, 8).built(2).instance(0).invocation(0, 0);
    let later = stage.argument(output_of(1, 0)).invocation(0, 1).argument(constant(0));
    vec![
        listed("argument-later-invocation", later, "refused 7 at 6"),
        listed("instance-later-component", List::new().leaf(1).built(1).instance(2).leaf(1), "refused 7 at 2"),
        listed("invocation-no-instance", List::new().built(1).invocation(0, 0), "refused 7 at 1"),
    ]
}
