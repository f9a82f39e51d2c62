//! Full files, the largest rich one, and hostile ones.

use super::{listed, Case};
use crate::designs::{rich, scattered, List};

/// 3,968 records: a leaf, and 63 components with an instance of it and sixty invocations or one more.
fn full() -> List {
    List::new()
        .leaf(1)
        .times(63, |list, c| list.built(64).instance(0).times(if c < 2 { 60 } else { 61 }, |list, k| list.invocation(0, k)))
}

pub fn cases() -> Vec<Case> {
    let last = full().records.len() - 1;
    vec![
        listed("full", full(), "accepted 64 3968"),
        // the last invocation at the offset of the one before
        listed("full-last-fault", full().with_byte(last, 4, 59), "refused 10 at 3967"),
        listed("rich", rich(), "accepted 64 3968"),
        listed("hostile", scattered(false), "accepted 61 3961"),
        listed("hostile-late", scattered(true), "refused 10 at 3960"),
    ]
}
