//! Accepted files that are slow for a checker or a listing that does not look out.

use super::chance::Chance;
use super::list::List;

/// 60 components of 64 invocations of one instance at scattered offsets, exactly as far apart as they must be and spread as
/// far as they may: the outermost two first, so that every later one lies among the others. `collision` puts the very last
/// invocation one cycle too close to the first of its component.
pub fn scattered(collision: bool) -> List {
    let mut chance = Chance::new(60);
    let mut list = List::new().leaf(16);
    for _ in 0..60 {
        list = list.built(1024).instance(0);
        let mut inner: Vec<u16> = (1..63).collect();
        chance.shuffle(&mut inner);
        for place in [0, 63].into_iter().chain(inner) {
            list = list.invocation(0, 16 * place);
        }
    }
    if collision {
        let last = list.records.len() - 1;
        list.records[last][4..6].copy_from_slice(&15u16.to_le_bytes());
    }
    list
}

/// An empty built component under 63 levels of 30 invocations each: 30 to the 63 calls, and no row.
pub fn empty_levels() -> List {
    List::new().built(1).times(63, |list, below| level(list, below, 30))
}

/// A component of so many instances of the one below, each invoked once at offset 0.
fn level(list: List, below: u16, many: u16) -> List {
    list.built(1).times(many, |list, _| list.instance(below)).times(many, |list, i| list.invocation(i, 0))
}

/// 64 components, each but the first with 32 instances of the one before, none invoked.
pub fn unused_instances() -> List {
    List::new().leaf(1).times(63, |list, below| list.built(1).times(32, |list, _| list.instance(below)))
}

/// A file whose last component has 2 to the given power of rows, 1 to 64.
pub fn doubling(power: u16) -> List {
    let first = List::new().leaf(1);
    if power == 64 {
        return level(first, 0, 4).times(62, |list, below| level(list, below + 1, 2));
    }
    first.times(power, |list, below| level(list, below, 2))
}

/// A last component of exactly 4,096 rows, or with `more` of 4,097.
pub fn many_rows(more: bool) -> List {
    // 1: 64 rows; 2: 65 rows; 3: 64 invocations of these
    let list = List::new().leaf(1).built(64).instance(0).times(64, |list, k| list.invocation(0, 63 - k));
    let list = list.built(64).instance(1).instance(0).invocation(0, 0).invocation(1, 7);
    let list = list.built(1024).times(4, |list, _| list.instance(1)).instance(2);
    let full = if more { 63 } else { 64 };
    let list = list.times(full, |list, j| list.invocation(j % 4, 64 * (j / 4)));
    if more {
        list.invocation(4, 100)
    } else {
        list
    }
}

/// A last component of exactly 4,096 units, or with `more` of 4,097, none of them ever started.
pub fn many_units(more: bool) -> List {
    let list = List::new().leaf(1).built(1).times(32, |list, _| list.instance(0));
    let list = list.built(1).times(32, |list, _| list.instance(1));
    let list = list.built(1).times(4, |list, _| list.instance(2));
    if more {
        list.instance(0)
    } else {
        list
    }
}

/// 58 levels, one invocation each but eight, which have two: 256 rows, far below.
pub fn deep() -> List {
    List::new().leaf(1).times(58, |list, below| level(list, below, if below % 7 == 3 { 2 } else { 1 }))
}

/// 4,096 rows, each below 58 levels that have 40 invocations without rows and one with.
pub fn hidden() -> List {
    let list = List::new().leaf(1).built(1);
    let list = list.times(58, |list, below| {
        let next = if below == 0 { 0 } else { below + 1 };
        let list = list.built(2).times(20, |list, _| list.instance(1)).instance(next);
        list.times(40, |list, j| list.invocation(j / 2, j % 2)).invocation(20, 0)
    });
    let list = list.built(128).instance(59).times(64, |list, j| list.invocation(0, 2 * j));
    list.built(1024).times(8, |list, _| list.instance(60)).times(64, |list, j| list.invocation(j % 8, 128 * (j / 8)))
}

/// The longest way down for a listing that calls itself for each next invocation: 60 components, each with many invocations of
/// a leaf and behind them one of the component below. 3,968 records, 3,728 rows.
pub fn longest() -> List {
    let list = List::new().leaf(1).times(59, |list, below| descent(list, below, 63));
    descent(list, 59, 10)
}

fn descent(list: List, below: u16, leaves: u16) -> List {
    list.built(64).instance(0).instance(below).times(leaves, |list, k| list.invocation(0, k)).invocation(1, 0)
}
