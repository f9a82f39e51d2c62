//! The files that are compared, each given by its seed alone.

use dansevik::designs::{self, aimed, damaged, damaged_blocks, drawn, seal, shaped, targets, Chance, Drawing, List, Shape};

/// What a file was drawn as. Most of those that are no lawful design are refused, by far not all.
#[derive(Clone, Copy, Debug, PartialEq, Eq)]
pub enum Sort {
    Lawful,
    Aimed,
    Damaged,
    Blocks,
    Hostile,
    Bytes,
}

pub const SORTS: [Sort; 6] = [Sort::Lawful, Sort::Aimed, Sort::Damaged, Sort::Blocks, Sort::Hostile, Sort::Bytes];

/// The file of a seed and what it was drawn as.
pub fn file(seed: u64) -> (Sort, Vec<u8>) {
    let mut chance = Chance::new(seed);
    let chance = &mut chance;
    match chance.below(100) {
        0..=29 => (Sort::Lawful, lawful(chance).list().file()),
        30..=74 => {
            let target = chance.pick(&targets());
            let drawing = lawful(chance);
            (Sort::Aimed, aimed(chance, target, drawing))
        }
        75..=86 => (Sort::Damaged, often_damaged(chance).file()),
        87..=92 => {
            let file = lawful(chance).list().file();
            (Sort::Blocks, damaged_blocks(chance, file))
        }
        93..=95 => (Sort::Hostile, hostile(chance).file()),
        _ => (Sort::Bytes, bytes(chance)),
    }
}

/// A design of few components as a rule, now and then of as many as there may be, thick or deep.
fn lawful(chance: &mut Chance) -> Drawing {
    match chance.below(20) {
        0 => shaped(chance, 64, &Shape { instances: 12, calls: 40, deep: false }),
        1 => shaped(chance, 64, &Shape { instances: 3, calls: 4, deep: true }),
        2 => drawn(chance, 64),
        3..=6 => drawn(chance, 16),
        _ => drawn(chance, 6),
    }
}

fn often_damaged(chance: &mut Chance) -> List {
    (0..1 + chance.below(3)).fold(lawful(chance).list(), |list, _| damaged(chance, list))
}

/// A design as large as the limits allow, or a deep one that a listing could get lost in; half of them with a fault.
fn hostile(chance: &mut Chance) -> List {
    let list = match chance.below(13) {
        0 => designs::rich(),
        1 => designs::scattered(chance.one_in(2)),
        2 => designs::empty_levels(),
        3 => designs::unused_instances(),
        4 | 5 => designs::doubling(1 + chance.below(64) as u16),
        6 => designs::many_rows(chance.one_in(2)),
        7 => designs::many_units(chance.one_in(2)),
        8 => designs::deep(),
        9 => designs::hidden(),
        10 => designs::longest(),
        _ => widest(chance),
    };
    if chance.one_in(2) {
        damaged(chance, list)
    } else {
        list
    }
}

/// A component of 64 invocations of a leaf of 16 inputs and as many outputs: the most control rows that there are.
fn widest(chance: &mut Chance) -> List {
    let leaf = List::new().leaf(16).times(16, |list, i| list.input(i, i + 1, 8)).times(16, |list, o| list.output(o, 16 + o, 8));
    let list = leaf.built(1024).times(16, |list, i| list.input(i, 1024, 8)).times(16, |list, _| list.output(20, 21, 8));
    let offset = 15 + chance.below(2) as u16;
    let list = list
        .instance(0)
        .times(64, |list, j| list.invocation(0, (16 * j + offset).min(1023)).times(16, |list, i| list.argument(designs::own(i))));
    list.times(16, |list, o| list.connection(designs::own(o)))
}

/// Bytes by chance, some of them with a right check, or records of small numbers of which some pass.
fn bytes(chance: &mut Chance) -> Vec<u8> {
    if chance.one_in(2) {
        return small_records(chance).file();
    }
    let mut file: Vec<u8> = (0..512 * (1 + chance.below(3))).map(|_| chance.number() as u8).collect();
    if chance.one_in(2) {
        seal(&mut file);
    }
    file
}

fn small_records(chance: &mut Chance) -> List {
    let mut list = List::new().leaf(1).built(1);
    for _ in 0..chance.below(60) {
        let mut record = [0; 16];
        record[..3].copy_from_slice(&[chance.below(8) as u8, chance.below(3) as u8, chance.below(3) as u8]);
        record[4] = chance.below(3) as u8;
        record[6] = chance.below(2) as u8;
        list.records.push(record);
    }
    list
}
