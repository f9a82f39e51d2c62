//! The flat listing: rows written by hand, the naive list of designs by chance, hierarchies that a plain expansion would
//! never finish, and the order of its refusals.

use dansevik::designs::{self, drawn, rich, squaring, Chance, List};
use dansevik::naive;
use dansevik::plain::{list, Fault, Refusal, Signature, ROWS};

type Row = (u64, u64, u64);

fn starts(file: &[u8], component: u64) -> Result<Vec<Row>, Refusal> {
    let mut out = vec![0xEE; 8 * 4097];
    let count = list(file, &mut [Signature::default(); ROWS], component, &mut out)?;
    assert!(out[8 * count..].iter().all(|b| *b == 0xEE), "bytes past the rows keep their values");
    let little = |bytes: &[u8]| bytes.iter().rev().fold(0, |sum, b| sum * 256 + u64::from(*b));
    Ok(out[..8 * count].chunks(8).map(|row| (little(&row[..4]), little(&row[4..6]), little(&row[6..]))).collect())
}

const ROOM: Result<usize, Refusal> = Err(Refusal { fault: Fault::Room, position: 0 });

fn count(list: &List, component: u64) -> Result<usize, Refusal> {
    starts(&list.file(), component).map(|rows| rows.len())
}

#[test]
fn the_squaring_example_starts_its_unit_twice() {
    let file = squaring().file();
    assert_eq!(starts(&file, 1), Ok(vec![(0, 0, 0), (2, 0, 0)]));
    assert_eq!(starts(&file, 0), Ok(vec![(0, 0, 0)]));
}

#[test]
fn instances_of_a_built_component_own_different_units() {
    // 2: units 0 and 1 of component 0, then 2 of component 1, never invoked; 3: two instances of it, and a leaf between
    let list = List::new().leaf(2).leaf(3);
    let list = list.built(10).instance(0).instance(0).instance(1).invocation(1, 4).invocation(0, 0).invocation(1, 1);
    let list = list.built(30).instance(2).instance(1).instance(2);
    let list = list.invocation(2, 100).invocation(1, 7).invocation(0, 0).invocation(2, 110);
    let expected = vec![
        (104, 5, 0),
        (100, 4, 0),
        (101, 5, 0),
        (7, 3, 1),
        (4, 1, 0),
        (0, 0, 0),
        (1, 1, 0),
        (114, 5, 0),
        (110, 4, 0),
        (111, 5, 0),
    ];
    assert_eq!(starts(&list.file(), 2), Ok(vec![(4, 1, 0), (0, 0, 0), (1, 1, 0)]));
    assert_eq!(starts(&list.file(), 3), Ok(expected));
}

/// How many expansions a plain recursion makes.
fn expansions(design: &[naive::Component]) -> Vec<u128> {
    let mut counts: Vec<u128> = Vec::new();
    for own in design {
        let below = own.calls.iter().map(|call| counts[own.instances[call.instance]]);
        counts.push(below.fold(1, |sum, count| sum.saturating_add(count)));
    }
    counts
}

#[test]
fn designs_by_chance_have_the_naive_list() {
    let mut compared = 0;
    let mut refused = 0;
    for seed in 0..1_200 {
        let file = drawn(&mut Chance::new(seed), if seed % 4 == 0 { 64 } else { 12 }).list().file();
        let design = naive::design(&naive::records(&file).unwrap()).unwrap();
        for (component, expansions) in expansions(&design).into_iter().enumerate() {
            let many = naive::start_count(&design, component) > 4096 || naive::unit_count(&design, component) > 4096;
            let answer = starts(&file, component as u64);
            if many {
                assert_eq!(answer.map(|rows| rows.len()), ROOM, "seed {seed} component {component}");
                refused += 1;
            } else if expansions < 50_000 {
                assert_eq!(answer, Ok(naive::starts(&design, component)), "seed {seed} component {component}");
                compared += 1;
            } else {
                assert_eq!(answer.map(|rows| rows.len() as u128), Ok(naive::start_count(&design, component)));
            }
        }
    }
    assert!(compared > 8_000 && refused > 0, "{compared} {refused}");
}

#[test]
fn hostile_hierarchies_are_answered_at_once() {
    assert_eq!(count(&designs::empty_levels(), 63), Ok(0));
    assert_eq!(count(&designs::unused_instances(), 63), ROOM);
    assert_eq!(count(&designs::unused_instances(), 2), Ok(0));
    for power in [13, 16, 32, 63, 64] {
        assert_eq!(count(&designs::doubling(power), u64::from(power.min(63))), ROOM, "2 to the {power}");
    }
    assert_eq!(count(&designs::doubling(12), 12), Ok(4096));
    assert_eq!(count(&designs::many_rows(false), 3), Ok(4096));
    assert_eq!(count(&designs::many_rows(true), 3), ROOM);
    assert_eq!(count(&designs::many_units(false), 3), Ok(0));
    assert_eq!(count(&designs::many_units(true), 3), ROOM);
    assert_eq!(count(&designs::deep(), 58), Ok(256));
    assert_eq!(count(&designs::hidden(), 61), Ok(4096));
    assert_eq!(count(&rich(), 44).map(|rows| rows > 1_000), Ok(true));
    assert_eq!(count(&rich(), 63), ROOM);
}

#[test]
fn many_rows_are_the_naive_ones() {
    for (list, component) in [(designs::many_rows(false), 3), (designs::deep(), 58), (designs::doubling(12), 12), (rich(), 44)] {
        let file = list.file();
        let design = naive::design(&naive::records(&file).unwrap()).unwrap();
        assert_eq!(starts(&file, component), Ok(naive::starts(&design, component as usize)));
    }
}

#[test]
fn refusals_come_in_order_and_write_nothing() {
    let answer = |file: &[u8], rows: usize, component: u64, room: usize| {
        let mut table = vec![Signature { class: 1, delay: 1, inputs: 1, outputs: 1, first: 1 }; rows];
        let mut out = vec![5; room];
        let answer = list(file, &mut table, component, &mut out);
        assert!(table.iter().all(|row| *row == Signature::default()));
        assert!(answer.is_ok() || out.iter().all(|b| *b == 5));
        answer.map_err(|refusal| (refusal.fault as u64, refusal.position))
    };
    let file = squaring().file();
    assert_eq!(answer(&file, 64, 1, 16), Ok(2));
    assert_eq!(answer(&file, 64, 1, 15), Err((13, 0)));
    assert_eq!(answer(&file, 64, 0, 8), Ok(1));
    assert_eq!(answer(&file, 64, 2, 0), Err((14, 2)));
    assert_eq!(answer(&file, 64, u64::MAX, 0), Err((14, u64::MAX)));
    assert_eq!(answer(&file, 63, 2, 0), Err((13, 0)));
    assert_eq!(answer(&squaring().with_byte(15, 2, 2).file(), 70, 2, 0), Err((7, 15)));
    assert_eq!(answer(&List::new().built(1).file(), 64, 0, 0), Ok(0));
}
