//! Lowering: rows written by hand, the naive rows of designs by chance, and the order of its refusals.

use dansevik::designs::{constant, drawn, output_of, own, squaring, Chance, List};
use dansevik::naive;
use dansevik::plain::{lower, Fault, Refusal, Signature, ROWS};

fn rows(file: &[u8], component: u64) -> Result<Vec<Vec<u16>>, Refusal> {
    let mut out = vec![0xEE; 16 * 4096];
    let count = lower(file, &mut [Signature::default(); ROWS], component, &mut out)?;
    assert!(out[16 * count..].iter().all(|b| *b == 0xEE), "bytes past the rows keep their values");
    let row = |bytes: &[u8]| bytes.chunks(2).map(|b| u16::from_le_bytes([b[0], b[1]])).collect();
    Ok(out[..16 * count].chunks(16).map(row).collect())
}

fn filled(row: &[u16]) -> Vec<u16> {
    let mut row = row.to_vec();
    row.resize(8, 0);
    row
}

fn assert_rows(file: &[u8], component: u64, expected: &[&[u16]]) {
    let expected: Vec<Vec<u16>> = expected.iter().map(|row| filled(row)).collect();
    assert_eq!(rows(file, component), Ok(expected));
}

#[test]
fn the_squaring_example_has_eight_rows() {
    let expected: [&[u16]; 8] = [
        &[1, 4, 5],
        &[2, 0, 0, 0],
        &[3, 0, 0, 0, 0, 10],
        &[3, 0, 1, 0, 0, 11],
        &[2, 1, 0, 2],
        &[3, 1, 0, 2, 2, 13],
        &[3, 1, 1, 2, 2, 14],
        &[4, 0, 15],
    ];
    assert_rows(&squaring().file(), 1, &expected);
}

#[test]
fn each_part_can_give_the_number_of_states() {
    // nothing at all: one state; then an own input, an own output, an offset, an invoked input, an invoked output
    assert_rows(&List::new().built(7).file(), 0, &[&[1, 7, 1]]);
    assert_rows(&List::new().built(9).input(3, 9, 1).file(), 0, &[&[1, 9, 9]]);
    assert_rows(&List::new().built(9).output(900, 905, 1).connection(constant(1)).file(), 0, &[&[1, 9, 905], &[4, 0, 2]]);
    let quiet = List::new().leaf(1).built(3).instance(0).invocation(0, 1023);
    assert_rows(&quiet.file(), 1, &[&[1, 3, 1024], &[2, 0, 0, 1023]]);
    let late = List::new().leaf(1024).input(0, 1024, 8).built(1024).instance(0).invocation(0, 1023).argument(constant(255));
    assert_rows(&late.file(), 1, &[&[1, 1024, 2047], &[2, 0, 0, 1023], &[3, 0, 0, 1023, 2046, 5]]);
    let long = List::new().leaf(2).output(5, 7, 8).built(2).instance(0).invocation(0, 10);
    assert_rows(&long.file(), 1, &[&[1, 2, 17], &[2, 0, 0, 10]]);
}

#[test]
fn offsets_that_fall_keep_the_order_of_the_file() {
    let list = List::new().leaf(2).input(1, 3, 8).built(9).input(0, 9, 8).output(0, 9, 8).instance(0).instance(0);
    let list = list
        .invocation(1, 5)
        .argument(own(0))
        .invocation(1, 0)
        .argument(constant(3))
        .invocation(0, 4)
        .argument(own(0))
        .connection(own(0));
    let expected: [&[u16]; 8] = [
        &[1, 9, 9],
        &[2, 0, 1, 5],
        &[3, 0, 0, 6, 7, 8],
        &[2, 1, 1, 0],
        &[3, 1, 0, 1, 2, 10],
        &[2, 2, 0, 4],
        &[3, 2, 0, 5, 6, 12],
        &[4, 0, 13],
    ];
    assert_rows(&list.file(), 1, &expected);
    assert_rows(&list.built(1).output(0, 1, 1).connection(constant(0)).file(), 1, &expected);
}

#[test]
fn designs_by_chance_have_the_naive_rows() {
    let mut compared = 0;
    for seed in 0..2_000 {
        let file = drawn(&mut Chance::new(seed), 10).list().file();
        let design = naive::design(&naive::records(&file).unwrap()).unwrap();
        for component in 0..design.len() {
            let expected = if design[component].built {
                let row = |row: &[u64; 8]| row.iter().map(|field| *field as u16).collect();
                Ok(naive::rows(&design, component).iter().map(row).collect::<Vec<Vec<u16>>>())
            } else {
                Err(Refusal { fault: Fault::Absent, position: component as u64 })
            };
            assert_eq!(rows(&file, component as u64), expected, "seed {seed} component {component}");
            compared += 1;
        }
    }
    assert!(compared > 8_000, "{compared}");
}

#[test]
fn refusals_come_in_order_and_write_nothing() {
    let file = squaring().file();
    let answer = |file: &[u8], rows: usize, component: u64, room: usize| {
        let mut table = vec![Signature { class: 1, delay: 1, inputs: 1, outputs: 1, first: 1 }; rows];
        let mut out = vec![5; room];
        let answer = lower(file, &mut table, component, &mut out);
        assert!(table.iter().all(|row| *row == Signature::default()));
        assert!(answer.is_ok() || out.iter().all(|b| *b == 5));
        answer.map_err(|refusal| (refusal.fault as u64, refusal.position))
    };
    assert_eq!(answer(&file, 64, 1, 128), Ok(8));
    assert_eq!(answer(&file, 70, 1, 129), Ok(8));
    assert_eq!(answer(&file, 64, 1, 127), Err((13, 0)));
    assert_eq!(answer(&file, 64, 0, 0), Err((14, 0)));
    assert_eq!(answer(&file, 64, 2, 0), Err((14, 2)));
    assert_eq!(answer(&file, 64, u64::MAX, 0), Err((14, u64::MAX)));
    assert_eq!(answer(&file, 63, 2, 0), Err((13, 0)));
    assert_eq!(answer(&[], 63, 2, 0), Err((13, 0)));
    assert_eq!(answer(&file[..511], 64, 2, 0), Err((1, 0)));
    assert_eq!(answer(&squaring().with_byte(12, 4, 1).file(), 64, 9, 0), Err((10, 12)));
    assert_eq!(
        answer(&List::new().built(1).output(0, 1, 1).input(0, 1, 1).connection(output_of(0, 0)).file(), 64, 9, 0),
        Err((5, 2))
    );
}
