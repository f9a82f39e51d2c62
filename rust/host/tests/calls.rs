//! Every call of the wrapper on the squaring example: it would catch a declaration that does not fit the archive.

use dansevik_host::{judge, lent, list, lower, pack, record, unpack, Accepted, Fault, Refusal, Signature, Table};

const FILE: &[u8] = include_bytes!("../../../examples/squaring.design");
const RECORDS: &[u8] = include_bytes!("../../../examples/squaring.records");

fn refused<T>(fault: Fault, position: u64) -> Result<T, Refusal> {
    Err(Refusal { fault, position })
}

#[test]
fn the_verdict_gives_both_counts_or_the_first_refusal() {
    let mut table = Table::new();
    assert_eq!(judge(FILE, &mut table), Ok(Accepted { components: 2, records: 16 }));
    assert_eq!(judge(&[], &mut table), refused(Fault::Length, 0));
    let mut damaged = FILE.to_vec();
    damaged[100] ^= 1;
    assert_eq!(judge(&damaged, &mut table), refused(Fault::Check, 0));
}

#[test]
fn rows_and_starts_are_written_and_nothing_past_them() {
    let mut out = [7; 16 * 8 + 3];
    assert_eq!(lower(FILE, &mut Table::new(), 1, &mut out), Ok(8));
    assert_eq!(out[..6], [1, 0, 4, 0, 5, 0], "delay 4, five states");
    assert_eq!(out[16 * 8..], [7; 3]);
    let mut out = [7; 8 * 2 + 3];
    assert_eq!(list(FILE, &mut Table::new(), 1, &mut out), Ok(2));
    assert_eq!(out[..16], [0, 0, 0, 0, 0, 0, 0, 0, 2, 0, 0, 0, 0, 0, 0, 0]);
    assert_eq!(out[16..], [7; 3]);
}

#[test]
fn a_number_of_64_bits_comes_back_whole() {
    let mut out = [7; 128];
    for asked in [2, 1 << 32, u64::MAX] {
        assert_eq!(lower(FILE, &mut Table::new(), asked, &mut out), refused(Fault::Absent, asked));
        assert_eq!(list(FILE, &mut Table::new(), asked, &mut out), refused(Fault::Absent, asked));
        assert_eq!(record(FILE, asked.max(16)), refused(Fault::Absent, asked.max(16)));
    }
    assert_eq!(lower(FILE, &mut Table::new(), 0, &mut out), refused(Fault::Absent, 0));
    assert_eq!(lower(FILE, &mut Table::new(), 1, &mut out[..127]), refused(Fault::Room, 0));
    assert_eq!(out, [7; 128]);
}

#[test]
fn packing_and_unpacking_undo_each_other() {
    let mut list = [7; 256 + 1];
    assert_eq!(unpack(FILE, &mut list), Ok(256));
    assert_eq!((&list[..256], list[256]), (RECORDS, 7));
    let mut file = [7; 512 + 1];
    assert_eq!(pack(RECORDS, &mut file), Ok(512));
    assert_eq!((&file[..512], file[512]), (FILE, 7));
    assert_eq!(pack(RECORDS, &mut file[..511]), refused(Fault::Room, 0));
}

#[test]
fn a_record_is_a_part_of_the_file() {
    let part = record(FILE, 15).unwrap();
    assert_eq!((part.as_ptr(), part.len()), (FILE[8 + 16 * 15..].as_ptr(), 16));
}

#[test]
fn a_short_table_is_refused_and_every_table_is_zero_afterwards() {
    let dirty = Signature { class: 1, delay: 2, inputs: 3, outputs: 4, first: 5 };
    for rows in [0, 63, 64, 70] {
        let mut table = vec![dirty; rows];
        let answer = lent::judge(FILE, &mut table);
        assert_eq!(answer, if rows < 64 { refused(Fault::Room, 0) } else { Ok(Accepted { components: 2, records: 16 }) });
        assert!(table.iter().all(|row| *row == Signature::default()));
    }
}

#[test]
fn a_refusal_says_its_number_its_position_and_its_rule() {
    let refusal = Refusal { fault: Fault::Span, position: 12 };
    assert_eq!(refusal.to_string(), "refused 11 at 12: span, over this and earlier invocations");
}

#[test]
fn a_number_names_its_refusal_and_no_other() {
    for fault in Fault::ALL {
        assert_eq!(Fault::numbered(*fault as u64), Some(*fault));
    }
    assert_eq!((Fault::numbered(0), Fault::numbered(u64::MAX)), (None, None));
}

#[test]
fn the_header_has_the_same_names_and_numbers() {
    let header = include_str!("../../../include/dansevik.h");
    let refusals = header.lines().filter_map(|line| line.trim().strip_prefix("DANSEVIK_REFUSED_")?.split_once(" = "));
    let found: Vec<_> =
        refusals.map(|(name, number)| (name.replace('_', ""), number.trim_end_matches(',').to_string())).collect();
    let own: Vec<_> = Fault::ALL.iter().map(|fault| (format!("{fault:?}").to_uppercase(), (*fault as u64).to_string())).collect();
    assert_eq!(found, own);
}
