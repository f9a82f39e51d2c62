//! Sixteen bytes to a record and back, and files to record lists and back.

use dansevik::designs::{constant, drawn, output_of, own, seal, squaring, Chance};
use dansevik::plain::{decode, encode, pack, record, sound, unpack, Class, Fault, Port, Record, Refusal, Side, Source};

fn refused<T>(number: Fault, position: u64) -> Result<T, Refusal> {
    Err(Refusal { fault: number, position })
}

fn one_of_each() -> Vec<(Record, Vec<usize>)> {
    let port = Port { start: 2, end: 3, width: 32 };
    let sources = |of: fn(Source) -> Record| {
        vec![
            (of(own(15)), vec![0, 1, 2, 3]),
            (of(output_of(63, 15)), vec![0, 1, 2, 3, 4, 5]),
            (of(constant(0x0123_4567_89AB_CDEF)), vec![0, 1, 8, 9, 10, 11, 12, 13, 14, 15]),
        ]
    };
    let mut all = vec![
        (Record::Component { class: Class::Leaf, delay: 1024 }, vec![0, 1, 2, 3]),
        (Record::Component { class: Class::Built, delay: 1 }, vec![0, 1, 2, 3]),
        (Record::Port { side: Side::Input, port }, vec![0, 1, 2, 3, 4, 5, 6]),
        (Record::Port { side: Side::Output, port }, vec![0, 1, 2, 3, 4, 5, 6]),
        (Record::Instance { component: 63 }, vec![0, 2, 3]),
        (Record::Invocation { instance: 31, offset: 1023 }, vec![0, 2, 3, 4, 5]),
    ];
    all.extend(sources(Record::Argument));
    all.extend(sources(Record::Connection));
    all
}

#[test]
fn decoding_undoes_encoding_and_every_unnamed_byte_is_zero() {
    for (record, named) in one_of_each() {
        let bytes = encode(&record);
        assert_eq!(decode(&bytes), Some(record));
        for at in (0..16).filter(|at| !named.contains(at)) {
            for bit in 0..8 {
                let mut wrong = bytes;
                wrong[at] = 1 << bit;
                assert_eq!(decode(&wrong), None, "{record:?} byte {at}");
            }
        }
    }
}

#[test]
fn encoding_undoes_decoding() {
    let mut chance = Chance::new(3);
    let mut read = 0;
    for _ in 0..200_000 {
        let mut bytes = [0; 16];
        bytes[0] = chance.below(8) as u8;
        bytes[1] = chance.below(4) as u8;
        for byte in &mut bytes[2..7] {
            *byte = if chance.one_in(3) { chance.below(64) as u8 } else { 0 };
        }
        bytes[7 + chance.below(9)] = if chance.one_in(4) { chance.number() as u8 } else { 0 };
        if let Some(record) = decode(&bytes) {
            assert_eq!(encode(&record), bytes);
            read += 1;
        }
    }
    assert!(read > 5_000, "{read}");
}

#[test]
fn packing_and_unpacking_undo_each_other() {
    let mut chance = Chance::new(5);
    for many in [1, 2, 30, 31, 32, 61, 62, 63, 93, 3967, 3968] {
        let list: Vec<u8> = (0..16 * many).map(|_| chance.number() as u8).collect();
        let size = 512 * ((many + 30) / 31);
        let mut file = vec![7; size + 5];
        assert_eq!(pack(&list, &mut file), Ok(size));
        assert_eq!(file[size..], [7; 5], "bytes past the written part keep their values");
        assert_eq!(sound(&file[..size]), Ok(many));
        let mut back = vec![9; list.len() + 3];
        assert_eq!(unpack(&file[..size], &mut back), Ok(list.len()));
        assert_eq!((&back[..list.len()], &back[list.len()..]), (&list[..], &[9; 3][..]));
        assert_eq!(record(&file[..size], many as u64 - 1), Ok(&list[list.len() - 16..]));
    }
}

#[test]
fn packing_refuses_length_then_room() {
    let mut out = [3; 512];
    for length in [0, 15, 17, 16 * 3969] {
        assert_eq!(pack(&vec![0; length], &mut out), refused(Fault::Length, 0));
    }
    assert_eq!(pack(&[0; 16], &mut out[..511]), refused(Fault::Room, 0));
    assert_eq!(pack(&[0; 16 * 32], &mut out), refused(Fault::Room, 0));
    let file = squaring().file();
    assert_eq!(unpack(&file, &mut out[..255]), refused(Fault::Room, 0));
    assert_eq!(unpack(&file[..511], &mut out), refused(Fault::Length, 0));
    assert_eq!(out, [3; 512], "a refusal writes nothing");
}

#[test]
fn a_record_is_a_part_of_the_callers_file() {
    let file = drawn(&mut Chance::new(90), 40).list().file();
    let many = sound(&file).unwrap();
    assert!(many > 62);
    for number in 0..many {
        let part = record(&file, number as u64).unwrap();
        let at = part.as_ptr() as usize - file.as_ptr() as usize;
        assert_eq!((at, part.len()), (512 * (number / 31) + 8 + 16 * (number % 31), 16));
    }
    for number in [many as u64, 4_000, u64::MAX] {
        assert_eq!(record(&file, number), refused(Fault::Absent, number));
    }
}

#[test]
fn lookup_checks_the_whole_file_first() {
    let mut file = drawn(&mut Chance::new(90), 40).list().file();
    let last = file.len() - 512;
    file[last + 7] = 1;
    assert_eq!(record(&file, u64::MAX), refused(Fault::Check, last as u64 / 512));
    seal(&mut file);
    assert_eq!(record(&file, 0), refused(Fault::Header, last as u64 / 512));
    assert_eq!(record(&file[..last + 3], 0), refused(Fault::Length, 0));
}
