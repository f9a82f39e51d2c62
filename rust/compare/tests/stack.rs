//! That no call takes more stack than the wrapper says: a thread with little more would end the test by a fault.

use dansevik::designs::{deep, empty_levels, hidden, longest, many_rows, rich, scattered};
use dansevik_host::{judge, list, lower, pack, record, unpack, Table, FILE_BYTES, STACK_BYTES};
use std::thread;

/// What a thread of Rust's takes by itself, with room for the test's own calls.
const OWN: usize = 16 * 1024;

#[test]
fn every_call_keeps_within_the_stack_that_is_said() {
    for design in [longest(), hidden(), deep(), empty_levels(), many_rows(false), scattered(false), rich()] {
        let (file, records) = (design.file(), design.records.concat());
        let work = move || {
            let mut table = Table::new();
            let mut out = vec![0; FILE_BYTES];
            let components = judge(&file, &mut table).expect("accepted").components as u64;
            for component in 0..components {
                let _ = lower(&file, &mut table, component, &mut out);
                let _ = list(&file, &mut table, component, &mut out);
            }
            assert_eq!(unpack(&file, &mut out), Ok(records.len()));
            assert_eq!(pack(&records, &mut out), Ok(file.len()));
            assert_eq!(record(&file, 0), Ok(&records[..16]));
        };
        thread::Builder::new().stack_size(STACK_BYTES + OWN).spawn(work).expect("a thread").join().expect("no fault");
    }
}
