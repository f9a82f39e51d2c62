//! That the wrapper and the independent implementation name and number the refusals alike.

use dansevik::plain;
use dansevik_host as host;

#[test]
fn both_tables_have_the_same_names_and_numbers() {
    let plain: Vec<_> = plain::Fault::ALL.iter().map(|fault| (format!("{fault:?}"), *fault as u64)).collect();
    let host: Vec<_> = host::Fault::ALL.iter().map(|fault| (format!("{fault:?}"), *fault as u64)).collect();
    assert_eq!(plain, host);
}
