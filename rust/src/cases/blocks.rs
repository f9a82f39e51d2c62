//! Blocks: lengths, checks, headers, unused slots and spare bytes.

use super::{case, Case};
use crate::designs::{seal, squaring, List};

/// A file of so many blocks, the last with nine records.
fn leaves(blocks: u16) -> Vec<u8> {
    let records = 31 * (blocks - 1) + 9;
    List::new().times(records.min(64), |list, _| list.leaf(1)).file()
}

/// The file with one byte replaced, and the check right again.
fn sealed(mut file: Vec<u8>, at: usize, byte: u8) -> Vec<u8> {
    file[at] = byte;
    seal(&mut file);
    file
}

/// The file with one byte replaced, and the check left as it was.
fn broken(mut file: Vec<u8>, at: usize, byte: u8) -> Vec<u8> {
    file[at] = byte;
    file
}

/// 129 blocks in which nothing but their number is wrong.
fn one_block_too_many() -> Vec<u8> {
    let mut file = Vec::new();
    for number in 0..129 {
        let mut block = List::new().times(31, |list, _| list.leaf(1)).file();
        block[0] = number;
        block[5] = u8::from(number == 128);
        file.extend(block);
    }
    seal(&mut file);
    file
}

pub fn cases() -> Vec<Case> {
    let a = || squaring().file();
    let two = || leaves(2);
    // the last slot of the middle block taken out of its count
    let mut middle = sealed(leaves(3), 512 + 4, 30);
    middle[512 + 488..512 + 504].fill(0);
    seal(&mut middle);
    vec![
        case("length-511", a()[..511].to_vec(), "refused 1 at 0"),
        case("length-129-blocks", one_block_too_many(), "refused 1 at 0"),
        case("check-before-header", broken(a(), 6, 1), "refused 2 at 0"),
        case("header-before-next-check", broken(sealed(two(), 6, 1), 512 + 9, 1), "refused 3 at 0"),
        case("check-before-records", broken(sealed(two(), 8, 9), 512 + 9, 1), "refused 2 at 1"),
        case("count-0", sealed(a(), 4, 0), "refused 3 at 0"),
        case("count-32", sealed(a(), 4, 32), "refused 3 at 0"),
        case("count-middle-30", middle, "refused 3 at 1"),
        case("mark-missing", sealed(a(), 5, 0), "refused 3 at 0"),
        case("mark-missing-block-1", sealed(two(), 512 + 5, 0), "refused 3 at 1"),
        case("mark-early", sealed(two(), 5, 1), "refused 3 at 0"),
        case("block-number", sealed(two(), 512, 2), "refused 3 at 1"),
        case("unused-last", sealed(a(), 503, 1), "refused 3 at 0"),
        case("spare-last", sealed(a(), 507, 1), "refused 3 at 0"),
    ]
}
