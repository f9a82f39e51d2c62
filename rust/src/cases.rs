//! Files with a name and the answer that document 01 gives to each: what the verified programs are run on.

mod blocks;
mod order;
mod ranges;
mod sizes;
mod timing;

use crate::designs::{variants, List};
use crate::{naive, plain};

pub struct Case {
    pub name: String,
    pub file: Vec<u8>,
    /// The line that a judging program prints.
    pub answer: String,
}

fn case(name: &str, file: Vec<u8>, answer: &str) -> Case {
    Case { name: name.to_string(), file, answer: answer.to_string() }
}

fn listed(name: &str, list: List, answer: &str) -> Case {
    case(name, list.file(), answer)
}

/// All cases, in the order in which they are to be run: A to Q of document 01 first.
pub fn all() -> Vec<Case> {
    let squaring = variants().into_iter().map(|(name, file, answer)| case(name, file, answer));
    let mut all: Vec<Case> = squaring.collect();
    all.extend(blocks::cases());
    all.extend(ranges::cases());
    all.extend(order::cases());
    all.extend(timing::cases());
    all.extend(sizes::cases());
    all
}

/// The line of the fast implementation.
pub fn line(file: &[u8]) -> String {
    match plain::judge(file, &mut [plain::Signature::default(); plain::ROWS]) {
        Ok(accepted) => accepted.to_string(),
        Err(refusal) => refusal.to_string(),
    }
}

/// The line of the naive implementation.
pub fn naive_line(file: &[u8]) -> String {
    match naive::judge(file) {
        Ok((components, records)) => format!("accepted {components} {records}"),
        Err((number, position)) => format!("refused {number} at {position}"),
    }
}
