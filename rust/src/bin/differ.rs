//! Compares a program with the plain implementation: a command that reads a file on standard input and prints what `judge`,
//! `lower` or `list` prints.
//!
//!     differ [-n FILES] [-s SEED] judge|lower|list COMMAND ARGUMENTS..
//!
//! It runs on every case and on so many files by chance (500), and reports the first differences, each with the place
//! where it keeps the file. The exit status is 0 where there is none, 1 where there is one, 2 on misuse.

use dansevik::cases::all;
use dansevik::designs::{damaged, damaged_blocks, drawn, Chance};
use dansevik::{command, printed};
use std::process::exit;
use std::{env, fs, io};

/// Most differences that are reported.
const SHOWN: usize = 10;

/// What is expected of a file.
type Expected = fn(&[u8]) -> String;

struct Asked {
    files: u64,
    seed: u64,
    verb: String,
    expected: Expected,
    command: Vec<String>,
}

fn expected(verb: &str) -> Option<Expected> {
    match verb {
        "judge" => Some(printed::judged),
        "lower" => Some(printed::lowered),
        "list" => Some(|file| printed::listed(file, None)),
        _ => None,
    }
}

fn asked() -> Option<Asked> {
    let (mut files, mut seed) = (500, 1);
    let mut words = env::args().skip(1);
    while let Some(word) = words.next() {
        match word.as_str() {
            "-n" => files = words.next()?.parse().ok()?,
            "-s" => seed = words.next()?.parse().ok()?,
            verb => {
                let (expected, command) = (expected(verb)?, words.collect::<Vec<String>>());
                return if command.is_empty() {
                    None
                } else {
                    Some(Asked { files, seed, verb: verb.to_string(), expected, command })
                };
            }
        }
    }
    None
}

/// A file by chance: lawful, or damaged in a record or two, or in its blocks.
fn by_chance(chance: &mut Chance) -> Vec<u8> {
    let most = if chance.one_in(8) { 64 } else { 8 };
    let mut list = drawn(chance, most).list();
    for _ in 0..chance.below(3) {
        list = damaged(chance, list);
    }
    let file = list.file();
    if chance.one_in(10) {
        damaged_blocks(chance, file)
    } else {
        file
    }
}

fn main() -> io::Result<()> {
    let asked = match asked() {
        Some(asked) => asked,
        None => {
            eprintln!("usage: differ [-n FILES] [-s SEED] judge|lower|list COMMAND ARGUMENTS..");
            exit(2);
        }
    };
    let cases = all().into_iter().map(|case| (format!("case-{}", case.name), case.file));
    let drawn = (0..asked.files).map(|n| {
        let seed = asked.seed.wrapping_mul(1_000_003).wrapping_add(n);
        (format!("seed-{}-{n}", asked.seed), by_chance(&mut Chance::new(seed)))
    });
    let mut compared = 0;
    let mut different = 0;
    for (name, file) in cases.chain(drawn) {
        let expected = (asked.expected)(&file);
        let found = command::printed(&asked.command, &file)?;
        compared += 1;
        if found == expected {
            continue;
        }
        different += 1;
        if different <= SHOWN {
            let kept = env::temp_dir().join(format!("differ-{name}"));
            fs::write(&kept, &file)?;
            println!("{name}: expected {expected:?}, printed {found:?}, file {}", kept.display());
        }
    }
    println!("{verb}: {compared} files compared, {different} different", verb = asked.verb);
    exit(i32::from(different > 0));
}
