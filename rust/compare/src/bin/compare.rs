//! Compares the verified library with the independent implementation, call by call and byte by byte.
//!
//!     compare [-n FILES] [-s SEED]
//!
//! It runs every call on every named case and on so many files by chance (20,000, seed 1), and prints how often each answer
//! came up. A file on which they differ is kept, up to ten. The exit status is 0 where there is none and every refusal came
//! up, 1 otherwise, 2 on misuse. `compare -n 200000` is the long run.

use dansevik::cases::all;
use dansevik::designs::Chance;
use dansevik_compare::every_call::every_call;
use dansevik_compare::files::file;
use dansevik_compare::pair::Lent;
use dansevik_compare::totals::Totals;
use std::process::exit;
use std::{env, fs, thread};

/// Most differences that a worker reports.
const SHOWN: u64 = 5;

struct Asked {
    files: u64,
    seed: u64,
}

fn asked() -> Option<Asked> {
    let mut asked = Asked { files: 20_000, seed: 1 };
    let mut words = env::args().skip(1);
    while let Some(word) = words.next() {
        match word.as_str() {
            "-n" => asked.files = words.next()?.parse().ok()?,
            "-s" => asked.seed = words.next()?.parse().ok()?,
            _ => return None,
        }
    }
    Some(asked)
}

/// One file, and what came out of it.
fn one(name: &str, file: &[u8], chance: &mut Chance, lent: &mut Lent, totals: &mut Totals) {
    totals.files += 1;
    match every_call(file, chance, lent) {
        Ok(outcome) => totals.add(&outcome),
        Err(difference) => {
            totals.different += 1;
            if totals.different <= SHOWN {
                let kept = env::temp_dir().join(format!("compare-{name}"));
                let place = fs::write(&kept, file).map_or_else(|error| error.to_string(), |()| kept.display().to_string());
                println!("{name}: {}: {} ({place})", difference.call, difference.how);
            }
        }
    }
}

/// The share of one worker: every `step`th file by chance from `first` on.
fn share(asked: &Asked, first: u64, step: u64) -> Totals {
    let mut totals = Totals::default();
    let mut lent = Lent::new();
    let mut n = first;
    while n < asked.files {
        let seed = asked.seed.wrapping_mul(1_000_000_007).wrapping_add(n);
        let (sort, file) = file(seed);
        totals.drawn(sort);
        one(&format!("seed-{}-{n}", asked.seed), &file, &mut Chance::new(!seed), &mut lent, &mut totals);
        n += step;
    }
    totals
}

fn cases() -> Totals {
    let mut totals = Totals::default();
    for case in all() {
        one(&format!("case-{}", case.name), &case.file, &mut Chance::new(0), &mut Lent::new(), &mut totals);
    }
    totals
}

fn main() {
    let asked = match asked() {
        Some(asked) => asked,
        None => {
            eprintln!("usage: compare [-n FILES] [-s SEED]");
            exit(2);
        }
    };
    println!("seed {}", asked.seed);
    let mut totals = cases();
    let workers = thread::available_parallelism().map_or(1, |n| n.get() as u64);
    thread::scope(|scope| {
        let asked = &asked;
        let all: Vec<_> = (0..workers).map(|first| scope.spawn(move || share(asked, first, workers))).collect();
        for worker in all {
            totals.join(&worker.join().expect("a worker comes to its end"));
        }
    });
    println!("{totals}");
    let never = totals.never();
    if !never.is_empty() {
        println!("refusals that never came up: {never:?}");
    }
    exit(i32::from(totals.different > 0 || !never.is_empty()));
}
