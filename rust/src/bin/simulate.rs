//! Runs the rows of `lower` in Icarus Verilog and compares every cycle with the timetable of the records.
//!
//!     simulate [-n DESIGNS] [-p PRINTED] [-s SEED] [FILE..] [-- COMMAND ARGUMENTS..]
//!
//! It takes the given files, of which refused ones are only to be refused, the largest rich file, and so many designs by
//! chance (300). The command reads a file on standard input and prints its rows; the plain implementation prints those of
//! the designs by chance from number PRINTED on, and all where no command is given.
//!
//! The same is run again with guards that go on through k+e, and every component that has a guard must then differ. The exit
//! status is 0 where all is as it should be, 1 where it is not, 2 on misuse.

use dansevik::designs::{drawn, rich, Chance, Draft, List};
use dansevik::simulator::{parse, simulate, Bench, Control, Totals};
use dansevik::{command, naive, printed};
use std::path::Path;
use std::process::{self, exit};
use std::{env, fs, io, thread};

/// Most differences that are reported.
const SHOWN: usize = 10;

/// Components that go into one run of the simulator, and a few more.
const BATCH: usize = 150;

/// Greatest end of a port and greatest offset in most designs by chance.
const SHORT: u16 = 100;

struct Asked {
    designs: u64,
    printed: u64,
    seed: u64,
    files: Vec<String>,
    command: Vec<String>,
}

fn asked() -> Option<Asked> {
    let mut asked = Asked { designs: 300, printed: u64::MAX, seed: 1, files: vec![], command: vec![] };
    let mut words = env::args().skip(1);
    while let Some(word) = words.next() {
        match word.as_str() {
            "-n" => asked.designs = words.next()?.parse().ok()?,
            "-p" => asked.printed = words.next()?.parse().ok()?,
            "-s" => asked.seed = words.next()?.parse().ok()?,
            "--" => asked.command = words.by_ref().collect(),
            option if option.starts_with('-') => return None,
            file => asked.files.push(file.to_string()),
        }
    }
    Some(asked)
}

/// The benches of a file, with the text that was printed for it; none of a refused one.
fn benches(name: &str, file: &[u8], text: &str, chance: &mut Chance) -> Result<Option<Vec<Bench>>, String> {
    let design = match naive::records(file).and_then(|list| naive::design(&list)) {
        Ok(design) => design,
        Err((number, position)) if text == format!("refused {number} at {position}\n") => return Ok(None),
        Err((number, position)) => return Err(format!("{name}: to be refused {number} at {position}, printed {text:?}")),
    };
    let controls = parse(text).map_err(|line| format!("{name}: {line}"))?;
    let built: Vec<usize> = (0..design.len()).filter(|component| design[*component].built).collect();
    if built != controls.iter().map(|control| control.component).collect::<Vec<usize>>() {
        return Err(format!("{name}: the built components are {built:?}, and others were printed"));
    }
    Ok(Some(controls.into_iter().map(|control| Bench::new(name, &design, control, chance)).collect()))
}

/// Simulates a batch with its own guards and, at the same time, with wrong ones.
fn compare(batch: &[Bench], folder: &Path, totals: &mut Totals) -> io::Result<()> {
    let all: Vec<&Bench> = batch.iter().collect();
    let guarded: Vec<&Bench> = batch.iter().filter(|bench| !bench.control.inputs.is_empty()).collect();
    let (right, wrong) = thread::scope(|scope| {
        let wrong = scope.spawn(|| simulate(&guarded, Control::through_end, &folder.join("wrong")));
        (simulate(&all, Control::clone, &folder.join("right")), wrong.join().expect("the other run ends"))
    });
    for (bench, found) in batch.iter().zip(right?) {
        for difference in found.iter().take(SHOWN.saturating_sub(totals.differences)) {
            println!("{} component {} {difference}", bench.name, bench.control.component);
        }
        totals.add(bench, &found);
    }
    for found in wrong? {
        totals.add_wrong(&found);
    }
    Ok(())
}

/// A design by chance that drives an instance input. One in six may have long registers, which take long to simulate.
fn by_chance(chance: &mut Chance) -> List {
    let long = chance.one_in(6);
    loop {
        let most = if long && chance.one_in(10) { 64 } else { 6 };
        let drawing = drawn(chance, most);
        if drawing.components.iter().any(drives) && (long || drawing.components.iter().all(is_short)) {
            return drawing.list();
        }
    }
}

fn drives(draft: &Draft) -> bool {
    draft.arguments.iter().any(|arguments| !arguments.is_empty())
}

fn is_short(draft: &Draft) -> bool {
    let ends = draft.inputs.iter().chain(&draft.outputs).map(|port| port.end);
    ends.chain(draft.calls.iter().map(|call| call.1)).all(|cycle| cycle <= SHORT)
}

/// The files, each with its name and whether the command is asked for its rows.
fn files(asked: &Asked) -> io::Result<Vec<(String, Vec<u8>, bool)>> {
    let given = asked.files.iter().map(|path| {
        let file = fs::read(path).map_err(|error| io::Error::new(error.kind(), format!("{path}: {error}")))?;
        Ok((path.clone(), file, true))
    });
    let drawn = (0..asked.designs).map(|number| {
        let seed = asked.seed.wrapping_mul(1_000_003).wrapping_add(number);
        Ok((format!("seed-{}-{number}", asked.seed), by_chance(&mut Chance::new(seed)).file(), number < asked.printed))
    });
    let rich = [Ok(("rich".to_string(), rich().file(), true))];
    given.chain(rich).chain(drawn).collect()
}

fn all(asked: &Asked, folder: &Path) -> io::Result<Totals> {
    let mut totals = Totals::default();
    let mut chance = Chance::new(asked.seed);
    let mut batch: Vec<Bench> = Vec::new();
    for (name, file, by_command) in files(asked)? {
        let by_command = by_command && !asked.command.is_empty();
        let text = if by_command { command::printed(&asked.command, &file)? } else { printed::lowered(&file) };
        match benches(&name, &file, &text, &mut chance) {
            Ok(Some(more)) => {
                totals.designs += 1;
                batch.extend(more);
            }
            Ok(None) => totals.refused += 1,
            Err(said) => return Err(io::Error::new(io::ErrorKind::Other, said)),
        }
        if batch.len() >= BATCH {
            compare(&batch, folder, &mut totals)?;
            batch.clear();
        }
    }
    if !batch.is_empty() {
        compare(&batch, folder, &mut totals)?;
    }
    Ok(totals)
}

fn main() {
    let asked = match asked() {
        Some(asked) => asked,
        None => {
            eprintln!("usage: simulate [-n DESIGNS] [-p PRINTED] [-s SEED] [FILE..] [-- COMMAND ARGUMENTS..]");
            exit(2);
        }
    };
    println!("seed {}", asked.seed);
    let folder = env::temp_dir().join(format!("simulate-{}", process::id()));
    let totals = all(&asked, &folder);
    // it is missing where nothing was simulated
    let _ = fs::remove_dir_all(&folder);
    match totals {
        Ok(totals) => {
            println!("{totals}");
            exit(i32::from(!totals.right()));
        }
        Err(error) => {
            eprintln!("simulate: {error}");
            exit(1);
        }
    }
}
