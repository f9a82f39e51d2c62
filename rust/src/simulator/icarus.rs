//! Icarus Verilog as a process: one run for all benches of a text.

use super::wires::{Cycles, Wire};
use std::fs;
use std::io::{self, BufRead, BufReader};
use std::path::Path;
use std::process::{Command, Stdio};

/// What a bench printed.
#[derive(Clone, Debug, Default)]
pub struct Simulated {
    pub driven: Cycles,
    /// The cycles that it went through, once it came to its end.
    pub cycles: Option<u64>,
}

fn failed(what: String) -> io::Error {
    io::Error::new(io::ErrorKind::Other, what)
}

/// Runs benches 0 to `benches` − 1 of a text, with its files in this folder, which is made where it is missing.
pub fn run(verilog: &str, benches: usize, folder: &Path) -> io::Result<Vec<Simulated>> {
    let (source, program) = (folder.join("benches.v"), folder.join("benches.vvp"));
    fs::create_dir_all(folder)?;
    fs::write(&source, verilog)?;
    let made = Command::new("iverilog").args(["-g2005", "-o"]).arg(&program).arg(&source).status()?;
    if !made.success() {
        return Err(failed(format!("iverilog refuses {}", source.display())));
    }
    let mut child = Command::new("vvp").arg("-n").arg(&program).stdin(Stdio::null()).stdout(Stdio::piped()).spawn()?;
    let stdout = child.stdout.take().ok_or_else(|| failed("no output of vvp".to_string()))?;
    let mut simulated = vec![Simulated::default(); benches];
    for line in BufReader::new(stdout).lines() {
        let line = line?;
        enter(&mut simulated, &line).ok_or_else(|| failed(format!("vvp printed {line:?}")))?;
    }
    if child.wait()?.success() {
        Ok(simulated)
    } else {
        Err(failed(format!("vvp does not run {}", source.display())))
    }
}

/// `BENCH CYCLE end`, or `BENCH CYCLE WIRE: CODE CLASH`.
fn enter(simulated: &mut [Simulated], line: &str) -> Option<()> {
    let (place, bits) = line.split_once(": ").unwrap_or((line, ""));
    let words: Vec<&str> = place.split(' ').collect();
    let number = |at: usize| words.get(at).and_then(|word| word.parse::<usize>().ok());
    let (bench, cycle) = (simulated.get_mut(number(0)?)?, number(1)? as u64);
    let wire = match *words.get(2)? {
        "end" => {
            bench.cycles = Some(cycle);
            return Some(());
        }
        "start" => Wire::Start { instance: number(3)? },
        "input" => Wire::Input { instance: number(3)?, port: number(4)? },
        "output" => Wire::Output { port: number(3)? },
        _ => return None,
    };
    bench.driven.insert((cycle, wire), bits.to_string());
    Some(())
}
