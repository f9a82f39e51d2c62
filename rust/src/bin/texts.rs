//! Whether `assemble` undoes `show`: for lists by chance, lawful, damaged, and with records that are none, the text that the one program
//! writes of the packed list is read by the other as the same list, to the byte. It would catch a field that is lost or written twice, a
//! number that follows from the place and is counted differently, and a picture that is no comment.
//!
//!     texts [-n LISTS] [-s SEED] COMMAND ARGUMENTS..
//!
//! The command, with the word `show` or `assemble` behind its arguments, is that program. The exit status is 0 where no list differs, 1
//! where one does, 2 on misuse.

use dansevik::designs::{damaged, drawn, hidden, rich, Chance, List};
use std::io::{self, Write};
use std::process::{exit, Command, Stdio};
use std::{env, fs, iter};

/// Most differences that are written out.
const SHOWN: usize = 5;

struct Asked {
    lists: u64,
    seed: u64,
    command: Vec<String>,
}

fn asked() -> Option<Asked> {
    let (mut lists, mut seed) = (1000, 1);
    let mut words = env::args().skip(1);
    while let Some(word) = words.next() {
        match word.as_str() {
            "-n" => lists = words.next()?.parse().ok()?,
            "-s" => seed = words.next()?.parse().ok()?,
            _ => return Some(Asked { lists, seed, command: iter::once(word).chain(words).collect() }),
        }
    }
    None
}

/// What a program writes on standard output.
fn written(command: &[String], program: &str, input: &[u8]) -> io::Result<Vec<u8>> {
    let mut child = Command::new(&command[0])
        .args(&command[1..])
        .arg(program)
        .stdin(Stdio::piped())
        .stdout(Stdio::piped())
        .stderr(Stdio::null())
        .spawn()?;
    let mut stdin = child.stdin.take().expect("a pipe");
    let input = input.to_vec();
    let fed = std::thread::spawn(move || {
        // a program may stop before it has read everything
        let _ = stdin.write_all(&input);
    });
    let output = child.wait_with_output()?;
    let _ = fed.join();
    Ok(output.stdout)
}

/// Some records that are sixteen bytes by chance, or nearly a record.
fn with_wrong(chance: &mut Chance, mut list: List) -> List {
    for _ in 0..1 + chance.below(4) {
        let n = chance.below(list.records.len());
        match chance.below(3) {
            0 => list.records[n] = [(); 16].map(|_| chance.number() as u8),
            1 => list.records[n][1 + chance.below(15)] |= 1 << chance.below(8),
            _ => list.records[n][0] = chance.number() as u8,
        }
    }
    list
}

fn by_chance(chance: &mut Chance) -> List {
    let most = if chance.one_in(8) { 64 } else { 8 };
    let mut list = match chance.below(60) {
        0 => rich(),
        1 => hidden(),
        _ => drawn(chance, most).list(),
    };
    for _ in 0..chance.below(4) {
        list = damaged(chance, list);
    }
    if chance.one_in(3) {
        list = with_wrong(chance, list);
    }
    list
}

fn main() -> io::Result<()> {
    let asked = match asked() {
        Some(asked) => asked,
        None => {
            eprintln!("usage: texts [-n LISTS] [-s SEED] COMMAND ARGUMENTS..");
            exit(2);
        }
    };
    let mut records = 0;
    let mut different = 0;
    for n in 0..asked.lists {
        let list = by_chance(&mut Chance::new(asked.seed.wrapping_mul(1_000_003).wrapping_add(n)));
        let text = written(&asked.command, "show", &list.file())?;
        let back = written(&asked.command, "assemble", &text)?;
        records += list.records.len();
        if back == list.records.concat() {
            continue;
        }
        different += 1;
        if different <= SHOWN {
            let kept = env::temp_dir().join(format!("texts-{}-{n}", asked.seed));
            fs::write(&kept, list.file())?;
            println!(
                "seed {} list {n}: {} records, {} bytes back, file {}",
                asked.seed,
                list.records.len(),
                back.len(),
                kept.display()
            );
        }
    }
    println!("{} lists shown and assembled, {records} records, {different} different", asked.lists);
    exit(i32::from(different > 0));
}
