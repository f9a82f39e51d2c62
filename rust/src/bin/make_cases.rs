//! Writes the files that the verified programs of the gate read: every case into the folder of `cases`, with TABLE, a line
//! for each in their order: the name, a tab, the line that is to be printed; and every printout into that of `printouts`,
//! with TEXT, what is to be printed.

use dansevik::cases::{all, line, naive_line};
use dansevik::printouts;
use std::path::Path;
use std::{collections::BTreeSet, env, fs, io};

/// Most bytes that a folder may hold.
const MOST: usize = 3_000_000;

fn write_cases(folder: &Path) -> io::Result<()> {
    let cases = all();
    let names: BTreeSet<&str> = cases.iter().map(|case| case.name.as_str()).collect();
    assert_eq!(names.len(), cases.len(), "no name stands twice");
    assert!(cases.iter().map(|case| case.file.len()).sum::<usize>() < MOST);
    fs::create_dir_all(folder)?;
    let mut table = String::new();
    for case in &cases {
        assert_eq!(line(&case.file), case.answer, "{}", case.name);
        assert_eq!(naive_line(&case.file), case.answer, "{}", case.name);
        fs::write(folder.join(&case.name), &case.file)?;
        table += &format!("{}\t{}\n", case.name, case.answer);
    }
    fs::write(folder.join("TABLE"), table)?;
    println!("{} cases", cases.len());
    Ok(())
}

fn write_printouts(folder: &Path) -> io::Result<()> {
    let printouts = printouts::all();
    fs::create_dir_all(folder)?;
    let mut text = String::new();
    for printout in &printouts {
        fs::write(folder.join(printout.name), &printout.file)?;
        text += &printout.text();
    }
    fs::write(folder.join("TEXT"), text)?;
    println!("{} printouts", printouts.len());
    Ok(())
}

fn main() -> io::Result<()> {
    let here = Path::new(env!("CARGO_MANIFEST_DIR")).join("../crates");
    let folder = env::args_os().nth(1).map_or(here, Into::into);
    write_cases(&folder.join("cases/data"))?;
    write_printouts(&folder.join("printouts/data"))
}
