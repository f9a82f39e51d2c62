//! The cases: both implementations give the stated answers, and the folder of the verified program `cases` holds these
//! files and no others.

use dansevik::cases::{all, line, naive_line};
use std::collections::BTreeSet;
use std::fs;
use std::path::{Path, PathBuf};

fn folder() -> PathBuf {
    Path::new(env!("CARGO_MANIFEST_DIR")).join("../crates/cases/data")
}

#[test]
fn both_implementations_give_the_stated_answers() {
    for case in all() {
        assert_eq!(line(&case.file), case.answer, "{}", case.name);
        assert_eq!(naive_line(&case.file), case.answer, "{}", case.name);
    }
}

#[test]
fn the_folder_holds_the_cases() {
    let mut table = String::new();
    let mut names = BTreeSet::from(["TABLE".to_string()]);
    for case in all() {
        assert!(fs::read(folder().join(&case.name)).unwrap() == case.file, "{} is old: run make_cases", case.name);
        table += &format!("{}\t{}\n", case.name, case.answer);
        names.insert(case.name);
    }
    assert_eq!(fs::read_to_string(folder().join("TABLE")).unwrap(), table);
    let found = fs::read_dir(folder()).unwrap().map(|entry| entry.unwrap().file_name().into_string().unwrap());
    assert_eq!(found.collect::<BTreeSet<String>>(), names);
}
