//! A program to compare with, given as a command: it reads a file on standard input and prints.

use std::io::{self, Write};
use std::process::{Command, Stdio};

/// What the command prints for a file.
pub fn printed(command: &[String], file: &[u8]) -> io::Result<String> {
    let mut child = Command::new(&command[0])
        .args(&command[1..])
        .stdin(Stdio::piped())
        .stdout(Stdio::piped())
        // why a file is refused is not compared
        .stderr(Stdio::null())
        .spawn()?;
    if let Some(mut stdin) = child.stdin.take() {
        // a program may refuse before it has read everything
        let _ = stdin.write_all(file);
    }
    let output = child.wait_with_output()?;
    Ok(String::from_utf8_lossy(&output.stdout).into_owned())
}
