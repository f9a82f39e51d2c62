//! Document 01 in plain Rust, to compare the verified library with.
//!
//! `plain` is written for speed, `naive` straight from the rules; they share no code, and the tests hold one against the
//! other. `designs` writes files to judge, `cases` gives some of them a name and an answer, `printed` says what the programs
//! print for a file, `printouts` has the files on which that is stored, and `command` runs a program on a file. `simulator`
//! shows in Icarus Verilog what hardware made of their rows does.

pub mod cases;
pub mod command;
pub mod designs;
pub mod naive;
pub mod plain;
pub mod printed;
pub mod printouts;
pub mod simulator;
