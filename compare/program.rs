//! Runs a program on an input.

use std::io::Write;
use std::process::{Command, ExitStatus, Stdio};

/// Ends the run; a program's name is that of its crate.
fn no_program(program: &str, error: std::io::Error) -> ! {
    let name = program.rsplit('/').next().unwrap_or(program);
    eprintln!("compare: {program} does not run ({error}); tests/build {name} makes it");
    std::process::exit(2)
}

/// Runs the program on these bytes. Answers with its output and how it ended.
pub fn printed(program: &str, bytes: &[u8]) -> (Vec<u8>, ExitStatus) {
    let run = Command::new(program).stdin(Stdio::piped()).stdout(Stdio::piped()).spawn();
    let mut child = run.unwrap_or_else(|error| no_program(program, error));
    let mut input = child.stdin.take().unwrap();
    let bytes = bytes.to_vec();
    // A program that stops reading shows in what it prints.
    let writing = std::thread::spawn(move || input.write_all(&bytes).is_ok());
    let output = child.wait_with_output().unwrap_or_else(|error| no_program(program, error));
    let _ = writing.join();
    (output.stdout, output.status)
}
