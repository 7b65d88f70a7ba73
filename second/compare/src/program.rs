//! A program to be held to the second engine: one process for each file.

use crate::cases::Case;
use std::ffi::OsStr;
use std::io::{self, Write};
use std::process::{Command, Stdio};
use std::thread;

/// The text that a program prints for a case's file on its standard input; an error where it fails.
pub fn text_of(program: &OsStr, case: &Case) -> Result<Vec<u8>, String> {
    let output = run(program, case).map_err(|error| format!("cannot be run: {error}"))?;
    if output.status.success() {
        return Ok(output.stdout);
    }
    Err(format!("ended with {}", output.status))
}

fn run(program: &OsStr, case: &Case) -> io::Result<std::process::Output> {
    let mut child = Command::new(program)
        .args(&case.arguments)
        .stdin(Stdio::piped())
        .stdout(Stdio::piped())
        .spawn()?;
    let stdin = child.stdin.take();
    thread::scope(|scope| {
        // Written aside, so that a program that prints early is not waited for. One that ends
        // without reading all is judged by what it printed.
        scope.spawn(move || stdin.map(|mut stdin| stdin.write_all(&case.file)));
        child.wait_with_output()
    })
}
