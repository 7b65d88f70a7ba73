//! The whole time of netrun and second-netrun as programs: start, reading, loading, picks and printing.

use crate::nets::single;
use crate::show::{beside, table};
use crate::usage::of_children;
use std::env;
use std::io::Write;
use std::path::{Path, PathBuf};
use std::process::{Command, Stdio};
use std::time::Duration;

const ROUNDS: usize = 500;

const COLUMNS: [&str; 4] = ["input", "second", "proved", "ratio"];

pub fn section() -> String {
    let programs = [second(), proved()];
    if let Some(absent) = programs.iter().find(|program| !program.is_file()) {
        let name = absent.display();
        return format!("{name} is not built, so netrun as a program is not measured.");
    }
    let row = |name: &str, file: &[u8]| {
        let [second, proved] = times(&programs, file).map(|time| time.as_nanos() as f64 / 1e3);
        [vec![name.to_string()], beside(Some(second), Some(proved))].concat()
    };
    let rows = [row("no records", &[]), row("222 picks", &single::with_picks())];
    let rows = table(1, &COLUMNS, rows);
    format!("Microseconds of netrun as a program, the best of {ROUNDS} rounds.\n\n{rows}")
}

/// Cargo puts it beside this program.
fn second() -> PathBuf {
    env::current_exe().expect("the place of this program").with_file_name("second-netrun")
}

fn proved() -> PathBuf {
    let root = Path::new(env!("CARGO_MANIFEST_DIR")).ancestors().nth(2).expect("the root");
    root.join("target/bin/netrun")
}

/// Measured in turn; both must print the same.
fn times(programs: &[PathBuf; 2], file: &[u8]) -> [Duration; 2] {
    let mut best = [Duration::MAX; 2];
    for _ in 0..ROUNDS {
        let [second, proved] = programs.each_ref().map(|program| run(program, file));
        assert!(second.0 == proved.0, "the programs print different texts");
        best = [best[0].min(second.1), best[1].min(proved.1)];
    }
    best
}

/// What a program prints, and its time.
fn run(program: &Path, file: &[u8]) -> (Vec<u8>, Duration) {
    let before = of_children();
    let mut command = Command::new(program);
    let mut child =
        command.stdin(Stdio::piped()).stdout(Stdio::piped()).spawn().expect("it starts");
    // A pipe has room for a whole file.
    let mut input = child.stdin.take().expect("a pipe");
    input.write_all(file).expect("a program that reads");
    drop(input);
    let output = child.wait_with_output().expect("it ends");
    assert!(output.status.success(), "{} fails", program.display());
    (output.stdout, of_children() - before)
}
