//! second-looked: reads a file of records on standard input, runs its picks and prints how many
//! fields of each row its templates look at.

use engine::program::Program;
use std::process::ExitCode;

const HELP: &str = "\
usage: second-looked < FILE

Reads the records of a net on standard input, runs its picks in order, and prints
a line for each thread left, each node with a template and each table left, by their
places: for each row of the table the number of fields looked at, with + where the
row matches and - where it does not. This is the second engine.
";

fn main() -> ExitCode {
    Program { name: "second-looked", help: HELP, text: engine::looked }.main()
}
