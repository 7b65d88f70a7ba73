//! second-netrun: reads a file of records on standard input and prints what its picks come to, as
//! the proved netrun does.

use engine::program::Program;
use std::process::ExitCode;

const HELP: &str = "\
usage: second-netrun < FILE

Reads the records of a net on standard input, runs its picks in order, and prints
an answer for each pick and then each table with its rows. This is the second engine;
the proved one is netrun.
";

fn main() -> ExitCode {
    Program { name: "second-netrun", help: HELP, text: engine::netrun }.main()
}
