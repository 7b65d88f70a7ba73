//! second-netpage: reads a file of records on standard input, runs its picks and prints the tables
//! left as pages, as the proved netpage does.

use engine::program::Program;
use std::process::ExitCode;

const HELP: &str = "\
usage: second-netpage < FILE

Reads the records of a net on standard input, runs its picks in order, and prints
each table left as a page: a line for each row, and the sums of the Int columns. This
is the second engine; the proved one is netpage.
";

fn main() -> ExitCode {
    Program { name: "second-netpage", help: HELP, text: engine::netpage }.main()
}
