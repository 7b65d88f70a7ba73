//! second-netwindow: reads a stream of records on standard input and prints the sum, the least and
//! the largest of a column over the last rows, as the proved netwindow does.

use engine::{decimal, netwindow};
use std::ffi::OsString;
use std::io::{self, BufReader, BufWriter, Write};
use std::process::ExitCode;

const USAGE: &str = "usage: second-netwindow W COLUMN < STREAM";

const HELP: &str = "
Reads a stream of row records on standard input, of any length, and prints for each
record the sum, the least and the largest Int of COLUMN (0 to 3) over the last W rows
(1 to 16), or over all while fewer have come. This is the second engine; the proved one
is netwindow.
";

/// The bytes read or written at a time.
const PIECE: usize = 1 << 16;

fn main() -> ExitCode {
    let arguments: Vec<OsString> = std::env::args_os().skip(1).collect();
    if arguments.first().is_some_and(|first| first == "--help") {
        print!("{USAGE}\n{HELP}");
        return ExitCode::SUCCESS;
    }
    let (width, column) = match numbers(&arguments) {
        Ok(numbers) => numbers,
        Err(why) => {
            eprintln!("{USAGE} ({why})");
            return ExitCode::from(2);
        }
    };
    match run(width, column) {
        Ok(()) => ExitCode::SUCCESS,
        Err(error) => {
            eprintln!("second-netwindow: {error}");
            ExitCode::FAILURE
        }
    }
}

/// W and COLUMN, or what is wrong with the arguments.
fn numbers(arguments: &[OsString]) -> Result<(u64, u64), &'static str> {
    let [width, column] = arguments else {
        return Err("it takes two arguments");
    };
    let width = decimal(width.as_encoded_bytes()).ok_or("W is no number in decimal")?;
    let column = decimal(column.as_encoded_bytes()).ok_or("COLUMN is no number in decimal")?;
    Ok((width, column))
}

/// What was printed before an error in the stream is printed all the same.
fn run(width: u64, column: u64) -> io::Result<()> {
    let mut stream = BufReader::with_capacity(PIECE, io::stdin().lock());
    let mut out = BufWriter::with_capacity(PIECE, io::stdout().lock());
    let done = netwindow(width, column, &mut stream, &mut out);
    let flushed = out.flush();
    done.and(flushed)
}
