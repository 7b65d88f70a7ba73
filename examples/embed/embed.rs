//! Runs a net through the proved engine from Rust and prints what netrun would: the answer to each pick,
//! then the tables.
//!
//!     cargo run --offline -p embed-example --features proved -- examples/update.net
//!     cargo run --offline -p embed-example --features proved -- examples/update.net 0:0 1:3

use embed::{answers, picks, tables, Answer, Pick, Refused, RECORD_BYTES};
use std::process::ExitCode;
use std::{env, fs};

const USAGE: &str = "usage: embed-example FILE.net [THREAD:ROW ..]";

fn main() -> ExitCode {
    let arguments: Vec<String> = env::args().skip(1).collect();
    let Some((path, words)) = arguments.split_first() else {
        return unusable(USAGE);
    };
    let Some(given) = words.iter().map(|word| pick(word)).collect::<Option<Vec<Pick>>>() else {
        return unusable(USAGE);
    };
    let file = match fs::read(path) {
        Ok(file) => file,
        Err(error) => return unusable(&format!("{path}: {error}")),
    };
    match run(&file, given) {
        Ok(()) => ExitCode::SUCCESS,
        Err(Refused { number, place }) => {
            println!("load {number} at {place}");
            ExitCode::FAILURE
        }
    }
}

fn unusable(message: &str) -> ExitCode {
    eprintln!("{message}");
    ExitCode::from(2)
}

fn pick(word: &str) -> Option<Pick> {
    let (thread, row) = word.split_once(':')?;
    Some(Pick { thread: thread.parse().ok()?, row: row.parse().ok()? })
}

/// Each call loads the file and runs the picks that it is given, so the file's own are asked for and
/// handed over.
fn run(file: &[u8], given: Vec<Pick>) -> Result<(), Refused> {
    let picks = if given.is_empty() { picks(file)? } else { given };
    for (place, answer) in answers(file, &picks)?.iter().enumerate() {
        match answer {
            Answer::Done { added, taken } => println!("pick {place} done {added} {taken}"),
            Answer::Refused(number) => println!("pick {place} no {number}"),
        }
    }
    print_tables(&tables(file, &picks)?);
    Ok(())
}

/// All tables come first, then the rows of each. Byte 0 is the kind, 2 a table and 3 a row; bytes 1 and
/// 4 to 7 are site and name.
fn print_tables(records: &[u8]) {
    let of_kind =
        |kind: u8| records.chunks_exact(RECORD_BYTES).filter(move |record| record[0] == kind);
    for table in of_kind(2) {
        let own = |row: &&[u8]| row[1] == table[1] && row[4..8] == table[4..8];
        let rows: Vec<&[u8]> = of_kind(3).filter(own).collect();
        println!("table {} {} {}", table[1], String::from_utf8_lossy(&table[4..8]), rows.len());
        rows.iter().for_each(|row| println!("row{}", values(row)));
    }
}

/// Four operands of 8 bytes: a tag, three bytes that are zero in rows, and the value.
fn values(row: &[u8]) -> String {
    let operands = row[56..88].chunks_exact(8);
    let values = operands.map(|operand| match *operand {
        [1, _, _, _, a, b, c, d] => format!(" {}", i32::from_le_bytes([a, b, c, d])),
        [2, ..] => format!(" {}", String::from_utf8_lossy(&operand[4..])),
        [3, _, _, _, locality, ..] => format!(" @{locality}"),
        _ => String::new(),
    });
    values.collect()
}
