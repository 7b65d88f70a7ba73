//! netdump: writes the text of a file of records.

use nettext::cli::{self, Failure, Input, Options, Program};
use nettext::{dump, dump_unchecked, no_record, refused_file, text_for_records, FILE_LIMIT};
use std::io::Write;
use std::process::ExitCode;

const HELP: &str = "\
netdump writes the records of a Klaim-DB net as text, which netasm assembles to the same bytes.

usage: netdump [FILE] [-o FILE] [--unchecked] [--help]

Reads the records from FILE, or from standard input, and writes the text to standard output.
Where loading refuses the file, it says the number, the record's place and what to do, and
writes nothing.

  -o FILE      write to FILE, which stays as it was if anything goes wrong
  --unchecked  write also what loading refuses: the record at fault has a comment above it with
               the number, the place and what to do. A record that does not read is a comment
               with its bytes; if there is none, netasm --unchecked gives the same bytes again
  -h, --help   show this

Examples: netdump examples/update.net
          netdump --unchecked examples/refused-file.net

Exit status: 0 when written, 1 when loading refuses the file or it is no file of records, 2 when
an option is wrong, a file can't be read or written, or would be written over itself. The grammar
is in docs/TEXT.md.
";

fn main() -> ExitCode {
    let (flags, settings) = (&["--unchecked"], &[]);
    let limit = |_: &Options| FILE_LIMIT;
    cli::run(&Program { name: "netdump", help: HELP, flags, settings, files: &[], limit, work })
}

fn work(input: &Input, out: &mut dyn Write) -> Result<(), Failure> {
    let Input { name, bytes, .. } = input;
    if bytes.is_empty() {
        cli::say(&no_record().shown(name, ""));
    }
    if input.has("--unchecked") {
        return Ok(dump_unchecked(bytes, out)?);
    }
    match dump(bytes) {
        Ok(text) => Ok(out.write_all(text.as_bytes())?),
        Err(fault) => Err(match text_for_records(bytes) {
            Some(error) => error.shown(name, ""),
            None => refused_file(name, fault.number, fault.place),
        }
        .into()),
    }
}
