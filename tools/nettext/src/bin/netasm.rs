//! netasm: assembles the text of a net to records.

use nettext::cli::{self, Failure, Input, Options, Program};
use nettext::{assemble, assemble_checked, read_text, TEXT_LIMIT};
use std::io::Write;
use std::process::ExitCode;

const HELP: &str = "\
netasm assembles the text of a Klaim-DB net to the records that netrun reads.

usage: netasm [FILE] [-o FILE] [--unchecked] [--help]

Reads the text from FILE, or from standard input, and writes the records, 104 bytes each, to
standard output. Where the text breaks the grammar, or loading would refuse the net, it names
each line at fault, with what is wrong and what to do, and writes nothing. A warning is of
something that loads and is hardly meant; the records are written all the same.

  -o FILE      write to FILE, which stays as it was if anything goes wrong
  --unchecked  write the records even if loading would refuse them
  -h, --help   show this

Example: netasm examples/update.nettext | netrun

Exit status: 0 when written, 1 when the text or its net is at fault, 2 when an option is wrong,
a file can't be read or written, or would be written over itself. A text has at most 1048576
bytes. The grammar is in docs/TEXT.md.
";

fn main() -> ExitCode {
    let (flags, settings) = (&["--unchecked"], &[]);
    let limit = |_: &Options| TEXT_LIMIT;
    cli::run(&Program { name: "netasm", help: HELP, flags, settings, files: &[], limit, work })
}

fn work(input: &Input, out: &mut dyn Write) -> Result<(), Failure> {
    let name = &input.name;
    let text = read_text(&input.bytes)
        .map_err(|errors| errors.shown(name, &String::from_utf8_lossy(&input.bytes)))?;
    let assembled = match input.has("--unchecked") {
        true => assemble(text),
        false => assemble_checked(text),
    };
    let assembled = assembled.map_err(|errors| errors.shown(name, text))?;
    cli::say(&assembled.warnings().shown(name, text));
    Ok(out.write_all(&assembled.file)?)
}
