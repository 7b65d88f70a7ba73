//! nettrace: runs a net through the proved engine and tells each pick.

use embed::Pick;
use nettext::cli::{self, Failure, Input, Options, Program};
use nettext::{FILE_LIMIT, TEXT_LIMIT};
use nettrace::{parse_pick_list, parse_picks, trace, Proved, Source};
use std::io::Write;
use std::process::ExitCode;

const HELP: &str = "\
nettrace runs the picks of a Klaim-DB net through the proved engine and tells each one: the
thread and its step, done with its counts or refused with the reason, the rows that the step
judged, and what changed in tables, bindings and threads.

usage: nettrace [FILE] [--picks PICKS | --picks-from FILE] [--text] [-o FILE] [--help]

Reads a text from a FILE.nettext, else records, from FILE or from standard input, and writes
to standard output, each pick as soon as it is known.

  --picks PICKS      run these picks, and not the file's own: a thread place each, or a thread
                     place, a colon and a row place, parted by blanks, such as \"0:0 1:3\"
  --picks-from FILE  run the picks of FILE: as above, in any number of lines; a comment goes
                     from # to the end of its line
  --text             read a text, whatever the file is called
  -o FILE            write to FILE
  -h, --help         show this

A thread is told by its place, which picks name, and by a name that it keeps while places close
up: A, B and on for the threads that the net starts with, A.1, A.2 and on for the forks of A.
Before a row, - means that it went, + that it came, * that the step read it; behind it stands what
it was judged against. In what to do, L is the locality after the @, T the template, t the tuple
and T' what an aggregate's result must match.

Example: nettrace examples/tour/gamma.nettext --picks \"1:0 0:0\"

Exit status: 0 when the net was run, refused picks among the others; 1 when the text is at
fault or the engine refuses the file; 2 when an option is wrong or a file can't be read or
written. docs/TOUR.md has lessons.
";

fn main() -> ExitCode {
    cli::run(&Program {
        name: "nettrace",
        help: HELP,
        flags: &["--text"],
        settings: &["--picks"],
        files: &["--picks-from"],
        limit,
        work,
    })
}

fn work(input: &Input, out: &mut dyn Write) -> Result<(), Failure> {
    let picks = picks(input).map_err(Failure::Unusable)?;
    let source = source(input)?;
    cli::say(&source.warnings());
    trace(&Proved, &source, picks, out)
}

/// None where the file's own are to be run.
fn picks(input: &Input) -> Result<Option<Vec<Pick>>, String> {
    match (input.setting("--picks"), input.file("--picks-from")) {
        (Some(_), Some(_)) => Err("--picks and --picks-from: give one of them".to_owned()),
        (Some(picks), None) => match parse_picks(picks) {
            Ok(picks) => Ok(Some(picks)),
            Err(wrong) => Err(format!("--picks: {wrong}")),
        },
        (None, Some(list)) => parse_pick_list(&list.name, &list.bytes).map(Some),
        (None, None) => Ok(None),
    }
}

fn limit(options: &Options) -> usize {
    let name = options.input.as_ref().map(|path| path.display().to_string());
    match is_text(options.has("--text"), &name.unwrap_or_default()) {
        true => TEXT_LIMIT,
        false => FILE_LIMIT,
    }
}

fn is_text(said: bool, name: &str) -> bool {
    said || name.ends_with(".nettext")
}

fn source(input: &Input) -> Result<Source, String> {
    match is_text(input.has("--text"), &input.name) {
        true => Source::of_text(&input.name, &input.bytes),
        false => Ok(Source::of_records(&input.name, input.bytes.clone())),
    }
}
