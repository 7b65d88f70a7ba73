//! What the programs have in common: options, input, output and exit status.

mod input;
mod options;
mod output;

use crate::FILE_LIMIT;
use input::Opened;
pub use input::{Content, Input};
pub use options::Options;
use output::Destination;
use std::io::{self, Write};
use std::path::Path;
use std::process::ExitCode;

/// Whatever is wrong with the input.
const AT_FAULT: u8 = 1;
/// Wrong usage, or a file that can't be read or written.
const UNUSABLE: u8 = 2;

/// Why an input is too long.
const NO_NET: &str = "and no net needs so much: it has at most 256 records";
const TOO_MUCH: &str = "which is more than is read of it";

pub struct Program {
    pub name: &'static str,
    pub help: &'static str,
    /// The options beside `-h`, `--help` and `-o`.
    pub flags: &'static [&'static str],
    /// The options that a value follows.
    pub settings: &'static [&'static str],
    /// The options that the name of a further file to read follows.
    pub files: &'static [&'static str],
    /// So many bytes of the input are read at most; one that has more is at fault.
    pub limit: fn(&Options) -> usize,
    /// Writes the result for an input, or says what to report. A file after `-o` keeps what it
    /// had where this fails.
    pub work: fn(&Input, &mut dyn Write) -> Result<(), Failure>,
}

/// What to report instead of a result.
pub enum Failure {
    /// Of the input: the whole report.
    AtFault(String),
    /// Of the usage, or of the program itself; its name goes before.
    Unusable(String),
    /// The output can't be written.
    Unwritten(io::Error),
}

impl From<String> for Failure {
    fn from(report: String) -> Failure {
        Failure::AtFault(report)
    }
}

impl From<io::Error> for Failure {
    fn from(error: io::Error) -> Failure {
        Failure::Unwritten(error)
    }
}

pub fn run(program: &Program) -> ExitCode {
    let name = program.name;
    let options = match Options::given(program) {
        Ok(options) => options,
        Err(wrong) => return fail(UNUSABLE, &format!("{name}: {wrong}\n{}\n", usage(program))),
    };
    let output = output::name(options.output.as_deref());
    match carried_out(program, options) {
        Ok(()) => ExitCode::SUCCESS,
        Err(Failure::AtFault(report)) => fail(AT_FAULT, &report),
        Err(Failure::Unusable(wrong)) => fail(UNUSABLE, &format!("{name}: {wrong}\n")),
        // Who reads the output has what it wants, as in `netdump FILE | head -n 1`.
        Err(Failure::Unwritten(error)) if error.kind() == io::ErrorKind::BrokenPipe => {
            ExitCode::SUCCESS
        }
        Err(Failure::Unwritten(error)) => fail(UNUSABLE, &format!("{name}: {output}: {error}\n")),
    }
}

fn fail(status: u8, report: &str) -> ExitCode {
    say(report);
    ExitCode::from(status)
}

/// To standard error; where even that can't be written, nobody is left to tell.
pub fn say(report: &str) {
    let _ = io::stderr().lock().write_all(report.as_bytes());
}

/// The line of the help that begins with "usage".
fn usage(program: &Program) -> &'static str {
    program.help.lines().find(|line| line.starts_with("usage")).unwrap_or_default()
}

fn carried_out(program: &Program, options: Options) -> Result<(), Failure> {
    if options.help {
        let help = program.help.as_bytes();
        return written(Destination::new(None)?, |out| Ok(out.write_all(help)?));
    }
    let destination = Destination::new(options.output.as_deref())?;
    let limit = (program.limit)(&options);
    let net = read(&destination, options.input.as_deref(), limit, NO_NET)?;
    let mut files = Vec::new();
    for (option, path) in &options.files {
        files.push((option.clone(), read(&destination, Some(path), FILE_LIMIT, TOO_MUCH)?));
    }
    let input = Input::new(net, options, files);
    written(destination, |out| (program.work)(&input, out))
}

/// A file, or standard input; never the file that is written.
fn read(
    destination: &Destination,
    path: Option<&Path>,
    limit: usize,
    reason: &str,
) -> Result<Content, Failure> {
    let opened = Opened::new(path)?;
    destination.refuses(&opened)?;
    opened.read(limit, reason)
}

/// Lets the work write, and keeps what it wrote if that is all there is to write.
fn written(
    destination: Destination,
    work: impl FnOnce(&mut dyn Write) -> Result<(), Failure>,
) -> Result<(), Failure> {
    let mut output = destination.open()?;
    work(output.writer())?;
    Ok(output.finish()?)
}
