//! A stream longer than any table: the time and the memory that a netwindow program and the second
//! engine's take for it.

use crate::memory::peak;
use generate::stream::endless;
use std::ffi::{OsStr, OsString};
use std::fs::{self, File};
use std::io::{self, BufRead, BufReader, BufWriter, Error, Write};
use std::path::{Path, PathBuf};
use std::process::{Command, Stdio};
use std::time::{Duration, Instant};
use std::{env, fmt, process};

const COLUMN: usize = 1;
const ARGUMENTS: [&str; 2] = ["16", "1"];

const TURNS: usize = 3;

/// A stream short enough to show what memory a program takes in any case.
const SHORT: u64 = 1_000;

pub struct Measured {
    count: u64,
    /// The first line in which the texts differ.
    pub differing: Option<u64>,
    programs: [Program; 2],
}

struct Program {
    path: OsString,
    best: Duration,
    /// For the long stream and for a short one.
    peaks: [Option<u64>; 2],
}

/// The second engine's program, which cargo builds beside this one.
pub fn second() -> io::Result<OsString> {
    let path =
        env::current_exe()?.with_file_name(format!("second-netwindow{}", env::consts::EXE_SUFFIX));
    match path.exists() {
        true => Ok(path.into()),
        false => Err(Error::other(format!("{} is not built", path.display()))),
    }
}

/// Runs both programs in turn on a stream of so many records, by standard input and output.
pub fn measure(programs: [&OsStr; 2], count: u64, seed: u64) -> io::Result<Measured> {
    let scratch = Scratch::new()?;
    let (long, short) = (scratch.file("long"), scratch.file("short"));
    write_stream(&long, count, seed)?;
    write_stream(&short, SHORT, seed)?;
    let outs = [scratch.file("first"), scratch.file("second")];
    let (mut best, mut differing) = ([Duration::MAX; 2], None);
    for _ in 0..TURNS {
        for ((program, out), best) in programs.iter().zip(&outs).zip(&mut best) {
            *best = timed(program, &long, out)?.min(*best);
        }
        differing = differing.or(first_difference(&outs[0], &outs[1])?);
    }
    let measured = |program: &OsStr, best| {
        let peak = |stream: &Path| {
            let mut command = Command::new(program);
            peak(command.args(ARGUMENTS).stdout(Stdio::null()), File::open(stream)?)
        };
        Ok::<_, Error>(Program { path: program.into(), best, peaks: [peak(&long)?, peak(&short)?] })
    };
    let programs = [measured(programs[0], best[0])?, measured(programs[1], best[1])?];
    Ok(Measured { count, differing, programs })
}

fn write_stream(path: &Path, count: u64, seed: u64) -> io::Result<()> {
    let mut out = BufWriter::new(File::create(path)?);
    for (record, _) in endless(seed, COLUMN).zip(0..count) {
        out.write_all(&record)?;
    }
    out.flush()
}

/// The time from a program's start to its end.
fn timed(program: &OsStr, stream: &Path, out: &Path) -> io::Result<Duration> {
    let (stream, out) = (File::open(stream)?, File::create(out)?);
    let start = Instant::now();
    let status = Command::new(program).args(ARGUMENTS).stdin(stream).stdout(out).status()?;
    let time = start.elapsed();
    match status.success() {
        true => Ok(time),
        false => Err(Error::other(format!("{} ended with {status}", program.display()))),
    }
}

/// The number from 1 of the first line that differs, if any does.
fn first_difference(first: &Path, second: &Path) -> io::Result<Option<u64>> {
    let mut first = BufReader::new(File::open(first)?);
    let mut second = BufReader::new(File::open(second)?);
    let mut line = 1;
    loop {
        let (left, right) = (first.fill_buf()?, second.fill_buf()?);
        if left.is_empty() && right.is_empty() {
            return Ok(None);
        }
        let same = left.iter().zip(right).take_while(|(left, right)| left == right).count();
        line += left[..same].iter().filter(|byte| **byte == b'\n').count() as u64;
        if same < left.len().min(right.len()).max(1) {
            return Ok(Some(line));
        }
        first.consume(same);
        second.consume(same);
    }
}

impl fmt::Display for Measured {
    fn fmt(&self, f: &mut fmt::Formatter<'_>) -> fmt::Result {
        let [width, column] = ARGUMENTS;
        write!(f, "{} records, W {width}, COLUMN {column}: ", self.count)?;
        match self.differing {
            None => writeln!(f, "the same text")?,
            Some(line) => writeln!(f, "the texts differ in line {line}")?,
        }
        for Program { path, best, peaks: [long, short] } in &self.programs {
            let seconds = best.as_secs_f64();
            let (long, short) = (kilobytes(*long), kilobytes(*short));
            writeln!(f, "{}: {seconds:.3} s, {long}, of {SHORT} records {short}", path.display())?;
        }
        let [first, second] = [0, 1].map(|place: usize| self.programs[place].best.as_secs_f64());
        writeln!(f, "ratio of the times: {:.2}", first / second)?;
        writeln!(f, "The time is the best of {TURNS} from start to end, file to file. The memory is the most that")?;
        writeln!(
            f,
            "was resident (VmHWM) in another run, when the whole stream had been read from a pipe."
        )
    }
}

fn kilobytes(peak: Option<u64>) -> String {
    peak.map_or("memory unknown".into(), |peak| format!("{peak} kB"))
}

/// A directory for the streams and texts, which goes with the measurement.
struct Scratch(PathBuf);

impl Scratch {
    fn new() -> io::Result<Scratch> {
        let path = env::temp_dir().join(format!("compare-long-{}", process::id()));
        fs::create_dir(&path)?;
        Ok(Scratch(path))
    }

    fn file(&self, name: &str) -> PathBuf {
        self.0.join(name)
    }
}

impl Drop for Scratch {
    fn drop(&mut self) {
        // What cannot be removed is left for the system to clear.
        let _ = fs::remove_dir_all(&self.0);
    }
}
