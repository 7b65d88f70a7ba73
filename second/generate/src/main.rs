//! Writes generated files and streams, or says how often each number, each kind done, each sort of
//! round end, of page and of look at a row occurs in the files, and each sort of record in the streams.

use generate::examples::{self, Example};
use generate::stats::Stats;
use generate::stream::{self, stream};
use generate::{file, Class};
use std::io::{self, Write};
use std::process::ExitCode;
use std::{env, fs, path::Path};

const HELP: &str = "\
usage: generate [--class CLASS] --seed SEED
       generate [--class CLASS] [--from SEED] [--count N] --stats
       generate --examples DIR
       generate --shown DIR
       generate --stream --seed SEED [--arguments]
       generate --stream [--from SEED] [--count N] --stats
       generate --streams DIR

  --seed SEED      write the file of a seed on standard output
  --stats          count the numbers, the kinds done, the sorts of round ends, of pages and of looks
                   at rows in the files of a row of seeds, and hold the engine to demand 3 on each
                   accepted one
  --examples DIR   write the examples computed by hand as NAME.net and NAME.out, and NAME.page
                   where the text of netpage was computed too
  --shown DIR      write the few of them that the repository shows
  --stream         instead of files, streams of records for netwindow; they have no classes
  --arguments      write the W and COLUMN that netwindow is to be called with, not the stream
  --streams DIR    write the streams computed by hand as NAME.stream, NAME.args and NAME.out
  --class CLASS    valid, damaged, sweep or mixed (the default)
  --from SEED      the first seed (0)
  --count N        how many seeds (10000)
";

struct Options {
    class: Class,
    seed: Option<u64>,
    from: u64,
    count: u64,
    stats: bool,
    examples: Option<String>,
    shown: Option<String>,
    stream: bool,
    arguments: bool,
    streams: Option<String>,
}

fn main() -> ExitCode {
    if env::args().skip(1).any(|argument| argument == "--help") {
        print!("{HELP}");
        return ExitCode::SUCCESS;
    }
    let Some(options) = options(env::args().skip(1)) else {
        eprint!("{HELP}");
        return ExitCode::from(2);
    };
    match run(&options) {
        Ok(true) => ExitCode::SUCCESS,
        Ok(false) => ExitCode::FAILURE,
        Err(error) => {
            eprintln!("generate: {error}");
            ExitCode::from(2)
        }
    }
}

/// None where the arguments make no sense.
fn options(mut arguments: impl Iterator<Item = String>) -> Option<Options> {
    let mut options = Options {
        class: Class::Mixed,
        seed: None,
        from: 0,
        count: 10_000,
        stats: false,
        examples: None,
        shown: None,
        stream: false,
        arguments: false,
        streams: None,
    };
    while let Some(argument) = arguments.next() {
        match argument.as_str() {
            "--class" => options.class = Class::named(&arguments.next()?)?,
            "--seed" => options.seed = Some(arguments.next()?.parse().ok()?),
            "--from" => options.from = arguments.next()?.parse().ok()?,
            "--count" => options.count = arguments.next()?.parse().ok()?,
            "--examples" => options.examples = Some(arguments.next()?),
            "--shown" => options.shown = Some(arguments.next()?),
            "--stats" => options.stats = true,
            "--stream" => options.stream = true,
            "--arguments" => options.arguments = true,
            "--streams" => options.streams = Some(arguments.next()?),
            _ => return None,
        }
    }
    let directories = [&options.examples, &options.shown, &options.streams];
    let writes = directories.iter().any(|directory| directory.is_some());
    (options.stats || options.seed.is_some() || writes).then_some(options)
}

/// Whether all was well.
fn run(options: &Options) -> io::Result<bool> {
    if let Some(seed) = options.seed {
        io::stdout().lock().write_all(&written(options, seed))?;
    }
    if let Some(directory) = &options.examples {
        write_examples(&examples::all(), Path::new(directory))?;
    }
    if let Some(directory) = &options.shown {
        write_examples(&examples::shown(), Path::new(directory))?;
    }
    if let Some(directory) = &options.streams {
        write_streams(&stream::examples::all(), Path::new(directory))?;
    }
    if options.stats {
        return Ok(print_stats(options));
    }
    Ok(true)
}

/// What is to be written of a seed.
fn written(options: &Options, seed: u64) -> Vec<u8> {
    if !options.stream {
        return file(options.class, seed);
    }
    let stream = stream(seed);
    match options.arguments {
        true => format!("{} {}\n", stream.width, stream.column).into_bytes(),
        false => stream.bytes,
    }
}

/// Whether demand 3 held; a stream is under no demand.
fn print_stats(options: &Options) -> bool {
    let seeds = options.from..options.from + options.count;
    if options.stream {
        print!("{}", stream::stats::Stats::of(seeds));
        return true;
    }
    let stats = Stats::of(options.class, seeds);
    print!("{stats}");
    stats.balanced()
}

fn write_examples(examples: &[Example], directory: &Path) -> io::Result<()> {
    for example in examples {
        let path = directory.join(example.name);
        fs::write(path.with_extension("net"), &example.file)?;
        fs::write(path.with_extension("out"), &example.text)?;
        if let Some(page) = &example.page {
            fs::write(path.with_extension("page"), page)?;
        }
    }
    Ok(())
}

fn write_streams(examples: &[stream::examples::Example], directory: &Path) -> io::Result<()> {
    for example in examples {
        let path = directory.join(example.name);
        fs::write(path.with_extension("stream"), &example.stream)?;
        fs::write(path.with_extension("args"), format!("{} {}\n", example.width, example.column))?;
        fs::write(path.with_extension("out"), &example.text)?;
    }
    Ok(())
}
