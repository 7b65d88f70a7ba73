//! Runs a netrun, netsums, netpage or netwindow program, or one that prints the fields looked at, on
//! generated files or streams and stored examples and compares byte for byte.

use compare::cases::{generated, stored, stored_pages, Case};
use compare::expected::{expected, Printer};
use compare::long;
use compare::program::text_of;
use compare::report::{compare, Report};
use compare::streams::{generated_stream, stored_streams, windows};
use generate::{sweep, Class};
use std::ffi::OsString;
use std::path::PathBuf;
use std::process::ExitCode;
use std::{env, io};

const HELP: &str = "\
usage: compare [PROGRAM] [--from SEED] [--count N] [--class CLASS] [--sweep TURNS]
               [--examples DIR] [--jobs N] [--show N] [--sums | --pages | --looked]
       compare [PROGRAM] --windows [--from SEED] [--count N] [--examples DIR] [--jobs N] [--show N]
       compare PROGRAM --windows --long N [--from SEED]

Runs PROGRAM once for each file, with the file on standard input, and compares what it
prints with the second engine's text. Ends with status 1 where anything differs.

  --from SEED      the first seed (0)
  --count N        how many generated files (10000)
  --class CLASS    valid, damaged, sweep or mixed (the default)
  --sweep TURNS    also break each byte of each kind of record by itself, so many times
  --examples DIR   also hold the second engine, and PROGRAM if given, to DIR's NAME.net and NAME.out
  --jobs N         how many processes at a time (2)
  --show N         how many differences to print (5)
  --sums           PROGRAM runs all picks as one run: hold it to the sums of the counts and the tables
  --pages          PROGRAM prints the tables left as pages: hold it to the second engine's, and the
                   second engine to DIR's NAME.page
  --looked         PROGRAM prints how many fields of each row left each template looks at, under the
                   variables of each thread left: hold it to the second engine's
  --windows        PROGRAM is called with W and COLUMN and takes a stream of records: hold it to the
                   second engine's, and both to DIR's NAME.stream, NAME.args and NAME.out
  --long N         measure instead the time and the memory of PROGRAM and of second-netwindow, which
                   is built beside this program, on one stream of N records; their texts are compared
";

struct Options {
    program: Option<OsString>,
    from: u64,
    count: u64,
    class: String,
    sweep: u64,
    examples: Option<PathBuf>,
    jobs: usize,
    show: usize,
    printer: Printer,
    windows: bool,
    long: Option<u64>,
}

impl Default for Options {
    fn default() -> Options {
        Options {
            program: None,
            from: 0,
            count: 10_000,
            class: "mixed".into(),
            sweep: 0,
            examples: None,
            jobs: 2,
            show: 5,
            printer: Printer::Netrun,
            windows: false,
            long: None,
        }
    }
}

fn main() -> ExitCode {
    if env::args_os().skip(1).any(|argument| argument == "--help") {
        print!("{HELP}");
        return ExitCode::SUCCESS;
    }
    let Some(options) = options(env::args_os().skip(1)) else {
        eprint!("{HELP}");
        return ExitCode::from(2);
    };
    run(&options).unwrap_or_else(|error| {
        eprintln!("compare: {error}");
        ExitCode::from(2)
    })
}

fn run(options: &Options) -> io::Result<ExitCode> {
    if let (Some(count), Some(program)) = (options.long, &options.program) {
        let measured = long::measure([program, &long::second()?], count, options.from)?;
        print!("{measured}");
        return Ok(ExitCode::from(u8::from(measured.differing.is_some())));
    }
    let reports = if options.windows { stream_reports(options)? } else { reports(options)? };
    Ok(conclude(reports, options.show))
}

/// None where the arguments make no sense.
fn options(mut arguments: impl Iterator<Item = OsString>) -> Option<Options> {
    let mut options = Options::default();
    while let Some(argument) = arguments.next() {
        let mut number = || arguments.next()?.to_str()?.parse::<u64>().ok();
        match argument.to_str() {
            Some("--from") => options.from = number()?,
            Some("--count") => options.count = number()?,
            Some("--sweep") => options.sweep = number()?,
            Some("--jobs") => options.jobs = number()?.max(1) as usize,
            Some("--show") => options.show = number()? as usize,
            Some("--sums" | "--pages" | "--looked" | "--windows")
                if options.windows || options.printer != Printer::Netrun =>
            {
                return None
            }
            Some("--sums") => options.printer = Printer::Netsums,
            Some("--pages") => options.printer = Printer::Netpage,
            Some("--looked") => options.printer = Printer::Looked,
            Some("--windows") => options.windows = true,
            Some("--long") => options.long = Some(number()?),
            Some("--class") => options.class = arguments.next()?.into_string().ok()?,
            Some("--examples") => options.examples = Some(arguments.next()?.into()),
            Some(unknown) if unknown.starts_with("--") => return None,
            _ if options.program.is_some() => return None,
            _ => options.program = Some(argument),
        }
    }
    makes_sense(&options).then_some(options)
}

fn makes_sense(options: &Options) -> bool {
    let something = options.program.is_some() || options.examples.is_some();
    let long = options.windows && options.program.is_some();
    something && Class::named(&options.class).is_some() && (options.long.is_none() || long)
}

fn reports(options: &Options) -> io::Result<Vec<Report>> {
    let mut reports = Vec::new();
    if let Some(directory) = &options.examples {
        let examples = stored(directory)?;
        reports.push(compare_stored(&examples, options, |case| Ok(engine::netrun(&case.file))));
        if options.printer == Printer::Netpage {
            let pages = stored_pages(directory)?;
            reports.push(compare_stored(&pages, options, |case| Ok(engine::netpage(&case.file))));
        }
        if let Some(program) = &options.program {
            let examples: Vec<Case> =
                examples.into_iter().map(|example| expected(example, options.printer)).collect();
            reports.push(compare_stored(&examples, options, |case| text_of(program, case)));
        }
    }
    if let Some(program) = &options.program {
        let run = |class: &str, from: u64, count: u64| {
            let case = |place| {
                let case = generated(class, from + place).expect("a class that was looked up");
                expected(case, options.printer)
            };
            compare(count, options.jobs, case, |case| text_of(program, case))
        };
        reports.push(run("sweep", 0, options.sweep * sweep::round() as u64));
        reports.push(run(&options.class, options.from, options.count));
    }
    Ok(reports)
}

/// As `reports`, of streams.
fn stream_reports(options: &Options) -> io::Result<Vec<Report>> {
    let mut reports = Vec::new();
    if let Some(directory) = &options.examples {
        let examples = stored_streams(directory)?;
        let second = |case: &Case| {
            windows(&case.arguments, &case.file).ok_or("is called with other arguments".into())
        };
        reports.push(compare_stored(&examples, options, second));
        if let Some(program) = &options.program {
            reports.push(compare_stored(&examples, options, |case| text_of(program, case)));
        }
    }
    if let Some(program) = &options.program {
        let case = |place| generated_stream(options.from + place);
        reports.push(compare(options.count, options.jobs, case, |case| text_of(program, case)));
    }
    Ok(reports)
}

fn compare_stored(
    examples: &[Case],
    options: &Options,
    text: impl Fn(&Case) -> Result<Vec<u8>, String> + Sync,
) -> Report {
    let case = |place| examples[place as usize].clone();
    compare(examples.len() as u64, options.jobs, case, text)
}

fn conclude(mut reports: Vec<Report>, show: usize) -> ExitCode {
    for difference in reports.iter_mut().flat_map(|report| report.first(show)).take(show) {
        println!("{difference}");
    }
    let agreed: usize = reports.iter().map(|report| report.agreed).sum();
    let differed: usize = reports.iter().map(|report| report.differed()).sum();
    println!("{agreed} agreed, {differed} differed");
    if differed == 0 {
        ExitCode::SUCCESS
    } else {
        ExitCode::FAILURE
    }
}
