//! What stands after a program's name.

use super::Program;
use std::env;
use std::ffi::OsString;
use std::path::PathBuf;

#[derive(Default)]
pub struct Options {
    pub help: bool,
    pub input: Option<PathBuf>,
    pub output: Option<PathBuf>,
    pub flags: Vec<String>,
    pub settings: Vec<(String, String)>,
    pub files: Vec<(String, PathBuf)>,
}

impl Options {
    pub fn given(program: &Program) -> Result<Options, String> {
        let mut options = Options::default();
        let mut arguments = env::args_os().skip(1);
        while let Some(argument) = arguments.next() {
            match argument.to_str() {
                Some("-h" | "--help") => options.help = true,
                Some(option) if option.starts_with('-') => {
                    options.option(program, option, &mut arguments)?
                }
                _ => options.input(argument)?,
            }
        }
        Ok(options)
    }

    pub fn has(&self, flag: &str) -> bool {
        self.flags.iter().any(|given| given == flag)
    }

    /// An option with what follows it. None is given twice: which one counts would be a guess.
    fn option(
        &mut self,
        program: &Program,
        option: &str,
        rest: &mut impl Iterator<Item = OsString>,
    ) -> Result<(), String> {
        let name = option.to_owned();
        let twice = if option == "-o" {
            self.output.replace(file(option, rest.next())?).is_some()
        } else if program.flags.contains(&option) {
            let twice = self.has(option);
            self.flags.push(name);
            twice
        } else if program.settings.contains(&option) {
            add(&mut self.settings, name, value(option, rest.next())?)
        } else if program.files.contains(&option) {
            add(&mut self.files, name, file(option, rest.next())?)
        } else {
            return Err(format!("unknown option {option}"));
        };
        match twice {
            true => Err(format!("{option} is given twice")),
            false => Ok(()),
        }
    }

    /// The name of a file may be any bytes.
    fn input(&mut self, argument: OsString) -> Result<(), String> {
        if self.input.is_some() {
            return Err(format!("a second file {}", argument.display()));
        }
        if argument.is_empty() {
            return Err("a file name is missing: \"\" is none".to_owned());
        }
        self.input = Some(argument.into());
        Ok(())
    }
}

/// Says whether the option was there already.
fn add<T>(given: &mut Vec<(String, T)>, option: String, value: T) -> bool {
    let twice = given.iter().any(|(other, _)| *other == option);
    given.push((option, value));
    twice
}

fn file(option: &str, argument: Option<OsString>) -> Result<PathBuf, String> {
    let name = argument.ok_or_else(|| format!("{option} needs a file"))?;
    if name.is_empty() {
        return Err(format!("a file name is missing after {option}: \"\" is none"));
    }
    Ok(name.into())
}

fn value(option: &str, argument: Option<OsString>) -> Result<String, String> {
    let value = argument.ok_or_else(|| format!("{option} needs a value"))?;
    value.into_string().map_err(|_| format!("the value of {option} is no text"))
}
