//! What the programs share: a file of records on standard input, a text on standard output.

use std::io::{self, Read, Write};
use std::process::ExitCode;

pub struct Program {
    pub name: &'static str,
    /// How to call it.
    pub help: &'static str,
    /// What it prints for a file.
    pub text: fn(&[u8]) -> Vec<u8>,
}

impl Program {
    pub fn main(&self) -> ExitCode {
        match std::env::args().nth(1).as_deref() {
            None => {}
            Some("--help") => {
                print!("{}", self.help);
                return ExitCode::SUCCESS;
            }
            Some(_) => {
                eprint!("{}", self.help);
                return ExitCode::from(2);
            }
        }
        match self.run() {
            Ok(()) => ExitCode::SUCCESS,
            Err(error) => {
                eprintln!("{}: {error}", self.name);
                ExitCode::FAILURE
            }
        }
    }

    fn run(&self) -> io::Result<()> {
        let mut file = Vec::new();
        io::stdin().lock().read_to_end(&mut file)?;
        io::stdout().lock().write_all(&(self.text)(&file))
    }
}
