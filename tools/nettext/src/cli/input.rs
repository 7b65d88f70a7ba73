//! What a program reads: a file, or standard input.

use super::options::Options;
use super::Failure;
use std::fs::{File, Metadata};
use std::io::{self, Read};
use std::os::fd::AsFd;
use std::path::Path;

/// How an input without a file is named.
const STANDARD_INPUT: &str = "<stdin>";

pub struct Input {
    pub name: String,
    pub bytes: Vec<u8>,
    options: Options,
    files: Vec<(String, Content)>,
}

/// A file that was read whole.
pub struct Content {
    pub name: String,
    pub bytes: Vec<u8>,
}

impl Input {
    /// The file that an option names.
    pub fn file(&self, option: &str) -> Option<&Content> {
        let given = self.files.iter().find(|(given, _)| given == option);
        given.map(|(_, content)| content)
    }

    pub fn new(net: Content, options: Options, files: Vec<(String, Content)>) -> Input {
        let Content { name, bytes } = net;
        Input { name, bytes, options, files }
    }

    pub fn has(&self, flag: &str) -> bool {
        self.options.has(flag)
    }

    /// The value of an option.
    pub fn setting(&self, option: &str) -> Option<&str> {
        let given = self.options.settings.iter().find(|(given, _)| given == option);
        given.map(|(_, value)| value.as_str())
    }
}

/// An input of which nothing was read yet.
pub struct Opened {
    pub name: String,
    file: File,
    pub metadata: Metadata,
}

impl Opened {
    pub fn new(path: Option<&Path>) -> Result<Opened, Failure> {
        let name = path.map_or(STANDARD_INPUT.to_owned(), |path| path.display().to_string());
        let file = path.map_or_else(standard_input, File::open);
        let opened = file.and_then(|file| Ok((file.metadata()?, file)));
        let (metadata, file) = opened.map_err(|error| unread(&name, &error))?;
        Ok(Opened { name, file, metadata })
    }

    /// All of it, unless it has more bytes than the limit: then no more than one of those is read,
    /// and it is at fault for this reason.
    pub fn read(self, limit: usize, reason: &str) -> Result<Content, Failure> {
        let Opened { name, file, .. } = self;
        let mut bytes = Vec::new();
        let read = file.take((limit as u64).saturating_add(1)).read_to_end(&mut bytes);
        read.map_err(|error| unread(&name, &error))?;
        if bytes.len() > limit {
            return Err(too_long(&name, limit, reason).into());
        }
        Ok(Content { name, bytes })
    }
}

fn standard_input() -> io::Result<File> {
    Ok(File::from(io::stdin().as_fd().try_clone_to_owned()?))
}

fn unread(name: &str, error: &io::Error) -> Failure {
    Failure::Unusable(format!("{name}: {error}"))
}

fn too_long(name: &str, limit: usize, reason: &str) -> String {
    format!(
        "{name}: over {limit} bytes, {reason}\n\
         what to do: look whether this is the file that was meant\n"
    )
}
