//! Where a program writes: standard output, or the file after `-o`. A file that is there keeps what
//! it had until all is written: the output goes to a new file beside it, which then takes its name.

use super::input::Opened;
use super::{say, Failure};
use std::fs::{self, File, Metadata, OpenOptions};
use std::io::{self, BufWriter, ErrorKind, Write};
use std::os::fd::AsFd;
use std::os::unix::fs::{fchown, MetadataExt};
use std::path::{Path, PathBuf};
use std::process;

/// How an output without a file is named.
const STANDARD_OUTPUT: &str = "<stdout>";

pub struct Destination {
    /// As it was given; none for standard output.
    given: Option<PathBuf>,
    /// What is there now.
    there: Option<Metadata>,
}

pub enum Output {
    /// Standard output, a device or a pipe.
    Direct(Box<dyn Write>),
    New(NewFile),
}

/// A file that takes the place of another when it is whole, and goes away if it never is.
pub struct NewFile {
    path: PathBuf,
    replaced: PathBuf,
    writer: BufWriter<File>,
    whole: bool,
}

impl Destination {
    pub fn new(path: Option<&Path>) -> Result<Destination, Failure> {
        let there = match path {
            Some(path) => fs::metadata(path),
            None => standard_output().and_then(|file| file.metadata()),
        };
        let there = match there {
            Ok(metadata) => Some(metadata),
            Err(error) if error.kind() == ErrorKind::NotFound => None,
            Err(error) => return Err(Failure::Unwritten(error)),
        };
        Ok(Destination { given: path.map(Path::to_owned), there })
    }

    /// Fails if this is the very file that is read, by whatever name.
    pub fn refuses(&self, input: &Opened) -> Result<(), Failure> {
        let identity = |metadata: &Metadata| (metadata.dev(), metadata.ino());
        let there = self.there.as_ref().filter(|there| there.is_file());
        if there.map(identity) != Some(identity(&input.metadata)) {
            return Ok(());
        }
        let (from, to) = (&input.name, name(self.given.as_deref()));
        let wrong = format!("input {from} and output {to} are one file");
        Err(Failure::Unusable(format!("{wrong}; write to another, with -o OTHER")))
    }

    pub fn open(self) -> io::Result<Output> {
        match (&self.given, &self.there) {
            (None, _) => Ok(Output::Direct(Box::new(io::stdout().lock()))),
            (Some(path), Some(there)) if !there.is_file() => {
                let file = OpenOptions::new().write(true).open(path);
                file.map(|file| Output::Direct(Box::new(file)))
            }
            (Some(path), there) => NewFile::new(path, there.as_ref()).map(Output::New),
        }
    }
}

pub fn name(path: Option<&Path>) -> String {
    path.map_or(STANDARD_OUTPUT.to_owned(), |path| path.display().to_string())
}

fn standard_output() -> io::Result<File> {
    Ok(File::from(io::stdout().as_fd().try_clone_to_owned()?))
}

impl Output {
    pub fn writer(&mut self) -> &mut dyn Write {
        match self {
            Output::Direct(writer) => writer,
            Output::New(file) => &mut file.writer,
        }
    }

    /// All was written: a new file takes its name.
    pub fn finish(self) -> io::Result<()> {
        match self {
            Output::Direct(mut writer) => writer.flush(),
            Output::New(file) => file.replace(),
        }
    }
}

impl NewFile {
    /// Has the owner and the permissions of the file that it is to replace.
    fn new(given: &Path, there: Option<&Metadata>) -> io::Result<NewFile> {
        let replaced = without_links(given)?;
        if there.is_some() {
            // A file that may not be written is not replaced either.
            OpenOptions::new().write(true).open(&replaced)?;
        }
        let (path, file) = beside(&replaced)?;
        let new = NewFile { path, replaced, writer: BufWriter::new(file), whole: false };
        if let Some(there) = there {
            let file = new.writer.get_ref();
            // Only root may give a file away; others go on as its owner.
            let _ = fchown(file, Some(there.uid()), Some(there.gid()));
            file.set_permissions(there.permissions())?;
        }
        Ok(new)
    }

    fn replace(mut self) -> io::Result<()> {
        self.writer.flush()?;
        self.writer.get_ref().sync_all()?;
        fs::rename(&self.path, &self.replaced)?;
        self.whole = true;
        Ok(())
    }
}

impl Drop for NewFile {
    fn drop(&mut self) {
        if self.whole {
            return;
        }
        if let Err(error) = fs::remove_file(&self.path) {
            say(&format!("{}: left behind: {error}\n", self.path.display()));
        }
    }
}

/// What a name means in the end: links stay, and what they lead to is replaced.
fn without_links(given: &Path) -> io::Result<PathBuf> {
    let mut path = given.to_owned();
    while let Ok(led_to) = fs::read_link(&path) {
        path = folder(&path).join(led_to);
    }
    match path.file_name() {
        Some(_) => Ok(path),
        None => Err(ErrorKind::IsADirectory.into()),
    }
}

/// A new file in the folder of the path, by a name that no file has yet.
fn beside(path: &Path) -> io::Result<(PathBuf, File)> {
    let mut number = 0;
    loop {
        let name = format!(".new-{}-{number}.tmp", process::id());
        let new = folder(path).join(name);
        match OpenOptions::new().write(true).create_new(true).open(&new) {
            Err(error) if error.kind() == ErrorKind::AlreadyExists => number += 1,
            file => return Ok((new, file?)),
        }
    }
}

fn folder(path: &Path) -> &Path {
    path.parent().unwrap_or(Path::new(""))
}
