//! Files with the text that they must give.

use generate::{file, Class};
use std::ffi::OsStr;
use std::path::{Path, PathBuf};
use std::{fs, io};

/// A file or a stream, the text expected for it, and how to get the file again.
#[derive(Clone)]
pub struct Case {
    pub label: String,
    /// What the program is called with; most take nothing.
    pub arguments: Vec<String>,
    pub file: Vec<u8>,
    pub text: Vec<u8>,
}

/// The file of a seed with the second engine's text.
pub fn generated(class: &str, seed: u64) -> Option<Case> {
    let file = file(Class::named(class)?, seed);
    let text = engine::netrun(&file);
    let label = format!("generate --class {class} --seed {seed}");
    Some(Case { label, arguments: Vec::new(), file, text })
}

/// The stored examples of a directory: NAME.net with its text in NAME.out, by name.
pub fn stored(directory: &Path) -> io::Result<Vec<Case>> {
    let nets = with_extension(directory, "net")?;
    nets.iter().map(|net| read(net, &net.with_extension("out"))).collect()
}

/// The stored pages of a directory: NAME.net with the text of netpage in NAME.page, by name. Only
/// some examples have one.
pub fn stored_pages(directory: &Path) -> io::Result<Vec<Case>> {
    let pages = with_extension(directory, "page")?;
    pages.iter().map(|page| read(&page.with_extension("net"), page)).collect()
}

pub(crate) fn with_extension(directory: &Path, extension: &str) -> io::Result<Vec<PathBuf>> {
    let entries: io::Result<Vec<PathBuf>> =
        fs::read_dir(directory)?.map(|entry| entry.map(|entry| entry.path())).collect();
    let mut paths = entries?;
    paths.retain(|path| path.extension() == Some(OsStr::new(extension)));
    paths.sort();
    Ok(paths)
}

fn read(net: &Path, text: &Path) -> io::Result<Case> {
    let label = net.display().to_string();
    Ok(Case { label, arguments: Vec::new(), file: bytes(net)?, text: bytes(text)? })
}

/// The bytes of a file of an example; an error says which one it lacks.
pub(crate) fn bytes(path: &Path) -> io::Result<Vec<u8>> {
    let named =
        |error: io::Error| io::Error::new(error.kind(), format!("{}: {error}", path.display()));
    fs::read(path).map_err(named)
}
