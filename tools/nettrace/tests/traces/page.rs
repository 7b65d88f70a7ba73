//! Pages of the repository, and the blocks in them.

use std::fs;
use std::path::{Path, PathBuf};

pub fn root() -> PathBuf {
    Path::new(env!("CARGO_MANIFEST_DIR")).join("../..")
}

pub fn read(path: &str) -> String {
    fs::read_to_string(root().join(path)).unwrap_or_else(|error| panic!("{path}: {error}"))
}

/// The blocks of a page that are marked by this word.
pub fn blocks<'a>(page: &'a str, mark: &str) -> Vec<&'a str> {
    let (opening, closing) = (format!("```{mark}\n"), "```");
    let parts = page.split(&opening).skip(1);
    parts.map(|part| part.split_once(closing).expect("the end of a block").0).collect()
}

/// A command of a page and what it prints.
pub struct Command<'a> {
    pub arguments: Vec<&'a str>,
    pub output: &'a str,
}

/// The calls of nettrace in the blocks of a page.
pub fn commands(page: &str) -> Vec<Command<'_>> {
    let calls = calls(page, "build/release/nettrace ");
    let command = |(arguments, output)| Command { arguments: words(arguments), output };
    calls.into_iter().map(command).collect()
}

/// What follows this program in the blocks of a page that call it, and what it prints.
pub fn calls<'a>(page: &'a str, program: &str) -> Vec<(&'a str, &'a str)> {
    let blocks = blocks(page, "console").into_iter();
    let lines = blocks.map(|block| block.split_once('\n').expect("a command and its output"));
    let prompt = format!("$ {program}");
    lines.filter_map(|(line, output)| Some((line.strip_prefix(&prompt)?, output))).collect()
}

/// The words of a command line; quotes keep words together.
fn words(line: &str) -> Vec<&str> {
    let parts = line.split('"').enumerate();
    parts
        .flat_map(|(place, part)| match place % 2 {
            0 => part.split_whitespace().collect(),
            _ => vec![part],
        })
        .collect()
}
