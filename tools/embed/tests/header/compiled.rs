//! Programs in C and C++ that use the header.

use std::fs;
use std::io::Write;
use std::path::{Path, PathBuf};
use std::process::{Command, Stdio};

const STRICT: [&str; 5] = ["-Wall", "-Wextra", "-Wpedantic", "-Werror", "-Iinclude"];

#[derive(Clone, Copy, PartialEq, Eq, Debug)]
pub enum Language {
    C,
    CPlusPlus,
}

impl Language {
    /// C, and C++ where there is a compiler for it.
    pub fn all() -> Vec<Language> {
        let started = Command::new("c++").arg("--version").stdout(Stdio::null()).status();
        match started {
            Ok(_) => vec![Language::C, Language::CPlusPlus],
            Err(_) => vec![Language::C],
        }
    }

    fn compiler(self) -> (&'static str, [&'static str; 3]) {
        match self {
            Language::C => ("cc", ["-std=c99", "-x", "c"]),
            Language::CPlusPlus => ("c++", ["-std=c++11", "-x", "c++"]),
        }
    }
}

pub fn root() -> PathBuf {
    Path::new(env!("CARGO_MANIFEST_DIR")).join("../..")
}

/// The program of this source, linked with these libraries. Tests run at once, so each has a name
/// of its own for its program.
pub fn compile(name: &str, source: &str, language: Language, libraries: &[&str]) -> PathBuf {
    let program = Path::new(env!("CARGO_TARGET_TMPDIR")).join(format!("{name}-{language:?}"));
    let written = program.with_extension("c");
    fs::write(&written, source).expect("a scratch file");
    let (compiler, dialect) = language.compiler();
    let compiled = Command::new(compiler)
        .args(dialect)
        .args(STRICT)
        .arg(&written)
        .args(["-x", "none"])
        .args(libraries)
        .arg("-o")
        .arg(&program)
        .current_dir(root())
        .output()
        .expect("a compiler");
    assert!(compiled.status.success(), "{}", String::from_utf8_lossy(&compiled.stderr));
    program
}

/// What the program prints for this input.
pub fn printed(program: &Path, input: &[u8]) -> String {
    let mut child = Command::new(program)
        .stdin(Stdio::piped())
        .stdout(Stdio::piped())
        .spawn()
        .expect("the program starts");
    let mut stdin = child.stdin.take().expect("its standard input");
    stdin.write_all(input).expect("its standard input is read");
    drop(stdin);
    let output = child.wait_with_output().expect("the program ends");
    assert!(output.status.success(), "{}", output.status);
    String::from_utf8(output.stdout).expect("a text")
}
