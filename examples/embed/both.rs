//! Builds the C program, and holds both programs to the stored output of the examples.

use std::ffi::OsStr;
use std::fs;
use std::path::{Path, PathBuf};
use std::process::{Command, Output};
use std::sync::LazyLock;

/// The C program, built once.
static IN_C: LazyLock<PathBuf> = LazyLock::new(|| {
    let program = Path::new(env!("CARGO_TARGET_TMPDIR")).join("embed");
    let compiled = Command::new("cc")
        .args(["-std=c99", "-Wall", "-Wextra", "-Werror", "-Iinclude", "examples/embed/embed.c"])
        .args(["target/staticlib/libtivgeral.a", "-o"])
        .arg(&program)
        .current_dir(root())
        .output()
        .expect("a compiler for C, cc");
    assert!(compiled.status.success(), "{}", String::from_utf8_lossy(&compiled.stderr));
    program
});

fn root() -> PathBuf {
    Path::new(env!("CARGO_MANIFEST_DIR")).join("../..")
}

fn programs() -> [&'static Path; 2] {
    [&IN_C, Path::new(env!("CARGO_BIN_EXE_embed-example"))]
}

fn run(program: &Path, arguments: &[&OsStr]) -> Output {
    let run = Command::new(program).args(arguments).current_dir(root()).output();
    run.expect("the program starts")
}

/// The nets of a directory.
fn nets(directory: &str) -> Vec<PathBuf> {
    let entries = fs::read_dir(root().join(directory)).expect("the examples");
    let paths = entries.map(|entry| entry.expect("an example").path());
    paths.filter(|path| path.extension() == Some(OsStr::new("net"))).collect()
}

#[test]
fn both_print_the_stored_output() {
    let nets = [nets("examples"), nets("examples/tour")].concat();
    assert!(nets.len() >= 18);
    for net in nets {
        let stored = fs::read(net.with_extension("out")).expect("its output");
        for program in programs() {
            let output = run(program, &[net.as_os_str()]);
            assert!(output.stdout == stored, "{} of {}", program.display(), net.display());
            // A refused file is explained beside what netrun would print.
            assert!(output.stderr.is_empty() || stored.starts_with(b"load "));
        }
    }
}

#[test]
fn both_run_the_picks_given() {
    for program in programs() {
        let output = run(program, &["examples/printed-run.net", "5:0", "0:9"].map(OsStr::new));
        let printed = "pick 0 no 11\npick 1 done 1 1\ntable 1 CARD 1\nrow RIG1 38\n";
        assert_eq!(String::from_utf8_lossy(&output.stdout), printed);
        assert_eq!(output.status.code(), Some(0));
    }
}

#[test]
fn both_tell_what_is_wrong() {
    let update = "examples/update.net";
    for program in programs() {
        for arguments in [&[][..], &[update, "0"], &[update, "0:256"], &[update, "0:0x"]] {
            let arguments: Vec<&OsStr> = arguments.iter().map(OsStr::new).collect();
            let output = run(program, &arguments);
            assert_eq!(output.status.code(), Some(2));
            assert!(output.stderr.starts_with(b"usage: embed"));
        }
        let output = run(program, &[OsStr::new("no/such.net")]);
        assert_eq!(output.status.code(), Some(2));
        assert!(output.stderr.starts_with(b"no/such.net: "));
        for arguments in [&["examples/refused-file.net"][..], &["examples/refused-file.net", "0:0"]]
        {
            let arguments: Vec<&OsStr> = arguments.iter().map(OsStr::new).collect();
            let output = run(program, &arguments);
            assert_eq!(output.status.code(), Some(1));
            assert_eq!(output.stdout, b"load 7 at 1\n");
        }
    }
}

#[test]
fn the_c_program_says_what_a_refusal_means() {
    let output = run(&IN_C, &[OsStr::new("examples/refused-file.net")]);
    let said = "examples/refused-file.net: the row's table is absent, or the row does not fit\n";
    assert_eq!(String::from_utf8_lossy(&output.stderr), said);
}

/// The file's own picks are asked for: a program that reads them off the records knows their kind.
#[test]
fn the_c_program_goes_by_the_header() {
    let program = fs::read_to_string(root().join("examples/embed/embed.c")).expect("the program");
    assert!(program.contains("tivgeral_picks("));
    assert!(!program.contains("== 33"));
    for name in ["TIVGERAL_RECORD_BYTES", "TIVGERAL_ANSWER_BYTES", "TIVGERAL_TABLES_BYTES"] {
        assert!(program.contains(name), "{name}");
    }
}
