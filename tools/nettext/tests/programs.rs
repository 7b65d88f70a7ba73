//! The programs netasm and netdump: files, options and exit status.

use std::fs;
use std::io::Write;
use std::path::PathBuf;
use std::process::{Command, Output, Stdio};

const NETASM: &str = env!("CARGO_BIN_EXE_netasm");
const NETDUMP: &str = env!("CARGO_BIN_EXE_netdump");

fn run(program: &str, arguments: &[&str], input: &[u8]) -> Output {
    let mut child = Command::new(program)
        .args(arguments)
        .stdin(Stdio::piped())
        .stdout(Stdio::piped())
        .stderr(Stdio::piped())
        .spawn()
        .expect("the program starts");
    let mut stdin = child.stdin.take().expect("its standard input");
    // A program that stops at a wrong option does not read.
    let _ = stdin.write_all(input);
    drop(stdin);
    child.wait_with_output().expect("the program ends")
}

/// Exit status, standard output and standard error.
fn outcome(output: &Output) -> (Option<i32>, String, String) {
    let text = |bytes: &[u8]| String::from_utf8_lossy(bytes).into_owned();
    (output.status.code(), text(&output.stdout), text(&output.stderr))
}

fn example(name: &str) -> String {
    format!("{}/../../examples/{name}", env!("CARGO_MANIFEST_DIR"))
}

fn scratch(name: &str) -> PathBuf {
    PathBuf::from(env!("CARGO_TARGET_TMPDIR")).join(name)
}

#[test]
fn records_from_a_file_and_from_standard_input() {
    let text = fs::read(example("update.nettext")).expect("the text");
    let records = fs::read(example("update.net")).expect("the records");
    let from_file = run(NETASM, &[&example("update.nettext")], b"");
    let from_input = run(NETASM, &[], &text);
    for output in [from_file, from_input] {
        assert_eq!(output.status.code(), Some(0));
        assert!(output.stdout == records && output.stderr.is_empty());
    }
}

#[test]
fn text_and_back_by_files() {
    let (text, records) = (scratch("drop.nettext"), scratch("drop.net"));
    let path = |path: &PathBuf| path.to_str().expect("a path that reads").to_owned();
    let dumped = run(NETDUMP, &[&example("drop.net"), "-o", &path(&text)], b"");
    assert_eq!(outcome(&dumped), (Some(0), String::new(), String::new()));
    let assembled = run(NETASM, &["-o", &path(&records), &path(&text)], b"");
    assert_eq!(outcome(&assembled), (Some(0), String::new(), String::new()));
    let stored = fs::read(example("drop.net")).expect("the example");
    assert!(fs::read(&records).expect("the records") == stored);
}

#[test]
fn an_error_in_the_text_writes_nothing() {
    let unwritten = scratch("unwritten.net");
    let path = unwritten.to_str().expect("a path that reads");
    let output = run(NETASM, &["-o", path], b"pick thread 0\npick thread x\n");
    let shown = "<stdin>:2:13: found \"x\", expected a thread place 0..255
    pick thread x
                ^
";
    assert_eq!(outcome(&output), (Some(1), String::new(), shown.to_owned()));
    assert!(!unwritten.exists());
}

#[test]
fn a_refused_net_is_written_only_unchecked() {
    let name = example("refused-file.nettext");
    let shown = format!(
        "{name}:7:1: load 7 at 1: column 1 of CARD is Text, and the row gives the Loc @1
    row (1, @1) in CARD at site 0
    ^
what to do: give values of (Int, Text), as line 4 declares; columns count from 0
"
    );
    assert_eq!(outcome(&run(NETASM, &[&name], b"")), (Some(1), String::new(), shown));
    let output = run(NETASM, &["--unchecked", &name], b"");
    assert_eq!(output.status.code(), Some(0));
    assert!(output.stdout == fs::read(example("refused-file.net")).expect("the records"));
}

#[test]
fn a_refused_file_has_no_text() {
    let name = example("refused-file.net");
    let shown = nettext::refused_file(&name, 7, 1);
    assert_eq!(outcome(&run(NETDUMP, &[&name], b"")), (Some(1), String::new(), shown));
    for (input, number) in [(&[1; 103][..], 1), (&[9; 104], 3)] {
        let shown = nettext::refused_file("<stdin>", number, 0);
        assert_eq!(outcome(&run(NETDUMP, &[], input)), (Some(1), String::new(), shown));
    }
}

#[test]
fn bytes_that_are_no_text() {
    let output = run(NETASM, &[], b"# caf\xe9\n");
    let (status, _, shown) = outcome(&output);
    assert_eq!(status, Some(1));
    assert!(
        shown.starts_with("<stdin>:1:6: found the byte 0xe9, expected text in UTF-8\n"),
        "{shown}"
    );
}

#[test]
fn help() {
    for program in [NETASM, NETDUMP] {
        let (status, help, errors) = outcome(&run(program, &["--help"], b""));
        assert_eq!((status, errors.as_str()), (Some(0), ""));
        assert_eq!(outcome(&run(program, &["-h"], b"")), (Some(0), help.clone(), errors));
        for part in ["usage: net", "Example", "docs/TEXT.md", "-o FILE", "standard input"] {
            assert!(help.contains(part), "{part} in {help}");
        }
    }
}

#[test]
fn wrong_options() {
    let usage = "usage: netasm [FILE] [-o FILE] [--unchecked] [--help]\n";
    for (arguments, wrong) in [
        (&["--chekced"][..], "unknown option --chekced"),
        (&["-o"], "-o needs a file"),
        (&["-o", ""], "a file name is missing after -o: \"\" is none"),
        (&[""], "a file name is missing: \"\" is none"),
        (&["-o", "a", "-o", "b"], "-o is given twice"),
        (&["--unchecked", "--unchecked"], "--unchecked is given twice"),
        (&["a.nettext", "b.nettext"], "a second file b.nettext"),
    ] {
        let expected = (Some(2), String::new(), format!("netasm: {wrong}\n{usage}"));
        assert_eq!(outcome(&run(NETASM, arguments, b"")), expected);
    }
    let (status, _, shown) = outcome(&run(NETDUMP, &["--raw"], b""));
    assert_eq!(status, Some(2));
    let usage = "usage: netdump [FILE] [-o FILE] [--unchecked] [--help]";
    assert_eq!(shown, format!("netdump: unknown option --raw\n{usage}\n"));
}

#[test]
fn files_that_are_not_there() {
    let (status, _, shown) = outcome(&run(NETDUMP, &["no/such.net"], b""));
    assert_eq!(status, Some(2));
    assert!(shown.starts_with("netdump: no/such.net: "), "{shown}");
    let (status, _, shown) = outcome(&run(NETASM, &["-o", "no/such/folder/net"], b""));
    assert_eq!(status, Some(2));
    assert!(shown.starts_with("netasm: no/such/folder/net: "), "{shown}");
}
