//! The program second-netwindow: its arguments, its lines, and streams that come in pieces.

use generate::record::*;
use generate::stream::examples;
use std::io::Write;
use std::process::{Command, Output, Stdio};

/// What the program does with these arguments and a stream that comes in pieces of this length.
fn run(arguments: &[&str], stream: &[u8], piece: usize) -> Output {
    let mut program = Command::new(env!("CARGO_BIN_EXE_second-netwindow"))
        .args(arguments)
        .stdin(Stdio::piped())
        .stdout(Stdio::piped())
        .stderr(Stdio::piped())
        .spawn()
        .expect("it starts");
    let mut stdin = program.stdin.take().expect("its standard input");
    // It reads nothing where its arguments are refused.
    let _ = stream.chunks(piece).try_for_each(|piece| stdin.write_all(piece));
    drop(stdin);
    program.wait_with_output().expect("it ends")
}

fn text(bytes: &[u8]) -> String {
    String::from_utf8_lossy(bytes).into_owned()
}

#[test]
fn it_prints_what_was_computed_by_hand() {
    for example in examples::all() {
        let output = run(&[example.width, example.column], &example.stream, 50);
        assert_eq!(output.status.code(), Some(0), "{}", example.name);
        assert_eq!(text(&output.stdout), example.text, "{}", example.name);
        assert_eq!(text(&output.stderr), "", "{}", example.name);
    }
}

#[test]
fn pieces_are_no_records() {
    let stream = file(&[row(0, b"CARD", &[int(2)]), row(0, b"CARD", &[int(-3)])]);
    for piece in [1, 103, 105, 207] {
        let output = run(&["2", "0"], &stream, piece);
        assert_eq!(text(&output.stdout), "record 0 2 2 2\nrecord 1 -1 -3 2\n", "{piece} bytes");
    }
}

#[test]
fn a_width_that_is_none_needs_no_stream() {
    for width in ["0", "000", "17", "99999999999999999999999999999999999999999"] {
        let output = run(&[width, "99999999999999999999999"], &[], 1);
        assert_eq!(output.status.code(), Some(0));
        assert_eq!(text(&output.stdout), "window no 23\n");
    }
}

#[test]
fn other_arguments_are_told_how_to_call_it() {
    let two = "it takes two arguments";
    let (width, column) = ("W is no number in decimal", "COLUMN is no number in decimal");
    for (arguments, why) in [
        (&[][..], two),
        (&["3"], two),
        (&["3", "0", "0"], two),
        (&["", "0"], width),
        (&["+3", "0"], width),
        (&["-3", "0"], width),
        (&[" 3", "0"], width),
        (&["3.0", "0"], width),
        (&["0x3", "0"], width),
        (&["\u{663}", "0"], width),
        (&["w", "c"], width),
        (&["3", ""], column),
        (&["0", "1e0"], column),
        (&["3", "-1"], column),
    ] {
        let output = run(arguments, &[], 1);
        assert_eq!(output.status.code(), Some(2), "{arguments:?}");
        assert_eq!(text(&output.stdout), "");
        let line = format!("usage: second-netwindow W COLUMN < STREAM ({why})\n");
        assert_eq!(text(&output.stderr), line, "{arguments:?}");
    }
}

#[test]
fn help_says_how_to_call_it() {
    let output = run(&["--help"], &[], 1);
    assert_eq!(output.status.code(), Some(0));
    assert!(text(&output.stdout).starts_with("usage: second-netwindow W COLUMN < STREAM\n\n"));
}

/// A directory can be opened and not read.
#[test]
#[cfg(unix)]
fn an_error_in_the_stream_is_told() {
    let directory = std::fs::File::open(".").expect("this package");
    let output = Command::new(env!("CARGO_BIN_EXE_second-netwindow"))
        .args(["3", "0"])
        .stdin(directory)
        .output()
        .expect("it starts");
    assert_eq!(output.status.code(), Some(1));
    assert!(output.stdout.is_empty());
    assert!(text(&output.stderr).starts_with("second-netwindow: "));
}
