//! The program nettrace: options, files and exit status.

use std::fs;
use std::io::Write;
use std::process::{Command, Stdio};

const ROOT: &str = concat!(env!("CARGO_MANIFEST_DIR"), "/../..");

/// Exit status, standard output and standard error, at the root of the repository.
fn run(arguments: &[&str], input: &[u8]) -> (Option<i32>, String, String) {
    let mut child = Command::new(env!("CARGO_BIN_EXE_nettrace"))
        .args(arguments)
        .current_dir(ROOT)
        .stdin(Stdio::piped())
        .stdout(Stdio::piped())
        .stderr(Stdio::piped())
        .spawn()
        .expect("the program starts");
    let mut stdin = child.stdin.take().expect("its standard input");
    // A program that stops at a wrong option does not read.
    let _ = stdin.write_all(input);
    drop(stdin);
    let output = child.wait_with_output().expect("the program ends");
    let text = |bytes: &[u8]| String::from_utf8_lossy(bytes).into_owned();
    (output.status.code(), text(&output.stdout), text(&output.stderr))
}

fn example(name: &str) -> Vec<u8> {
    fs::read(format!("{ROOT}/examples/{name}")).expect("the example")
}

/// The trace, of a run that ends well.
fn told(arguments: &[&str], input: &[u8]) -> String {
    let (status, told, errors) = run(arguments, input);
    assert_eq!((status, errors.as_str()), (Some(0), ""));
    told
}

/// A file of these bytes.
fn scratch(name: &str, bytes: &[u8]) -> String {
    let path = format!("{}/{name}", env!("CARGO_TARGET_TMPDIR"));
    fs::write(&path, bytes).expect("a scratch file");
    path
}

#[test]
fn help() {
    let (status, help, errors) = run(&["--help"], b"");
    assert_eq!((status, errors.as_str()), (Some(0), ""));
    assert_eq!(run(&["-h"], b""), (status, help.clone(), errors));
    let options = ["--picks PICKS", "--picks-from FILE", "--text", "-o FILE"];
    for part in options.into_iter().chain(["usage: nettrace", "Example: nettrace", "docs/TOUR.md"])
    {
        assert!(help.contains(part), "{part} in {help}");
    }
}

#[test]
fn wrong_options() {
    let usage = "usage: nettrace [FILE] [--picks PICKS | --picks-from FILE] [--text] [-o FILE] \
                 [--help]\n";
    for (arguments, wrong) in [
        (&["--pick"][..], "unknown option --pick"),
        (&["--picks"], "--picks needs a value"),
        (&["--picks-from"], "--picks-from needs a file"),
        (&["--picks-from", ""], "a file name is missing after --picks-from: \"\" is none"),
        (&["--picks", "0", "--picks", ""], "--picks is given twice"),
        (&["--picks-from", "a", "--picks-from", "b"], "--picks-from is given twice"),
        (&["a.net", "b.net"], "a second file b.net"),
    ] {
        let expected = (Some(2), String::new(), format!("nettrace: {wrong}\n{usage}"));
        assert_eq!(run(arguments, b""), expected);
    }
    let wrong = "nettrace: --picks: found \"0-1\", expected a pick THREAD or THREAD:ROW, \
                 with places 0..255\n";
    let (status, _, errors) = run(&["examples/update.net", "--picks", "0 0-1"], b"");
    assert_eq!((status, errors.as_str()), (Some(2), wrong));
}

#[test]
fn a_file_that_is_not_there() {
    let (status, _, errors) = run(&["no/such.net"], b"");
    assert_eq!(status, Some(2));
    assert!(errors.starts_with("nettrace: no/such.net: "), "{errors}");
    let (status, _, errors) = run(&["examples/update.net", "--picks-from", "no/such"], b"");
    assert_eq!(status, Some(2));
    assert!(errors.starts_with("nettrace: no/such: "), "{errors}");
}

#[test]
fn an_error_in_the_text() {
    let shown = "<stdin>:1:13: found \"x\", expected a thread place 0..255
    pick thread x
                ^
";
    let outcome = run(&["--text"], b"pick thread x\n");
    assert_eq!(outcome, (Some(1), String::new(), shown.to_owned()));
}

#[test]
fn a_net_by_file_and_by_standard_input() {
    let by_text = told(&["examples/update.nettext"], b"");
    assert_eq!(told(&["--text"], &example("update.nettext")), by_text);
    let by_records = told(&["examples/update.net"], b"");
    assert_eq!(told(&[], &example("update.net")), by_records);
    assert_eq!(by_text.replace("line 13 of brighten", "node 0"), by_records);
}

#[test]
fn picks_in_place_of_the_files_own() {
    let none = told(&["examples/update.net", "--picks", ""], b"");
    assert!(none.ends_with("in all: 0 picks done, 0 refused; 0 rows added, 0 taken\n"));
    let three = told(&["examples/update.net", "--picks", "0:9 0 200:1"], b"");
    assert!(three.ends_with("in all: 1 pick done, 2 refused; 1 row added, 1 taken\n"));
}

#[test]
fn picks_from_a_file() {
    let list = scratch("picks", b"0:9 # the update\n\n0 200:1\n");
    let three = told(&["examples/update.net", "--picks", "0:9 0 200:1"], b"");
    assert_eq!(told(&["examples/update.net", "--picks-from", &list], b""), three);
    let wrong = scratch("wrong-picks", b"0\n0-1\n");
    let (status, _, errors) = run(&["examples/update.net", "--picks-from", &wrong], b"");
    let found = "found \"0-1\", expected a pick THREAD or THREAD:ROW, with places 0..255";
    assert_eq!((status, errors), (Some(2), format!("nettrace: {wrong}:2: {found}\n")));
    let both = ["examples/update.net", "--picks-from", &list, "--picks", "0"];
    let (status, _, errors) = run(&both, b"");
    let once = "nettrace: --picks and --picks-from: give one of them\n";
    assert_eq!((status, errors.as_str()), (Some(2), once));
}

/// A list that no command line would take.
#[test]
fn a_long_list_of_picks() {
    let list = scratch("long-picks", "0\n".repeat(200_000).as_bytes());
    let told = told(&["examples/update.net", "--picks-from", &list], b"");
    assert!(told.ends_with("in all: 1 pick done, 199999 refused; 1 row added, 1 taken\n"));
}

#[test]
fn a_trace_written_to_a_file() {
    let path = concat!(env!("CARGO_TARGET_TMPDIR"), "/update.trace");
    assert_eq!(told(&["examples/update.net", "-o", path], b""), "");
    let written = fs::read_to_string(path).expect("the trace");
    assert_eq!(written, told(&["examples/update.net"], b""));
}

/// Neither the net nor the list of picks is written over.
#[test]
fn a_trace_written_over_what_is_read() {
    for (name, option) in [("net.net", None), ("list", Some("--picks-from"))] {
        let bytes = option.map_or(example("update.net"), |_| b"0 0\n".to_vec());
        let path = scratch(name, &bytes);
        let arguments = match option {
            None => vec![path.as_str(), "-o", &path],
            Some(option) => vec!["examples/update.net", option, &path, "-o", &path],
        };
        let (status, _, errors) = run(&arguments, b"");
        assert_eq!(status, Some(2));
        assert!(errors.contains("are one file"), "{errors}");
        assert_eq!(fs::read(&path).expect("the file"), bytes);
    }
}

#[test]
fn a_refused_file_is_explained() {
    let advice = "what to do: put its table among the table records, before all rows; \
                  give as many values as columns, of their kinds\n";
    let wrong = "load 7 at 1: the row's table is absent, or the row does not fit\n";
    let shown = format!("examples/refused-file.net: {wrong}{advice}");
    assert_eq!(run(&["examples/refused-file.net"], b""), (Some(1), String::new(), shown));
    // A text is refused in its own words.
    let shown = "examples/refused-file.nettext:7:1: load 7 at 1: column 1 of CARD is Text, and \
                 the row gives the Loc @1
    row (1, @1) in CARD at site 0
    ^
what to do: give values of (Int, Text), as line 4 declares; columns count from 0
";
    let outcome = run(&["examples/refused-file.nettext"], b"");
    assert_eq!(outcome, (Some(1), String::new(), shown.to_owned()));
}

#[test]
fn texts_and_records_taken_for_each_other() {
    let shown = "<stdin>: this is a text, and records are expected
what to do: nettrace reads a text from a file NAME.nettext, or from any file with --text
";
    let outcome = run(&[], &example("update.nettext"));
    assert_eq!(outcome, (Some(1), String::new(), shown.to_owned()));
    let (status, told, errors) = run(&["--text"], &example("update.net"));
    assert_eq!((status, told.as_str()), (Some(1), ""));
    let wrong = "<stdin>: these are records, and a text is expected\nwhat to do: ";
    assert!(errors.starts_with(wrong), "{errors}");
}

/// What an editor put before a text is no part of it.
#[test]
fn a_text_with_a_byte_order_mark() {
    let marked = [b"\xef\xbb\xbf".to_vec(), example("update.nettext")].concat();
    assert_eq!(told(&["--text"], &marked), told(&["examples/update.nettext"], b""));
}

/// A newcomer who writes the README's net gets what the README shows.
#[test]
fn the_net_of_the_readme() {
    let readme = fs::read_to_string(format!("{ROOT}/README.md")).expect("the README");
    let (_, rest) = readme.split_once("<<'END'\n").expect("the command that writes the net");
    let (net, _) = rest.split_once("END\n").expect("its end");
    let (_, rest) = readme.split_once("```trace\n").expect("the trace");
    let (shown, _) = rest.split_once("```").expect("its end");
    assert_eq!(told(&["--text"], net.as_bytes()), shown);
}
