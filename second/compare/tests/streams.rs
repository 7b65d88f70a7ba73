//! Comparing streams: what agrees, what differs, and the stored ones.

use compare::cases::Case;
use compare::report::compare;
use compare::streams::{generated_stream, stored_streams, windows};
use engine::quirk::Quirk;
use generate::stream::examples;
use std::path::Path;
use std::process::Command;

const DIRECTORY: &str = concat!(env!("CARGO_MANIFEST_DIR"), "/streams");

fn text(case: &Case) -> Result<Vec<u8>, String> {
    windows(&case.arguments, &case.file).ok_or("no such arguments".into())
}

#[test]
fn the_engine_agrees_with_its_own_windows() {
    let report = compare(300, 2, generated_stream, text);
    assert_eq!((report.agreed, report.differed()), (300, 0));
}

#[test]
fn a_wrong_window_differs_with_the_line_that_shows_it() {
    let wrong = |case: &Case| Quirk::WindowSumWraps.during(|| text(case));
    let mut report = compare(300, 2, generated_stream, wrong);
    assert!(report.differed() > 0);
    let first = report.first(1).next().expect("a difference").to_owned();
    assert!(first.starts_with("generate --stream --seed "), "{first}");
    assert!(first.contains(": expected \"record "), "{first}");
}

#[test]
fn stored_streams_are_those_computed_by_hand() {
    let mut made = examples::all();
    made.sort_by_key(|example| format!("{}.stream", example.name));
    let stored = stored_streams(Path::new(DIRECTORY)).expect("the stored streams");
    assert_eq!(stored.len(), made.len());
    for (stored, made) in stored.iter().zip(made) {
        assert!(stored.label.ends_with(&format!("{}.stream", made.name)), "{}", stored.label);
        assert_eq!(stored.arguments, [made.width, made.column], "{}", made.name);
        assert_eq!(stored.file, made.stream, "{}", made.name);
        assert_eq!(stored.text, made.text.as_bytes(), "{}", made.name);
    }
}

fn run(arguments: &[&str]) -> (Option<i32>, String) {
    let output = Command::new(env!("CARGO_BIN_EXE_compare"))
        .args(arguments)
        .output()
        .expect("compare starts");
    (output.status.code(), String::from_utf8_lossy(&output.stdout).into_owned())
}

#[test]
fn the_program_holds_the_engine_to_stored_streams() {
    let agreed = format!("{} agreed, 0 differed\n", examples::all().len());
    assert_eq!(run(&["--windows", "--examples", DIRECTORY]), (Some(0), agreed));
}

#[test]
fn a_long_stream_is_for_windows_and_for_a_program() {
    for arguments in [&["true", "--long", "5"][..], &["--windows", "--long", "5"]] {
        assert_eq!(run(arguments), (Some(2), String::new()));
    }
}
