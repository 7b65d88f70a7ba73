//! Comparing: what agrees, what differs, and the stored examples.

use compare::cases::{generated, stored, stored_pages, Case};
use compare::expected::{expected, Printer};
use compare::report::compare;
use engine::quirk::Quirk;
use generate::examples::{self, Example};
use std::path::Path;
use std::process::Command;

fn mixed(place: u64) -> Case {
    generated("mixed", place).expect("a class of that name")
}

fn directory() -> &'static Path {
    Path::new(concat!(env!("CARGO_MANIFEST_DIR"), "/examples"))
}

#[test]
fn the_engine_agrees_with_itself() {
    let report = compare(300, 2, mixed, |case| Ok(engine::netrun(&case.file)));
    assert_eq!((report.agreed, report.differed()), (300, 0));
}

#[test]
fn a_wrong_engine_differs_with_the_seed_that_shows_it() {
    let wrong = |case: &Case| Ok(Quirk::FoldedNames.during(|| engine::netrun(&case.file)));
    let mut report = compare(300, 2, mixed, wrong);
    assert!(report.differed() > 0);
    assert_eq!(report.agreed + report.differed(), 300);
    let first = report.first(1).next().expect("a difference").to_owned();
    assert!(first.starts_with("generate --class mixed --seed "), "{first}");
    assert!(first.contains("expected"), "{first}");
}

fn paged(place: u64) -> Case {
    expected(mixed(place), Printer::Netpage)
}

#[test]
fn the_engine_agrees_with_its_own_pages() {
    let report = compare(300, 2, paged, |case| Ok(engine::netpage(&case.file)));
    assert_eq!((report.agreed, report.differed()), (300, 0));
}

#[test]
fn a_wrong_page_differs_with_the_line_that_shows_it() {
    let wrong = |case: &Case| Ok(Quirk::PageSumLeft.during(|| engine::netpage(&case.file)));
    let mut report = compare(300, 2, paged, wrong);
    assert!(report.differed() > 0);
    let first = report.first(1).next().expect("a difference").to_owned();
    assert!(first.starts_with("generate --class mixed --seed "), "{first}");
    assert!(first.contains(": expected \"            "), "{first}");
}

fn looked(place: u64) -> Case {
    expected(mixed(place), Printer::Looked)
}

#[test]
fn the_engine_agrees_with_its_own_looks() {
    let report = compare(300, 2, looked, |case| Ok(engine::looked(&case.file)));
    assert_eq!((report.agreed, report.differed()), (300, 0));
}

#[test]
fn a_wrong_count_differs_with_the_line_that_shows_it() {
    let wrong = |case: &Case| Ok(Quirk::LookFailingUncounted.during(|| engine::looked(&case.file)));
    let mut report = compare(300, 2, looked, wrong);
    assert!(report.differed() > 0);
    let first = report.first(1).next().expect("a difference").to_owned();
    assert!(first.starts_with("generate --class mixed --seed "), "{first}");
    assert!(first.contains(": expected \"looked "), "{first}");
}

#[test]
fn stored_examples_are_those_computed_by_hand() {
    agree(directory(), examples::all());
}

#[test]
fn shown_examples_are_those_computed_by_hand() {
    let directory = Path::new(concat!(env!("CARGO_MANIFEST_DIR"), "/../../examples"));
    agree(directory, examples::shown());
}

fn agree(directory: &Path, mut made: Vec<Example>) {
    made.sort_by_key(|example| format!("{}.net", example.name));
    let texts = made.iter().map(|made| (made, made.text.as_str())).collect();
    same(stored(directory).expect("the stored examples"), texts);
    made.sort_by_key(|example| format!("{}.page", example.name));
    let pages = made.iter().filter_map(|made| Some((made, made.page.as_deref()?))).collect();
    same(stored_pages(directory).expect("the stored pages"), pages);
}

fn same(stored: Vec<Case>, made: Vec<(&Example, &str)>) {
    assert_eq!(stored.len(), made.len());
    for (stored, (made, text)) in stored.iter().zip(made) {
        assert!(stored.label.ends_with(&format!("{}.net", made.name)), "{}", stored.label);
        assert_eq!(stored.file, made.file, "{}", made.name);
        assert_eq!(stored.text, text.as_bytes(), "{}", made.name);
    }
}

fn run(arguments: &[&str]) -> (bool, String) {
    let output = Command::new(env!("CARGO_BIN_EXE_compare"))
        .args(arguments)
        .output()
        .expect("compare starts");
    (output.status.success(), String::from_utf8_lossy(&output.stdout).into_owned())
}

#[test]
fn the_program_holds_the_engine_to_stored_examples() {
    let directory = directory().to_str().expect("a path that reads");
    let (success, text) = run(&["--examples", directory]);
    assert!(success, "{text}");
    assert_eq!(text, format!("{} agreed, 0 differed\n", examples::all().len()));
}

#[test]
fn with_pages_the_program_holds_the_engine_to_stored_pages_too() {
    let directory = directory().to_str().expect("a path that reads");
    let (success, text) = run(&["--examples", directory, "--pages"]);
    assert!(success, "{text}");
    let all = examples::all();
    let pages = all.iter().filter(|example| example.page.is_some()).count();
    assert!(pages > 0);
    assert_eq!(text, format!("{} agreed, 0 differed\n", all.len() + pages));
}

/// The texts about looks are not stored.
#[test]
fn with_looked_the_program_holds_the_engine_to_stored_examples() {
    let directory = directory().to_str().expect("a path that reads");
    let (success, text) = run(&["--examples", directory, "--looked"]);
    assert!(success, "{text}");
    assert_eq!(text, format!("{} agreed, 0 differed\n", examples::all().len()));
}

/// `compare` itself is none of these programs: without arguments it fails.
#[test]
fn the_program_counts_a_failing_program_as_different() {
    for printer in [&[][..], &["--sums"], &["--pages"], &["--looked"]] {
        let (success, text) =
            run(&[&[env!("CARGO_BIN_EXE_compare"), "--count", "3"], printer].concat());
        assert!(!success);
        assert!(text.ends_with("\n0 agreed, 3 differed\n"), "{text}");
    }
}

#[test]
fn a_program_prints_sums_or_pages_or_looks_but_no_two() {
    for two in [["--sums", "--pages"], ["--pages", "--looked"], ["--looked", "--sums"]] {
        let (success, text) = run(&[&["true", "--count", "0"], &two[..]].concat());
        assert!(!success);
        assert_eq!(text, "");
    }
}

#[test]
fn the_program_counts_a_failing_program_of_windows_as_different() {
    let (success, text) = run(&[env!("CARGO_BIN_EXE_compare"), "--count", "3", "--windows"]);
    assert!(!success);
    assert!(text.ends_with("\n0 agreed, 3 differed\n"), "{text}");
}

#[test]
fn a_program_that_prints_windows_prints_nothing_else() {
    for two in [["--looked", "--windows"], ["--windows", "--sums"]] {
        let (success, text) = run(&[&["true", "--count", "0"], &two[..]].concat());
        assert!(!success);
        assert_eq!(text, "");
    }
}
