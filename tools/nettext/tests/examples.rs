//! The texts in `examples` and `examples/tour` are those of the records beside them.

use engine::load;
use nettext::{assemble, dump};
use std::collections::BTreeSet;
use std::ffi::OsStr;
use std::fs;
use std::path::{Path, PathBuf};

fn directory() -> &'static Path {
    Path::new(concat!(env!("CARGO_MANIFEST_DIR"), "/../../examples"))
}

/// The examples that have a file with this extension.
fn with(extension: &str) -> BTreeSet<PathBuf> {
    let directories = [directory().to_owned(), directory().join("tour")];
    let entries = directories.map(|directory| fs::read_dir(directory).expect("the examples"));
    let paths = entries.into_iter().flatten().map(|entry| entry.expect("an example").path());
    let chosen = paths.filter(|path| path.extension() == Some(OsStr::new(extension)));
    chosen.map(|path| path.with_extension("")).collect()
}

fn text(example: &Path) -> String {
    fs::read_to_string(example.with_extension("nettext")).expect("its text")
}

fn records(example: &Path) -> Vec<u8> {
    fs::read(example.with_extension("net")).expect("its records")
}

#[test]
fn every_net_has_its_text_and_every_text_its_net() {
    assert_eq!(with("net"), with("nettext"));
    assert_eq!(with("net"), with("out"));
    assert!(with("net").len() >= 18);
}

#[test]
fn texts_assemble_to_the_stored_records() {
    for example in with("nettext") {
        let text = text(&example);
        match assemble(&text) {
            Ok(assembled) => assert!(assembled.file == records(&example), "{}", example.display()),
            Err(error) => panic!("{}", error.shown(&example.to_string_lossy(), &text)),
        }
    }
}

#[test]
fn stored_output_is_what_netrun_prints() {
    for example in with("net") {
        let output = fs::read(example.with_extension("out")).expect("its output");
        assert!(engine::netrun(&records(&example)) == output, "{}", example.display());
    }
}

#[test]
fn texts_begin_with_what_they_show() {
    for example in with("nettext") {
        assert!(text(&example).starts_with("# "), "{}", example.display());
    }
}

#[test]
fn stored_records_come_back_from_their_dump() {
    for example in with("net") {
        let file = records(&example);
        match dump(&file) {
            Ok(text) => assert!(assemble(&text).is_ok_and(|assembled| assembled.file == file)),
            Err(fault) => assert_eq!(load(&file).err(), Some(fault)),
        }
    }
}

#[test]
fn one_example_is_refused_at_the_line_of_its_row() {
    let text = text(&directory().join("refused-file"));
    let error = assemble(&text).expect("a text that is well formed").check().expect_err("number 7");
    let shown = "\
refused-file:7:1: load 7 at 1: column 1 of CARD is Text, and the row gives the Loc @1
    row (1, @1) in CARD at site 0
    ^
what to do: give values of (Int, Text), as line 4 declares; columns count from 0
";
    assert_eq!(error.shown("refused-file", &text), shown);
}
