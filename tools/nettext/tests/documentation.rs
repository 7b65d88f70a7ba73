//! What `docs/TEXT.md` shows is what the programs do.

use nettext::{assemble, dump, dump_unchecked};

const PAGE: &str = include_str!("../../../docs/TEXT.md");

/// The block of the page that is marked by this word.
fn block(mark: &str) -> &'static str {
    let (_, rest) = PAGE.split_once(&format!("```{mark}\n")).expect("a block of that mark");
    rest.split_once("```").expect("its end").0
}

fn records() -> Vec<u8> {
    let text = block("nettext");
    let assembled = assemble(text).unwrap_or_else(|error| panic!("{}", error.shown("page", text)));
    assert_eq!(assembled.check(), Ok(()));
    assembled.file
}

#[test]
fn the_worked_example_prints_what_the_page_says() {
    assert_eq!(String::from_utf8_lossy(&engine::netrun(&records())), block("netrun"));
}

#[test]
fn the_worked_example_comes_back_as_the_page_says() {
    let text = dump(&records()).expect("a net that loads");
    assert!(text.contains(&format!("\n\n{}\n", block("netdump"))), "{text}");
}

#[test]
fn the_errors_are_those_of_the_page() {
    let text = "\n".repeat(6) + "process add:\n    insert into CARD @1\n";
    let error = assemble(&text).err().expect("no tuple");
    assert_eq!(error.shown("card.nettext", &text), block("error"));
    let text = "\ntable CARD at site 0 (Int, Text)\n\nrow (1, @1) in CARD at site 0\n";
    let error = assemble(text).expect("a text that is well formed").check().expect_err("number 7");
    assert_eq!(error.shown("card.nettext", text), block("refusal"));
}

const LOOP: &str = "
table CARD at site 0 (Int)
process gather:
    foreach (!x2) in T0 do rasie
start gather at site 0
";

#[test]
fn a_label_that_was_meant_is_that_of_the_page() {
    let text = LOOP.replace("start", "process raise:\n    drop CARD @self\nstart");
    let errors = assemble(&text).err().expect("an unknown label");
    assert_eq!(errors.shown("card.nettext", &text), block("meant"));
}

#[test]
fn the_warning_is_that_of_the_page() {
    let text = LOOP.replace("rasie", "raise").replace("gather:", "gather:\n    drop CARD @self");
    let text = text.replace("start", "raise:\n    drop CARD @self\nstart");
    let assembled = assemble(&text).expect("a text that is well formed");
    assert_eq!(assembled.warnings().shown("card.nettext", &text), block("warning"));
}

#[test]
fn the_text_of_a_refused_file_is_that_of_the_page() {
    let mut text = Vec::new();
    let file = include_bytes!("../../../examples/refused-file.net");
    dump_unchecked(file, &mut text).expect("room in memory");
    assert_eq!(String::from_utf8_lossy(&text), block("unchecked"));
}
