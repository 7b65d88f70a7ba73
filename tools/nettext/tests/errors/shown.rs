//! How an error is shown, and which one.

use crate::{fails, step_fails};
use nettext::assemble;

#[test]
fn the_line_is_shown_with_a_caret() {
    let text = "process p:\n\tinsert into CARD @1\n";
    let error = assemble(text).err().expect("no tuple");
    let shown = "card.nettext:2:9: found \"into\", expected a tuple \"(..)\"
    \tinsert into CARD @1
    \t       ^
";
    assert_eq!(error.shown("card.nettext", text), shown);
}

#[test]
fn columns_count_characters() {
    step_fails(
        "delete (!x0) from CARD @1 where x0 ≠ ≠ into T0",
        "38: found \"≠\", expected a value, a variable or a sum, no formal",
    );
}

#[test]
fn characters_that_would_upset_a_terminal_are_not_shown() {
    let text = "\u{1b}[2J";
    let error = assemble(text).err().expect("no statement");
    let shown = error.shown("net", text);
    assert!(shown.starts_with("net:1:1: found \"\\u{1b}\", expected a statement"), "{shown}");
    assert!(!shown.contains('\u{1b}'), "{shown}");
}

#[test]
fn of_a_long_line_the_part_before_the_caret_is_shown() {
    let text = format!("{}pick thread x", " ".repeat(300));
    let error = assemble(&text).err().expect("no thread place");
    let shown = error.shown("net", &text);
    let lines: Vec<&str> = shown.lines().collect();
    assert!(lines[0].starts_with("net:1:313: found \"x\""), "{shown}");
    assert!(lines[1].len() == 124 && lines[1].ends_with("pick thread x"), "{shown}");
    assert!(lines[2].len() == 124 && lines[2].ends_with(" ^"), "{shown}");
}

/// A broken text further down waits its turn.
#[test]
fn the_first_error_is_told() {
    fails(
        "row ()\nrow (\"RIG10\")",
        "1:6: found \")\", expected a value such as 40, \"RIG1\" or @1",
    );
    fails("pick thread 0 \"RIG10\"", "1:15: found a text of 5 characters, expected at most four");
}
