//! Several errors in one text: reading goes on with the next statement.

use nettext::{assemble, assemble_checked, Errors};

/// The errors, each by its first line without the file's name.
fn lines(errors: &Errors, text: &str) -> Vec<String> {
    let shown = errors.shown("net", text);
    let first = shown.lines().filter_map(|line| line.strip_prefix("net:"));
    first.map(str::to_owned).collect()
}

/// The text's errors are these.
fn fail(text: &str, expected: &[&str]) {
    let errors = assemble(text).err().unwrap_or_else(|| panic!("no error in {text}"));
    assert_eq!(lines(&errors, text), expected, "{text}");
}

#[test]
fn each_statement_has_its_error() {
    fail(
        "alias 1 at site 0 is site 1\npick thread 0\npick thread x\n\nrow (1 in CARD at site 0\n",
        &[
            "1:7: found \"1\", expected \"@\"",
            "3:13: found \"x\", expected a thread place 0..255",
            "5:8: found \"in\", expected \",\" or \")\"",
        ],
    );
}

/// The rest of a statement is passed, with its further lines.
#[test]
fn a_statement_of_several_lines_has_one() {
    let text = "
process p:
    select (x0,
            x1 + 1,
            x2) from CARD @1
        matching (!x0, !x1)
        into T0
    drop CARD 1
        then end
    drop CARD @1
";
    fail(
        text,
        &[
            "4:16: found \"+\", expected \",\" or \")\": a select stores no sums",
            "8:15: found \"1\", expected a locality such as @1",
        ],
    );
}

/// A parenthesis that is left open, or a quote, ends where a statement begins a line.
#[test]
fn what_is_left_open_hides_nothing() {
    let text = "row (1
row (2) in CARD at site 8
row (\"RIG1) in CARD at site 0
process p: drop CARD @9
    insert (1, into CARD @1
q: drop CARD @8
";
    fail(
        text,
        &[
            "2:1: found \"row\", expected \",\" or \")\"",
            "2:25: found \"8\", expected a site 0..7",
            "3:30: found the end of the line, expected a closing quote",
            "4:23: found \"9\", expected a locality 0..7, self or a variable",
            "5:16: found \"into\", expected a value, a variable or a sum, no formal",
            "6:15: found \"8\", expected a locality 0..7, self or a variable",
        ],
    );
}

/// A step that breaks the grammar is still a step, and its label a label.
#[test]
fn an_error_brings_no_other() {
    let text = "
process p:
    drop CARD 1
    drop CARD @1 then q
q: isnert (1) into CARD @1
process r:
start p at site 0
start q at site 0
start r at site 0
";
    let step = "insert, delete, select, update, aggregate, create, drop, foreach";
    fail(
        text,
        &[
            "3:15: found \"1\", expected a locality such as @1",
            &format!("5:4: found \"isnert\", expected a step after the label: {step}"),
            &format!("7:1: found \"start\", expected a step after the label: {step}"),
        ],
    );
    // Without the first label nobody knows which labels there are.
    fail(
        "process 1:\n    drop CARD @1\nstart first at site 0\n",
        &["1:9: found \"1\", expected a label"],
    );
    // Only the first of some steps without a process is told.
    let no_process = "found \"drop\", expected \"process\" and a label before the first step";
    fail(
        "drop A @1\ndrop B @1\ndrop C 1\n",
        &[&format!("1:1: {no_process}"), "3:8: found \"1\", expected a locality such as @1"],
    );
}

#[test]
fn labels() {
    fail(
        "process raise:\nforeach (!x0) in T0 do lower then rise\nprocess raise:\ndrop A @1",
        &[
            "2:24: found \"lower\", expected a label of this text",
            "2:35: found \"rise\", expected a label of this text; did you mean \"raise\"?",
            "3:9: found \"raise\" again, expected a new label: line 1 has this one",
        ],
    );
}

/// What loading would refuse is told beside what breaks the grammar.
#[test]
fn the_grammar_and_loading() {
    let text = "table CARD at site 0 (Int)
row (\"a\") in CARD at site 0
row (1, in CARD at site 0
row (1) in CODE at site 0
process p:
    drop CARD @1 then p
pick thread
";
    let errors = assemble_checked(text).err().expect("errors");
    assert_eq!(
        lines(&errors, text),
        [
            "2:1: load 7 at 1: column 0 of CARD is Int, and the row gives the Text \"a   \"",
            "3:9: found \"in\", expected a value such as 40, \"RIG1\" or @1",
            "4:1: load 7 at 3: no table CODE at site 0 is declared",
            "6:5: load 9 at 4: the next \"p\" (line 5) is its own step",
            "7:12: found the end of the line, expected a thread place 0..255",
        ]
    );
    // A table that breaks the grammar may be the one of the rows.
    let text = "table CARD at site 0\nrow (1) in CARD at site 0\n";
    let errors = assemble_checked(text).err().expect("an error");
    let only = "1:21: found the end of the line, expected column kinds \"(..)\"";
    assert_eq!(lines(&errors, text), [only]);
}

#[test]
fn twenty_are_told() {
    for (count, more) in [(20, ""), (21, "and 1 more\n"), (1000, "and 980 more\n")] {
        let text = "pick 0\n".repeat(count);
        let errors = assemble(&text).err().expect("errors");
        let shown = errors.shown("net", &text);
        assert_eq!(shown.lines().filter(|line| line.starts_with("net:")).count(), 20);
        assert!(shown.ends_with(&format!("^\n{more}")), "{shown}");
    }
}

/// A word of any length is named by its beginning.
#[test]
fn long_words_are_cut() {
    let text = "a".repeat(1000);
    let errors = assemble(&text).err().expect("no statement");
    let shown = errors.shown("net", &text);
    assert!(shown.starts_with(&format!("net:1:1: found \"{}..\", ", "a".repeat(40))), "{shown}");
}
