//! What loads and is hardly meant.

use nettext::{assemble, assemble_checked};

/// The warnings of a text that loads, each by its first line without the file's name.
fn warnings(text: &str) -> Vec<String> {
    let assembled = match assemble_checked(text) {
        Ok(assembled) => assembled,
        Err(errors) => panic!("{}", errors.shown("net", text)),
    };
    let shown = assembled.warnings().shown("net", text);
    let first = shown.lines().filter_map(|line| line.strip_prefix("net:"));
    first.map(str::to_owned).collect()
}

const NONE: [&str; 0] = [];

#[test]
fn tables_that_nobody_declares_or_creates() {
    let text =
        |step: &str| format!("table CARD at site 1 (Int)\nprocess p:\n{step}\nstart p at site 0\n");
    for step in [
        "insert (1) into CRAD @1",
        "insert table T0 into CRAD @1",
        "delete (!x0) from CRAD @1 into T0",
        "select (x0) from CRAD @1 matching (!x0) into T0",
        "update (!x0) in CRAD @1 to (1)",
        "aggregate count over (!x0) in CRAD @1 giving !x1",
        "drop CRAD @1",
    ] {
        let shown = "3:1: warning: no table CRAD is declared or created; did you mean CARD?";
        assert_eq!(warnings(&text(step)), [shown], "{step}");
        assert_eq!(warnings(&text(&step.replace("CRAD", "CARD"))), NONE, "{step}");
    }
    // Each name once, and a table that a process creates is one.
    let twice = text("drop DARK @1\ndrop DARK @2\ncreate NEW @1 (Int)\ndrop NEW @1");
    assert_eq!(warnings(&twice), ["3:1: warning: no table DARK is declared or created"]);
}

#[test]
fn processes_that_nothing_starts_or_leads_to() {
    let text = "table A at site 0 (Int)
process first:
    drop A @self then inner
process second:
    drop A @self
inner:
    foreach (!x0) in T0 do body
process body:
    drop A @self
process alone:
    foreach (!x0) in T0 do only
process only:
    drop A @self
start first at site 0
";
    let alone = "10:1: warning: nothing starts the process \"alone\" or leads to it";
    assert_eq!(warnings(text), [alone]);
    assert_eq!(warnings(&format!("{text}start alone at site 0\n")), NONE);
    assert_eq!(warnings(&format!("{text}start node 4 at site 0\n")), NONE);
    // A step that leads to its own process does not start it.
    let own = "process own:\n    create A @1 (Int) then last\n    drop A @1\nlast: drop A @1\n";
    let shown = "1:1: warning: nothing starts the process \"own\" or leads to it";
    assert_eq!(warnings(own), [shown]);
}

#[test]
fn bodies_that_also_come_next() {
    let text = |looping: &str| {
        format!(
            "table A at site 0 (Int)\nprocess p:\n    {looping}\nbody:\n    drop A @self\n\
             start p at site 0\n"
        )
    };
    let named = "3:5: warning: \"body\" is this loop's body and also what comes after the loop";
    assert_eq!(warnings(&text("foreach (!x0) in T0 do body")), [named]);
    assert_eq!(warnings(&text("foreach parallel (!x0) in T0 do body then body")), [named]);
    let numbered = "3:5: warning: node 1 is this loop's body and also what comes after the loop";
    assert_eq!(warnings(&text("foreach (!x0) in T0 do node 1")), [numbered]);
    assert_eq!(warnings(&text("foreach (!x0) in T0 do body then end")), NONE);
}

#[test]
fn a_text_without_statements() {
    for text in ["", "\n\n", "# only a comment\n", "\u{feff}"] {
        let shown = " warning: the text has no statement, so the net is empty";
        assert_eq!(warnings(text), [shown], "{text:?}");
    }
    assert_eq!(warnings("pick thread 0\n"), NONE);
}

#[test]
fn a_warning_says_what_to_do() {
    let text = "process p:\n    drop A @self\nstart p at site 0\n";
    let shown = "\
p.nettext:2:5: warning: no table A is declared or created
        drop A @self
        ^
what to do: correct the name, declare the table or create it first
";
    let assembled = assemble(text).expect("a text that is well formed");
    assert_eq!(assembled.warnings().shown("p.nettext", text), shown);
}

/// Warnings come in the order of their lines, and only so many.
#[test]
fn many_warnings() {
    let processes = (0..30).map(|number| format!("process p{number}:\n    drop A{number} @1\n"));
    let text: String = processes.collect();
    let assembled = assemble_checked(&text).unwrap_or_else(|_| panic!("a net that loads"));
    let shown = assembled.warnings().shown("net", &text);
    assert!(shown.ends_with("\nand 40 more\n"), "{shown}");
    let lines = warnings(&text);
    let numbers: Vec<usize> =
        lines.iter().filter_map(|line| line.split(':').next()?.parse().ok()).collect();
    assert!(numbers.is_sorted() && numbers.len() == 20, "{lines:?}");
}
