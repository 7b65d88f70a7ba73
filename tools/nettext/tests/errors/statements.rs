//! Statements of each kind, their numbers, texts and labels.

use crate::{fails, step_fails, TUPLE};
use nettext::assemble;

const STATEMENTS: &str = "a statement: alias, table, row, process, insert, delete, select, \
                          update, aggregate, create, drop, foreach, start, pick";
const STEP: &str = "a step after the label: \
                    insert, delete, select, update, aggregate, create, drop, foreach";

#[test]
fn statements() {
    fails("tabel CARD at site 1 (Int)", &format!("1:1: found \"tabel\", expected {STATEMENTS}"));
    fails("\n  7", &format!("2:3: found \"7\", expected {STATEMENTS}"));
    fails("into CARD", &format!("1:1: found \"into\", expected {STATEMENTS}"));
    fails("-- note", &format!("1:1: found \"-\", expected {STATEMENTS}"));
    step_fails("isnert (1) into CARD @1", &format!("1: found \"isnert\", expected {STEP}"));
    fails(
        "process p:\ndrop A @1\nisnert (1) into A @1",
        &format!("3:1: found \"isnert\", expected {STATEMENTS}"),
    );
    fails("pick thread 0 row 0 0", "1:21: found \"0\", expected the end of the line");
    fails(
        "alias @1 at site 0 is site 1 alias @2 at site 0 is site 1",
        "1:30: found \"alias\", expected the end of the line",
    );
}

#[test]
fn aliases() {
    fails("alias 1 at site 0 is site 1", "1:7: found \"1\", expected \"@\"");
    fails("alias @0 at site 0 is site 1", "1:8: found \"0\", expected a locality 1..7");
    fails("alias @self at site 0 is site 1", "1:8: found \"self\", expected a locality 1..7");
    fails("alias @1 site 0 is site 1", "1:10: found \"site\", expected \"at\"");
    fails("alias @1 at 0 is site 1", "1:13: found \"0\", expected \"site\"");
    fails("alias @1 at site 8 is site 1", "1:18: found \"8\", expected a site 0..7");
    fails("alias @1 at site 0", "1:19: found the end of the line, expected \"is\"");
    fails("alias @1 at site 0 is @1", "1:23: found \"@\", expected \"site\"");
}

#[test]
fn tables_and_columns() {
    fails(
        "table at site 1 (Int)",
        "1:7: found \"at\", expected a table's name; \"at\" must stand in quotes",
    );
    fails("table (Int) at site 1", "1:7: found \"(\", expected a table's name");
    fails(
        "table CARDS at site 1 (Int)",
        "1:7: found \"CARDS\", expected a table's name of at most four characters",
    );
    fails("table CARD (Int) at site 1", "1:12: found \"(\", expected \"at\"");
    fails(
        "table CARD at site 1",
        "1:21: found the end of the line, expected column kinds \"(..)\"",
    );
    fails("table CARD at site 1 ()", "1:23: found \")\", expected Int, Text or Loc");
    fails("table CARD at site 1 (int)", "1:23: found \"int\", expected Int, Text or Loc");
    fails("table CARD at site 1 (Int Int)", "1:27: found \"Int\", expected \",\" or \")\"");
    fails(
        "table CARD at site 1 (Int, Int, Int, Int, Int)",
        "1:41: found \",\", expected \")\" after four",
    );
}

#[test]
fn rows() {
    fails("row 1 in CARD at site 0", &format!("1:5: found \"1\", expected {TUPLE}"));
    let value = "a value such as 40, \"RIG1\" or @1";
    fails("row (x0) in CARD at site 0", &format!("1:6: found \"x0\", expected {value}"));
    fails("row (!x0) in CARD at site 0", &format!("1:6: found \"!\", expected {value}"));
    fails("row (1,) in CARD at site 0", &format!("1:8: found \")\", expected {value}"));
    fails("row () in CARD at site 0", &format!("1:6: found \")\", expected {value}"));
    fails("row (1  # and on", "1:7: found the end of the text, expected \",\" or \")\"");
    fails("row (1) at site 0", "1:9: found \"at\", expected \"in\"");
    fails("row (@8) in CARD at site 0", "1:7: found \"8\", expected a locality 0..7 or self");
    fails("row (1, 2, 3, 4, 5) in CARD at site 0", "1:16: found \",\", expected \")\" after four");
    fails("row (1\nrow (2) in CARD at site 0", "2:1: found \"row\", expected \",\" or \")\"");
}

#[test]
fn numbers_of_32_bits() {
    let expected = "an Int of 32 bits";
    fails(
        "row (2147483648) in CARD at site 0",
        &format!("1:6: found \"2147483648\", expected {expected}"),
    );
    fails(
        "row (-2147483649) in CARD at site 0",
        &format!("1:6: found \"-2147483649\", expected {expected}"),
    );
    fails(
        "row (99999999999999999999) in CARD at site 0",
        &format!("1:6: found \"99999999999999999999\", expected {expected}"),
    );
    fails("row (- x) in CARD at site 0", "1:8: found \"x\", expected a number");
    step_fails(
        "insert (x0 - -2147483648) into CARD @1",
        &format!("14: found \"-2147483648\", expected {expected}"),
    );
    step_fails("insert (x0 + x1) into CARD @1", "14: found \"x1\", expected a number");
}

#[test]
fn texts() {
    fails("row (\"RIG1", "1:11: found the end of the line, expected a closing quote");
    fails("row (\"RIG10\")", "1:6: found a text of 5 characters, expected at most four");
    fails("row (\"a\\n\")", "1:8: found \"\\\", expected \\\" or \\\\");
    fails("row (\"é\")", "1:7: found \"é\" in a text, expected a character from blank to ~");
    fails("row (\"\t\")", "1:7: found \"\\t\" in a text, expected a character from blank to ~");
    fails("row ('RIG1')", "1:6: found \"'\", expected a value such as 40, \"RIG1\" or @1");
    fails("row (“RIG1”)", "1:6: found \"“\", expected a value such as 40, \"RIG1\" or @1");
}

#[test]
fn processes_and_labels() {
    fails(
        "drop CARD @1",
        "1:1: found \"drop\", expected \"process\" and a label before the first step",
    );
    fails(
        "process p:\ndrop CARD @1\nstart p at site 0\ndrop CARD @1",
        "4:1: found \"drop\", expected \"process\" and a label before the first step",
    );
    fails(
        "p: drop CARD @1",
        "1:1: found \"p\", expected \"process\" and a label before the first step",
    );
    fails("process:\ndrop CARD @1", "1:8: found \":\", expected a label");
    fails("process end:\ndrop CARD @1", "1:9: found \"end\", expected a label");
    fails("process x1:\ndrop CARD @1", "1:9: found \"x1\", expected a label");
    fails("process p\ndrop CARD @1", "1:10: found the end of the line, expected \":\"");
    fails("process p:\n", &format!("1:11: found the end of the text, expected {STEP}"));
    fails("process p:\nprocess q:", &format!("2:1: found \"process\", expected {STEP}"));
    fails(
        "process p:\ndrop CARD @1\nq:\npick thread 0",
        &format!("4:1: found \"pick\", expected {STEP}"),
    );
    fails(
        "process p:\ndrop CARD @1\np:\ndrop CARD @1",
        "3:1: found \"p\" again, expected a new label: line 1 has this one",
    );
}

#[test]
fn targets() {
    step_fails("drop CARD @1 then q", "19: found \"q\", expected a label of this text");
    step_fails(
        "drop CARD @1 then",
        "18: found the end of the line, expected a label, \"node\" or \"end\"",
    );
    step_fails("drop CARD @1 then 3", "19: found \"3\", expected a label, \"node\" or \"end\"");
    step_fails("drop CARD @1 then node 256", "24: found \"256\", expected a node's number 0..255");
    step_fails("foreach (!x0) in T0 do end", "24: found \"end\", expected the label of the body");
    step_fails("foreach (!x0) in T0 do q", "24: found \"q\", expected a label of this text");
    fails("start q at site 0", "1:7: found \"q\", expected a label of this text");
    fails("start end at site 0", "1:7: found \"end\", expected a label or \"node\"");
    fails("start site 0", "1:7: found \"site\", expected a label or \"node\"");
}

#[test]
fn picks() {
    fails("pick 0 0", "1:6: found \"0\", expected \"thread\"");
    fails("pick thread 256", "1:13: found \"256\", expected a thread place 0..255");
    fails("pick thread -1", "1:13: found \"-\", expected a thread place 0..255");
    fails("pick thread 0 row x0", "1:19: found \"x0\", expected a row place 0..255");
}

/// A next is one byte, and 255 is the end.
#[test]
fn nodes_past_the_byte() {
    let steps = |count: usize| format!("process p:\n{}", "drop CARD @1\n".repeat(count));
    assert!(assemble(&steps(255)).is_ok());
    fails(&steps(256), "256:1: found \"the step below\" as node 255, expected a node below 255");
    let named = format!(
        "{}q: drop CARD @1\nstart q at site 0",
        steps(255).trim_end().to_owned() + " then end\n"
    );
    fails(&named, "258:7: found \"q\" as node 255, expected a node below 255");
}
