//! The steps of processes.

use crate::{step_fails, TUPLE};

const TEMPLATE: &str = "a template \"(..)\"";

#[test]
fn inserts() {
    step_fails("insert into CARD @1", &format!("8: found \"into\", expected {TUPLE}"));
    step_fails("insert (1) CARD @1", "12: found \"CARD\", expected \"into\"");
    step_fails(
        "insert (1) into CARD",
        "21: found the end of the line, expected a locality such as @1",
    );
    step_fails("insert (1) into CARD 1", "22: found \"1\", expected a locality such as @1");
    step_fails(
        "insert (1) into CARD @8",
        "23: found \"8\", expected a locality 0..7, self or a variable",
    );
    step_fails("insert (1) into CARD @x16", "23: found \"x16\", expected a variable x0..x15");
    step_fails(
        "insert (!x0) into CARD @1",
        "9: found \"!\", expected a value, a variable or a sum, no formal",
    );
    step_fails("insert (x16) into CARD @1", "9: found \"x16\", expected a variable x0..x15");
    step_fails("insert (@x1) into CARD @1", "10: found \"x1\", expected a locality 0..7 or self");
    step_fails(
        "insert table T2 into CARD @1",
        "14: found \"T2\", expected a table variable T0 or T1",
    );
    step_fails(
        "insert table CARD into CARD @1",
        "14: found \"CARD\", expected a table variable T0 or T1",
    );
    step_fails(
        "insert (1) into T1 @1",
        "17: found \"T1\", expected a table's name; \"T1\" must stand in quotes",
    );
}

#[test]
fn deletes_and_updates() {
    step_fails("delete from CARD @1 into T0", &format!("8: found \"from\", expected {TEMPLATE}"));
    step_fails("delete (!x0) in CARD @1 into T0", "14: found \"in\", expected \"from\"");
    step_fails("delete (!x0) from CARD @1", "26: found the end of the line, expected \"into\"");
    step_fails(
        "delete (!x0, 1, !x0) from CARD @1 into T0",
        "17: found \"!x0\" again, expected another formal",
    );
    step_fails("delete (!3) from CARD @1 into T0", "10: found \"3\", expected a variable x0..x15");
    step_fails(
        "delete (y) from CARD @1 into T0",
        "9: found \"y\", expected a value, a variable, a sum or a formal",
    );
    step_fails("update (!x0) in CARD @1 (x0)", "25: found \"(\", expected \"to\"");
    step_fails(
        "update (!x0) in CARD @1 to (!x0)",
        "29: found \"!\", expected a value, a variable or a sum, no formal",
    );
}

#[test]
fn selects() {
    step_fails("select (x0) matching (!x0) into T0", "13: found \"matching\", expected \"from\"");
    step_fails(
        "select (x0 + 1) from CARD @1 matching (!x0) into T0",
        "12: found \"+\", expected \",\" or \")\": a select stores no sums",
    );
    step_fails(
        "select (!x0) from CARD @1 matching (!x0) into T0",
        "9: found \"!\", expected a value or a variable, no sum and no formal",
    );
    step_fails("select (x0) from CARD @1 into T0", "26: found \"into\", expected \"matching\"");
    step_fails(
        "select (x0) from T0 @1 matching (!x0) into T0",
        "21: found \"@\", expected \"matching\"",
    );
    step_fails(
        "select (x0) from T2 matching (!x0) into T0",
        "18: found \"T2\", expected a table variable T0 or T1",
    );
    step_fails(
        "select (x0) from T0 matching (!x0) into CARD",
        "41: found \"CARD\", expected a table variable T0 or T1",
    );
}

#[test]
fn predicates() {
    let delete = |predicate: &str| format!("delete (!x0) from CARD @1 where {predicate} into T0");
    step_fails(&delete(""), "34: found \"into\", expected a value, a variable or a sum, no formal");
    step_fails(&delete("x0"), "36: found \"into\", expected a sign =, !=, <, <=, > or >=");
    step_fails(
        &delete("x0 <"),
        "38: found \"into\", expected a value, a variable or a sum, no formal",
    );
    step_fails(
        &delete("!x0 < 3"),
        "33: found \"!\", expected a value, a variable or a sum, no formal",
    );
    step_fails(&delete("x0 < 3 < 4"), "40: found \"<\", expected \"into\"");
}

#[test]
fn aggregates_creates_and_drops() {
    step_fails(
        "aggregate (!x0) in CARD @1 giving !x1",
        "11: found \"(\", expected count, sum, least or largest",
    );
    step_fails(
        "aggregate sum over (!x0) in CARD @1 giving !x1",
        "15: found \"over\", expected \"of\"",
    );
    step_fails(
        "aggregate sum of column 4 over (!x0) in CARD @1 giving !x1",
        "25: found \"4\", expected a column 0..3",
    );
    step_fails(
        "aggregate count of column 0 over (!x0) in CARD @1 giving !x1",
        "17: found \"of\", expected \"over\"",
    );
    step_fails(
        "aggregate count over (!x0) in CARD @1",
        "38: found the end of the line, expected \"giving\"",
    );
    step_fails(
        "aggregate count over (!x0) in CARD @1 giving (!x1)",
        "46: found \"(\", expected a value, a variable, a sum or a formal",
    );
    step_fails("create CARD (Int) @1", "13: found \"(\", expected a locality such as @1");
    step_fails("create CARD @1", "15: found the end of the line, expected column kinds \"(..)\"");
    step_fails("drop", "5: found the end of the line, expected a table's name");
}

#[test]
fn loops() {
    step_fails("foreach T0 do p", &format!("9: found \"T0\", expected {TEMPLATE}"));
    step_fails("foreach parallel T0 do p", &format!("18: found \"T0\", expected {TEMPLATE}"));
    step_fails(
        "foreach (!x0) in CARD do p",
        "18: found \"CARD\", expected a table variable T0 or T1",
    );
    step_fails("foreach (!x0) in T0", "20: found the end of the line, expected \"do\"");
    step_fails("foreach (!x0) in T0 where x0 < 1 do p", "21: found \"where\", expected \"do\"");
}
