//! Every refusal names its case: what in the net its number speaks of.

use crate::telling::parts;

const WORLD: &str = "\
alias @1 at site 0 is site 1
alias @2 at site 0 is site 2
alias @1 at site 3 is site 3
table CARD at site 1 (Text, Int)
table NUMS at site 0 (Int)
table nums at site 2 (Int)
table SITE at site 0 (Loc)
table BIG at site 0 (Int)
table FULL at site 0 (Int)
row (\"RIG1\", 36) in CARD at site 1
row (\"RIG2\", 40) in CARD at site 1
row (@5) in SITE at site 0
row (2147483647) in BIG at site 0
row (1) in BIG at site 0
";

/// What a trace says of the last of these picks, with these processes in the world.
fn last(processes: &str, picks: &[&str]) -> String {
    let rows = "row (0) in FULL at site 0\n".repeat(16);
    let picks: String = picks.iter().map(|pick| format!("pick thread {pick}\n")).collect();
    let parts = parts(&format!("{WORLD}{rows}{processes}\n{picks}"));
    let lines = parts[parts.len() - 3].lines();
    let refused: Vec<&str> = lines.filter_map(|line| line.strip_prefix("    refused: ")).collect();
    assert_eq!(refused.len(), 1, "{}", parts[parts.len() - 3]);
    refused[0].to_owned()
}

/// What a trace says of this step, the first one of the only thread, which is at site 0.
fn step(step: &str) -> String {
    last(&format!("process p:\n    {step}\nstart p at site 0\n"), &["0"])
}

/// The same of the second step, after this one.
fn second(first: &str, step: &str) -> String {
    last(&format!("process p:\n    {first}\n    {step}\nstart p at site 0\n"), &["0", "0"])
}

#[test]
fn which_threads_there_are() {
    let drop = "process p:\n    drop CARD @1\n";
    assert_eq!(
        last(&format!("{drop}start p at site 0\nstart p at site 3\n"), &["2"]),
        "11, no thread has place 2: there are threads 0 (A), 1 (B)"
    );
    assert_eq!(
        last(&format!("{drop}start p at site 0\n"), &["9"]),
        "11, no thread has place 9: there is thread 0 (A) alone"
    );
    assert_eq!(
        last(&format!("{drop}start p at site 0\n"), &["0", "0"]),
        "11, no thread has place 0: none stands"
    );
}

#[test]
fn which_variable_is_unbound() {
    for (text, unbound) in [
        (
            "insert (x3 + 1, x4, x3) into CARD @1",
            "x3, read in the tuple, is unbound; x4, read in the tuple, is unbound",
        ),
        ("drop CARD @x4", "x4, read in the locality, is unbound"),
        (
            "delete (x1, !x2) from CARD @1 where x2 < x5 into T0",
            "x1, read in the template, is unbound; x5, read in the predicate, is unbound",
        ),
        (
            "aggregate count over (!x0, !x1) in CARD @1 giving x0",
            "x0, read after giving, is unbound",
        ),
        ("insert table T1 into CARD @1", "T1 is unbound"),
        ("foreach (!x0) in T0 do node 1\n    drop CARD @1", "T0 is unbound"),
        ("select (x0) from T1 matching (!x0) into T0", "T1 is unbound"),
    ] {
        assert_eq!(step(text), format!("12, {unbound}"));
    }
}

#[test]
fn which_locality_has_no_alias() {
    let known = "which knows @1 as site 1, @2 as site 2";
    assert_eq!(step("drop CARD @7"), format!("13, @7 has no alias at site 0, {known}"));
    let text = "process p:\n    drop CARD @2\nstart p at site 5\n";
    assert_eq!(last(text, &["0"]), "13, @2 has no alias at site 5, which knows no other site");
    let text = "process p:\n    select (x0) from SITE @self matching (!x0) into T0\n    \
                foreach (!x1) in T0 do q\nprocess q:\n    drop CARD @x1\nstart p at site 0\n";
    assert_eq!(
        last(text, &["0", "0", "0"]),
        format!("13, @x1, which is @5, has no alias at site 0, {known}")
    );
    let count = "aggregate count over (!x0) in NUMS @self giving !x1";
    assert_eq!(second(count, "drop CARD @x1"), "13, x1 is 0, an Int and no Loc");
}

#[test]
fn which_table_is_not_there() {
    assert_eq!(
        step("drop CARD @self"),
        "14, @self is site 0, which has no table CARD; CARD is at site 1"
    );
    assert_eq!(
        step("drop NUMS @1"),
        "14, @1 is site 1, which has no table NUMS; NUMS is at site 0, nums is at site 2"
    );
    assert_eq!(step("drop NONE @2"), "14, @2 is site 2, which has no table NONE; no site has one");
}

#[test]
fn which_table_is_there() {
    assert_eq!(
        step("create CARD @1 (Int)"),
        "15, @1 is site 1, which has CARD already, with 2 rows of (Text, Int)"
    );
}

#[test]
fn what_does_not_fit() {
    let select = "select (x0) from CARD @1 matching (!x0, !x1) into T0";
    for (text, misfit) in [
        (
            "insert (1) into CARD @1",
            "no row for CARD at site 1: the tuple has 1 value for the columns (Text, Int)",
        ),
        (
            "insert (\"A\") into NUMS @self",
            "no row for NUMS at site 0: column 0 is an Int, and there the tuple has \"A   \"",
        ),
        (
            "delete (!x0) from CARD @1 into T0",
            "the template has 1 field, and CARD at site 1 has the columns (Text, Int)",
        ),
        (
            "aggregate sum of column 0 over (!x0, !x1) in CARD @1 giving !x2",
            "column 0 of CARD at site 1 is a Text, not an Int: the columns are (Text, Int)",
        ),
        (
            "aggregate least of column 2 over (!x0, !x1) in CARD @1 giving !x2",
            "column 2 of CARD at site 1 is absent: the columns are (Text, Int)",
        ),
    ] {
        assert_eq!(step(text), format!("16, {misfit}"));
    }
    assert_eq!(
        second(select, "insert table T0 into CARD @1"),
        "16, T0 has the columns (Text), and CARD at site 1 (Text, Int)"
    );
    assert_eq!(
        second(select, "foreach (!x0, !x1) in T0 do node 2\n    drop CARD @1"),
        "16, the template has 2 fields, and T0 has the columns (Text)"
    );
    let largest = "aggregate largest of column 0 over (!x0) in BIG @self giving !x1";
    assert_eq!(
        second(largest, "insert (x1 + 1) into NUMS @self"),
        "16, no row for NUMS at site 0: x1 + 1 is outside 32 bits"
    );
    assert_eq!(
        second(largest, "insert (\"A\", x1 + 1, 3) into CARD @1"),
        "16, no row for CARD at site 1: the tuple has 3 values for the columns (Text, Int)"
    );
    assert_eq!(
        second(largest, "insert (x1, 1) into CARD @1"),
        "16, no row for CARD at site 1: column 0 is a Text, and there the tuple has x1, which \
         is 2147483647"
    );
}

#[test]
fn which_loop_holds_a_table_variable() {
    let text = "process p:\n    select (x0) from CARD @1 matching (!x0, !x1) into T0\n    \
                foreach (!x0) in T0 do q\nprocess q:\n    \
                delete (!x0, !x1) from CARD @1 into T0\nstart p at site 0\n";
    let line = WORLD.lines().count() + 16 + 3;
    assert_eq!(
        last(text, &["0", "0 row 1", "0"]),
        format!("17, T0 is held by the loop at line {line} of p with row 0 still to visit")
    );
}

#[test]
fn what_an_aggregate_met() {
    for (text, met) in [
        (
            "aggregate least of column 1 over (\"none\", !x1) in CARD @1 giving !x2",
            "no row of CARD at site 1 matches, so there is no least",
        ),
        (
            "aggregate sum of column 0 over (!x0) in BIG @self giving !x2",
            "the sum over 2 rows of BIG at site 0 is 2147483648, outside 32 bits",
        ),
        (
            "aggregate count over (!x0, !x1) in CARD @1 giving 3",
            "the count over 2 rows of CARD at site 1 is 2, and giving asks for 3",
        ),
    ] {
        assert_eq!(step(text), format!("18, {met}"));
    }
    let largest = "aggregate largest of column 0 over (!x0) in BIG @self giving !x1";
    assert_eq!(
        second(largest, "aggregate largest of column 1 over (!x0, !x2) in CARD @1 giving x1 - 1"),
        "18, the largest over 2 rows of CARD at site 1 is 40, and giving asks for x1 - 1, which \
         is 2147483646"
    );
    assert_eq!(
        second(largest, "aggregate count over (!x0, !x2) in CARD @1 giving x1 + 1"),
        "18, the count over 2 rows of CARD at site 1 is 2, and giving has no value: x1 + 1 is outside \
         32 bits"
    );
}

#[test]
fn which_row_places_would_do() {
    let text = "process p:\n    select (x0, x1) from CARD @1 matching (!x0, !x1) into T0\n    \
                foreach (!x2, TEMPLATE) in T0 do q\nprocess q:\n    \
                insert (x0) into CARD @1\nstart p at site 0\n";
    let any = text.replace("TEMPLATE", "!x3");
    assert_eq!(last(&any, &["0", "0 row 2"]), "19, T0 has no row 2; rows 0, 1 would do");
    let round = text.replace("TEMPLATE", "!x3").replace("insert (x0)", "insert (x2, x3)");
    assert_eq!(
        last(&round, &["0", "0 row 1", "0", "0 row 1"]),
        "19, row 1 of T0 has had its round; row 0 would do"
    );
    let one = text.replace("TEMPLATE", "40");
    assert_eq!(
        last(&one, &["0", "0 row 0"]),
        "19, row 0 of T0 does not match (not 36 = 40); row 1 would do"
    );
}

#[test]
fn which_limit_was_met() {
    assert_eq!(
        step("insert (1) into FULL @self"),
        "20, FULL at site 0 has 16 rows, and this is one more; 16 are the most"
    );
    let select = "select (x0) from BIG @self matching (!x0) into T0";
    assert_eq!(
        second(select, "insert table T0 into FULL @self"),
        "20, FULL at site 0 has 16 rows, and T0 has 2 more; 16 are the most"
    );
    let creates = "create A @self (Int)\n    create B @self (Int)\n    create C @self (Int)\n";
    assert_eq!(
        last(&format!("process p:\n    {creates}start p at site 0\n"), &["0", "0", "0"]),
        "20, 8 tables stand, which are the most"
    );
    let text = format!("process p:\n    {select}\n    foreach parallel (!x0) in T0 do q\n");
    let text = text
        + "process q:\n    drop CARD @1\nstart p at site 0\n"
        + &"start q at site 0\n".repeat(7);
    assert_eq!(last(&text, &["0", "0"]), "20, 8 threads stand, which are the most");
}

#[test]
fn a_full_stack() {
    let mut text = "process p:\n    select (x0) from BIG @self matching (!x0) into T0\n".to_owned();
    for loops in 0..8 {
        text += &format!("    foreach (!x0) in T0 do q{loops}\nprocess q{loops}:\n");
    }
    text += "    drop CARD @1\nstart p at site 0\n";
    assert_eq!(
        last(&text, &["0"; 9]),
        "20, 8 entries are on the thread's stack, which are the most"
    );
}
