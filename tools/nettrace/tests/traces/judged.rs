//! What each row was judged against, and why an update changes nothing.

use crate::telling::parts;

/// The part of the one pick of a net with a table of readings and this step.
fn step(step: &str) -> String {
    let text = format!(
        "alias @1 at site 0 is site 1\ntable CARD at site 1 (Text, Int)\n\
         row (\"RIG1\", 36) in CARD at site 1\nrow (\"rig2\", 2147483647) in CARD at site 1\n\
         row (\"RIG1\", 40) in CARD at site 1\n\
         process p:\n    {step}\n    drop CARD @1\nstart p at site 0\npick thread 0\n"
    );
    let part = parts(&text).swap_remove(1);
    let (_, outcome) = part.split_once("\n    done: ").unwrap_or_else(|| panic!("{part}"));
    let (outcome, _) = outcome.split_once("\n    thread 0 (A) goes on").expect("the thread");
    outcome.to_owned()
}

#[test]
fn an_update_judges_every_row_as_it_stood() {
    let told = "2 rows added, 2 taken
    table CARD at site 1
        - (\"RIG1\", 36)            \"RIG1\" = \"rig1\", 36 <= 40
        + (\"RIG1\", 38)
          (\"rig2\", 2147483647)    not \"rig2\" = \"rig1\"
        - (\"RIG1\", 40)            \"RIG1\" = \"rig1\", 40 <= 40
        + (\"RIG1\", 42)";
    assert_eq!(
        step("update (\"rig1\", !x1) in CARD @1 where x1 <= 40 to (\"RIG1\", x1 + 2)"),
        told
    );
}

#[test]
fn an_update_of_no_row_says_that_none_matched() {
    let told = "0 rows added, 0 taken; no row matched
    table CARD at site 1
          (\"RIG1\", 36)            not 36 < 30
          (\"rig2\", 2147483647)    not 2147483647 < 30
          (\"RIG1\", 40)            not 40 < 30";
    assert_eq!(step("update (!x0, !x1) in CARD @1 where x1 < 30 to (x0, x1 + 2)"), told);
}

#[test]
fn an_update_to_rows_that_do_not_fit_says_so() {
    let told = "0 rows added, 0 taken; 1 row matched, but no new row fits
    table CARD at site 1
          (\"RIG1\", 36)            not 40 < 36
          (\"rig2\", 2147483647)    40 < 2147483647, stays: x1 + 1 is outside 32 bits
          (\"RIG1\", 40)            not 40 < 40";
    assert_eq!(step("update (!x0, !x1) in CARD @1 where x1 > 40 to (x0, x1 + 1)"), told);
    for (tuple, why) in [
        ("(x0)", "the tuple has 1 value for the columns (Text, Int)"),
        ("(x1, x1)", "column 0 is a Text, and there the tuple has x1, which is 36"),
        ("(x0, @1)", "column 1 is an Int, and there the tuple has @1"),
        ("(x0, x0 + 1)", "x0 is \"RIG1\", no Int"),
    ] {
        let told = step(&format!("update (!x0, !x1) in CARD @1 to {tuple}"));
        assert!(told.starts_with("0 rows added, 0 taken; 3 rows matched, but no new row fits\n"));
        let line = format!("          (\"RIG1\", 36)            stays: {why}\n");
        assert!(told.contains(&line), "{told}");
    }
}

/// A row that is rewritten to the same is shown as the answer counts it.
#[test]
fn rows_rewritten_to_the_same() {
    let told = "1 row added, 1 taken
    table CARD at site 1
        - (\"RIG1\", 36)            36 = 36
        + (\"RIG1\", 36)
          (\"rig2\", 2147483647)    not 2147483647 = 36
          (\"RIG1\", 40)            not 40 = 36";
    assert_eq!(step("update (!x0, 36) in CARD @1 to (x0, 36)"), told);
}

#[test]
fn a_delete_shows_what_it_took() {
    let told = "0 rows added, 2 taken
    table CARD at site 1
        - (\"RIG1\", 36)            \"RIG1\" = \"RIG1\"
          (\"rig2\", 2147483647)    not \"rig2\" = \"RIG1\"
        - (\"RIG1\", 40)            \"RIG1\" = \"RIG1\"
    T0 = 2 rows:
        0: (\"RIG1\", 36)
        1: (\"RIG1\", 40)";
    assert_eq!(step("delete (\"RIG1\", !x1) from CARD @1 into T0"), told);
    assert!(step("delete (\"NONE\", !x1) from CARD @1 into T0").contains("taken; no row matched\n"));
}

#[test]
fn selects_and_aggregates_show_what_they_read() {
    let told = "0 rows added, 0 taken
    rows of CARD at site 1
          (\"RIG1\", 36)            not 36 != 36
        * (\"rig2\", 2147483647)    2147483647 != 36
        * (\"RIG1\", 40)            40 != 36
    x2 = 2";
    assert_eq!(step("aggregate count over (!x0, !x1) in CARD @1 where x1 != 36 giving !x2"), told);
    let told = step("select (x1) from CARD @1 matching (!x0, !x1) where x1 < \"A\" into T1");
    let rows = "rows of CARD at site 1\n          (\"RIG1\", 36)            not 36 < \"A   \"\n";
    assert!(told.contains(rows) && told.ends_with("\n    T1 = no rows of (Int)"), "{told}");
}

#[test]
fn a_table_without_rows_has_none_to_judge() {
    let empty = |step: &str| {
        let text = format!(
            "table CARD at site 0 (Int)\nprocess p:\n    {step}\nstart p at site 0\npick thread 0\n"
        );
        parts(&text).swap_remove(1)
    };
    let told = empty("update (1) in CARD @self to (2)");
    let none = "done: 0 rows added, 0 taken; no row matched\n    CARD at site 0 has no rows\n";
    assert!(told.contains(none), "{told}");
    let told = empty("select (x0) from CARD @self matching (!x0) into T0");
    let none = "done: 0 rows added, 0 taken\n    CARD at site 0 has no rows\n";
    assert!(told.contains(none), "{told}");
}

/// Where every row is meant, none is judged.
#[test]
fn a_step_that_reads_every_row_lists_none() {
    let told = step("aggregate count over (!x0, !x1) in CARD @1 giving !x2");
    assert_eq!(told, "0 rows added, 0 taken\n    x2 = 3");
}
