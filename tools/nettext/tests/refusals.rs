//! Texts that are well formed, of nets that loading refuses: the line at fault is named, and what
//! is wrong is told in the words of the text.

use engine::load;
use nettext::{assemble, Error};

/// What loading refuses of the text's net.
fn refusals(text: &str) -> Vec<Error> {
    let assembled = assemble(text).expect("a text that is well formed");
    let errors = assembled.check().expect_err("a net that is refused").told().to_vec();
    let fault = load(&assembled.file).expect_err("a net that is refused");
    let first = format!("load {} at {}: ", fault.number, fault.place);
    assert!(errors[0].message.starts_with(&first), "{first} and not {}", errors[0].message);
    errors
}

/// Loading refuses the text's net at this line alone, with these words.
fn refused(text: &str, line: usize, message: &str, to_do: &str) {
    let errors = refusals(text);
    let place = errors[0].place.expect("a place");
    assert_eq!((place.line, place.column), (line, 1), "{}", errors[0].message);
    assert_eq!(errors[0].message, message);
    assert_eq!(errors[0].advice, format!("what to do: {to_do}\n"));
    assert_eq!(errors.len(), 1, "{errors:?}");
}

fn loads(text: &str) -> bool {
    assemble(text).is_ok_and(|assembled| assembled.check().is_ok())
}

#[test]
fn too_many_records() {
    let text = "pick thread 0\n".repeat(259);
    let wrong = "load 2 at 256: this is statement 257, and a net has at most 256";
    let to_do = "split the text, which has 259: fewer rows or picks in one file";
    refused(&text, 257, wrong, to_do);
    assert!(loads(&text[3 * 14..]));
}

const ORDER: &str = "a text has aliases, tables, rows, processes, starts, picks, in this order";

#[test]
fn groups_out_of_order() {
    let text = "# tables first\ntable CARD at site 0 (Int)\n\nalias @1 at site 0 is site 1\n";
    let to_do = format!("move it above line 2; {ORDER}");
    refused(text, 4, "load 5 at 1: an alias stands below a table (line 2)", &to_do);
    let text = "process p:\ndrop CARD @1\nstart p at site 0\nprocess q:\ndrop CARD @1\n";
    let to_do = format!("move it above line 3; {ORDER}");
    refused(text, 5, "load 5 at 2: a step stands below a start (line 3)", &to_do);
    // The line named is the first that must come after.
    let text = "alias @1 at site 0 is site 1\npick thread 0\npick thread 0\nrow (1) in A at site 0";
    let to_do = format!("move it above line 2; {ORDER}");
    refused(text, 4, "load 5 at 3: a row stands below a pick (line 2)", &to_do);
}

#[test]
fn repeated() {
    let text = "alias @1 at site 0 is site 1\nalias @1 at site 0 is site 2\n";
    let to_do = "remove one of the two, or take another locality";
    refused(text, 2, "load 6 at 1: alias @1 at site 0 came before, in line 1", to_do);
    let text = "table CARD at site 0 (Int)\ntable card at site 0 (Int)\ntable CARD at site 0 (Loc)";
    let to_do = "remove one of the two, or rename it";
    refused(text, 3, "load 6 at 2: table CARD at site 0 came before, in line 1", to_do);
}

fn with_table(row: &str) -> String {
    format!("table CARD at site 0 (Int, Text)\nrow {row}\n")
}

#[test]
fn rows_that_do_not_fit() {
    let kinds = "give values of (Int, Text), as line 1 declares; columns count from 0";
    let count = "give it values of (Int, Text), as line 1 declares";
    for (row, wrong, to_do) in [
        ("(1, 2)", "column 1 of CARD is Text, and the row gives the Int 2", kinds),
        (
            "(@self, @3)",
            "column 0 of CARD is Int, and the row gives the Loc @0; \
             column 1 of CARD is Text, and the row gives the Loc @3",
            kinds,
        ),
        ("(1)", "CARD has 2 columns, and the row 1 value", count),
        ("(1, \"a\", 2)", "CARD has 2 columns, and the row 3 values", count),
    ] {
        let text = with_table(&format!("{row} in CARD at site 0"));
        refused(&text, 2, &format!("load 7 at 1: {wrong}"), to_do);
    }
    assert!(loads(&with_table("(1, \"a\") in CARD at site 0")));
}

#[test]
fn rows_whose_table_is_not_there() {
    let declare = |table: &str| {
        format!("correct name or site, or declare it above the rows: {table} (Int, Loc)")
    };
    for (named, wrong) in [
        ("CRAD at site 0", "no table CRAD at site 0 is declared; did you mean CARD?"),
        ("card at site 0", "no table card at site 0 is declared; did you mean CARD?"),
        ("CARD at site 3", "no table CARD at site 3 is declared; there is one at site 0 (line 1)"),
        ("DARK at site 0", "no table DARK at site 0 is declared"),
        ("CRAD at site 1", "no table CRAD at site 1 is declared"),
    ] {
        let text = with_table(&format!("(1, @1) in {named}"));
        let to_do = declare(&format!("table {named}"));
        refused(&text, 2, &format!("load 7 at 1: {wrong}"), &to_do);
    }
    let text = "row (1) in CARD at site 0\ntable CARD at site 0 (Int)\n";
    let errors = refusals(text);
    let below = "load 7 at 0: table CARD at site 0 stands below its row, in line 2";
    assert_eq!(errors[0].message, below);
    assert_eq!(errors[0].advice, "what to do: put the tables above all rows\n");
    assert_eq!(errors[1].message, "load 5 at 1: a table stands below a row (line 1)");
    assert_eq!(errors.len(), 2);
}

/// A limit is told once, however far it is passed.
#[test]
fn limits() {
    let rows = format!("table CARD at site 0 (Int)\n{}", "row (1) in CARD at site 0\n".repeat(19));
    let wrong = "this is row 17 of table CARD at site 0, and a table has at most 16";
    refused(&rows, 18, &format!("load 8 at 17: {wrong}"), "spread the rows over several tables");
    let nodes = format!("process p:\n{}", "drop CARD @1\n".repeat(131));
    let wrong = "this is step 129, and a net has at most 128";
    let to_do = "shorten the processes; starts, loops and nexts may share one by its label";
    refused(&nodes, 130, &format!("load 8 at 128: {wrong}"), to_do);
    let tables: String =
        (0..10).map(|name| format!("table \"{name}\" at site 0 (Int)\n")).collect();
    let wrong = "this is table 9, and a net has at most 8";
    let to_do = "put rows of the same columns into one table, or leave a table out";
    refused(&tables, 9, &format!("load 8 at 8: {wrong}"), to_do);
    let starts = "process p:\ndrop CARD @1\n".to_owned() + &"start p at site 0\n".repeat(10);
    let wrong = "this is start 9, and a net has at most 8 threads";
    let to_do = "start fewer processes; a parallel loop forks threads as it goes";
    refused(&starts, 11, &format!("load 8 at 9: {wrong}"), to_do);
}

/// What to do about a next, after the part on the step that is named.
const NEXT: &str = "or end with \"then end\"; only bodies of loops run again";

/// A statement of several lines is named by its first.
#[test]
fn nexts_that_stand_above() {
    let back = "process p:\ndrop CARD @1\ndrop CARD @1\n  then p\n";
    let wrong = "load 9 at 1: the next \"p\" (line 1) stands above its own step";
    let to_do = format!("name a step below line 3, {NEXT}");
    refused(back, 3, wrong, &to_do);
    let back = back.replace("then p", "then node 0");
    refused(&back, 3, "load 9 at 1: the next node 0 stands above its own step", &to_do);
    let itself = "process p:\nagain:\ndrop CARD @1 then again\n";
    refused(itself, 3, "load 9 at 0: the next \"again\" (line 2) is its own step", &to_do);
    let other = "process last:\ndrop CARD @1\nprocess p:\ndrop CARD @1 then last\n";
    let wrong = "load 9 at 1: the next \"last\" (line 1) stands above its own step";
    refused(other, 4, wrong, &format!("move the process below line 4, {NEXT}"));
}

#[test]
fn bodies_that_stand_above() {
    let above = "process raise:\ndrop A @1\nprocess p:\nforeach (!x0) in T0 do raise\n";
    let wrong = "load 9 at 1: the body \"raise\" (line 1) stands above its loop";
    refused(above, 4, wrong, "move the process below line 4");
    let own_body = "process p:\nforeach (!x0) in T0 do p\n";
    let wrong = "load 9 at 0: the body \"p\" (line 1) is its loop itself";
    refused(own_body, 2, wrong, "name a step below line 2");
    assert!(loads("process p:\np2: drop CARD @1\n"));
}

#[test]
fn targets_that_are_not_there() {
    let to_do = "name a step by its label; numbers count from 0 through all processes";
    let wrong = "load 9 at 0: what is started, node 0 is not there: there are no steps";
    refused("start node 0 at site 0\n", 1, wrong, to_do);
    let end = "process p:\nforeach (!x0) in T0 do node 255\n";
    let wrong = "load 9 at 0: the body node 255 is not there: the last step is node 0";
    refused(end, 2, wrong, to_do);
    let far = "process p:\ndrop A @1\ndrop A @1 then node 2\n";
    let wrong = "load 9 at 1: the next node 2 is not there: the last step is node 1";
    refused(far, 3, wrong, to_do);
    assert!(loads("process p:\ndrop A @1 then node 255\n"));
}

/// All that loading would find, one after the other, in its order.
#[test]
fn all_at_once() {
    let text = "\
table CARD at site 0 (Int)
row (\"a\") in CARD at site 0
alias @1 at site 0 is site 1
process p:
    foreach (!x0) in T0 do p then p
row (1, 2) in CARD at site 0
start node 9 at site 0
";
    let told: Vec<String> =
        refusals(text).iter().map(|error| error.message[..11].to_owned()).collect();
    let numbers = ["load 7 at 1", "load 5 at 2", "load 5 at 4", "load 9 at 3", "load 9 at 3"];
    assert_eq!(told, [&numbers[..], &["load 9 at 5"]].concat());
}
