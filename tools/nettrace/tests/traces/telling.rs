//! What is told of a run: the nets before and after it, and each pick with its thread and step.

use crate::double::{stand_in, told, traced};
use embed::Pick;
use generate::{file, Class};
use nettrace::Source;
use std::collections::BTreeSet;

/// The parts of a trace, each from its heading to the blank line.
pub fn parts(text: &str) -> Vec<String> {
    let told = traced(text).unwrap_or_else(|report| panic!("{report}"));
    told.split("\n\n").map(str::to_owned).collect()
}

const LOOP: &str = "\
table CARD at site 0 (Int)
row (7) in CARD at site 0
row (8) in CARD at site 0
process visit:
    select (x0) from CARD @self matching (!x0) into T0
    foreach (!x1) in T0 do round
process round:
    insert (x1) into CARD @self
    again: drop CARD @self
start visit at site 0
pick thread 0
pick thread 0 row 1
pick thread 0
pick thread 0
pick thread 0 row 0
";

/// A loop over many rows is told in a short line.
#[test]
fn many_rows_to_visit_are_told_as_runs() {
    let rows: String = (0..16).map(|row| format!("row ({row}) in CARD at site 0\n")).collect();
    let text = LOOP.replace("row (7) in CARD at site 0\nrow (8) in CARD at site 0\n", &rows);
    let parts = parts(&text.replace("row 1\n", "row 5\n"));
    let within =
        "line 22 of round, within line 20 of visit with rows 0 to 4, 6 to 15 still to visit";
    assert!(parts[2].ends_with(within), "{}", parts[2]);
}

#[test]
fn loops_tell_their_rounds_and_the_stack() {
    let parts = parts(LOOP);
    let opened = "pick 1: thread 0 (A) at site 0: line 6 of visit
    foreach (!x1) in T0 do round
    done: 0 rows added, 0 taken
    a round with row 1 of T0: (8)
    x1 = 8
    thread 0 (A) goes on: line 8 of round, within line 6 of visit with row 0 still to visit";
    assert_eq!(parts[2], opened);
    let again = "pick 4: thread 0 (A) at site 0: line 6 of visit with row 0 still to visit
    foreach (!x1) in T0 do round
    done: 0 rows added, 0 taken
    a round with row 0 of T0: (7)
    x1 = 7
    thread 0 (A) goes on: line 8 of round, within line 6 of visit with no row left to visit";
    assert_eq!(parts[5], again);
}

#[test]
fn a_dropped_table_goes_with_its_rows() {
    let dropped = "pick 3: thread 0 (A) at site 0: line 9 of round (again), \
                   within line 6 of visit with row 0 still to visit
    drop CARD @self
    done: 0 rows added, 3 taken
    - table CARD at site 0 (Int)
        - (7)
        - (8)
        - (8)
    the round ends: x1 is unbound again
    thread 0 (A) goes on: line 6 of visit with row 0 still to visit";
    assert_eq!(parts(LOOP)[4], dropped);
}

#[test]
fn a_loop_that_is_over_says_why() {
    let text = "table CARD at site 0 (Int)\nrow (7) in CARD at site 0\nprocess p:\n\
                select (x0) from CARD @self matching (!x0) into T0\nforeach (8) in T0 do q\n\
                process q:\ndrop CARD @self\nstart p at site 0\npick thread 0\npick thread 0\n";
    let over = "pick 1: thread 0 (A) at site 0: line 5 of p
    foreach (8) in T0 do q
    done: 0 rows added, 0 taken
    no round: of row 0 to visit none matches
    thread 0 (A) ends";
    assert_eq!(parts(text)[2], over);
    let text = text.replace("row (7) in CARD at site 0\n", "");
    assert!(parts(&text)[2].contains("\n    no round: no row is left to visit\n"));
}

/// A fork has a name of its own, and every thread keeps its name when places close up.
#[test]
fn threads_keep_their_names() {
    let text = "table CARD at site 0 (Int)\nrow (7) in CARD at site 0\nprocess p:\n\
                select (x0) from CARD @self matching (!x0) into T0\n\
                foreach parallel (!x1) in T0 do q\nprocess q:\ninsert (x1) into CARD @self\n\
                start p at site 0\nstart q at site 0\n\
                pick thread 0\npick thread 0\npick thread 0\npick thread 1\npick thread 1\n";
    let parts = parts(text);
    let forked = "    thread 2 (A.1) is new, a fork of thread 0 (A): line 7 of q\n        x1 = 7\n";
    assert!(parts[2].contains(forked), "{}", parts[2]);
    let ends = "thread 0 (A) ends; now thread 0 is B, thread 1 is A.1";
    assert!(parts[3].ends_with(ends), "{}", parts[3]);
    assert!(
        parts[4].starts_with("pick 3: thread 1 (A.1) at site 0: line 7 of q\n"),
        "{}",
        parts[4]
    );
    let last = "pick 4: thread 1, which is not there
    refused: 11, no thread has place 1: there is thread 0 (B) alone";
    assert!(parts[5].starts_with(last), "{}", parts[5]);
}

/// A step stands as its text has it, over several lines and with comments left out.
#[test]
fn steps_as_they_are_written() {
    let text = "table CARD at site 0 (Text,Int)\nprocess p:\n  insert ( \"A\" , # short\n  1 )\n\
                into \"CARD\" @0 # the site itself\n  then end\nstart p at site 0\npick thread 0\n";
    let told = "pick 0: thread 0 (A) at site 0: line 3 of p
    insert ( \"A\" , 1 ) into \"CARD\" @0 then end
    done: 1 row added, 0 taken
    table CARD at site 0
        + (\"A   \", 1)
    thread 0 (A) ends";
    assert_eq!(parts(text)[1], told);
}

/// Records have no labels: a loop's body is called as in a dump.
#[test]
fn records_tell_the_numbers_of_nodes() {
    let file = nettext::assemble(LOOP).expect("a text that is well formed").file;
    let source = Source::of_records("loop.net", file);
    let told = told(&source, Some(vec![Pick { thread: 0, row: 0 }; 2]));
    let opened = "pick 1: thread 0 (A) at site 0: node 1
    foreach (!x1) in T0 do n2
    done: 0 rows added, 0 taken
    a round with row 0 of T0: (7)
    x1 = 7
    thread 0 (A) goes on: node 2, within node 1 with row 1 still to visit";
    assert!(told.as_ref().is_ok_and(|told| told.contains(opened)), "{told:?}");
}

#[test]
fn a_net_without_picks() {
    let told = traced("table CARD at site 3 (Int, Loc)\nrow (1, @2) in CARD at site 3\n");
    let told = told.expect("a net that loads");
    let moment = "    table CARD at site 3 (Int, Loc)\n        (1, @2)\n    no thread stands\n";
    assert_eq!(
        told,
        format!(
            "before the first pick\n{moment}\nafter the last pick\n{moment}\n\
             in all: 0 picks done, 0 refused; 0 rows added, 0 taken\n"
        )
    );
}

#[test]
fn a_refused_net_is_told_at_its_line() {
    let report = traced("table CARD at site 0 (Int)\n\n  row (@1) in CARD at site 0\n");
    let shown =
        "net.nettext:3:3: load 7 at 1: column 0 of CARD is Int, and the row gives the Loc @1
      row (@1) in CARD at site 0
      ^
what to do: give values of (Int), as line 1 declares; columns count from 0
";
    assert_eq!(report, Err(shown.to_owned()));
}

/// In each pick of a generated file the rows shown as come and gone are as many as answered, and
/// every refusal names its case.
#[test]
fn rows_shown_agree_with_the_counts() {
    let mut picks = 0;
    let mut numbers = BTreeSet::new();
    for seed in 0..400 {
        let file = file(Class::Valid, seed);
        let source = Source::of_records("generated", file.clone());
        let told = told(&source, None).expect("a net that loads");
        let turns: Vec<&str> =
            told.split("\n\n").filter(|part| part.starts_with("pick ")).collect();
        assert_eq!(Ok(turns.len()), stand_in::picks(&file).map(|own| own.len()));
        picks += turns.len();
        turns.iter().for_each(|turn| assert_eq!(shown(turn), answered(turn), "{turn}"));
        turns.iter().for_each(|turn| assert!(names_its_case(turn), "{turn}"));
        let refused = turns.iter().filter_map(|turn| refused(turn));
        numbers.extend(refused.filter_map(|(number, _)| number.parse::<u8>().ok()));
    }
    assert!(numbers.into_iter().eq(11..=20));
    assert!(picks > 5_000, "{picks}");
}

/// How many rows a pick's part shows as come and as gone.
fn shown(turn: &str) -> (usize, usize) {
    let rows = |sign: &str| turn.lines().filter(|line| line.starts_with(sign)).count();
    (rows("        + "), rows("        - "))
}

/// The counts of the answer.
fn answered(turn: &str) -> (usize, usize) {
    let Some(done) = turn.lines().find_map(|line| line.strip_prefix("    done: ")) else {
        return (0, 0);
    };
    let (counts, _why) = done.split_once(';').unwrap_or((done, ""));
    let numbers: Vec<usize> = counts.split(' ').filter_map(|word| word.parse().ok()).collect();
    (numbers[0], numbers[1])
}

/// The number of a refusal and its case.
fn refused(turn: &str) -> Option<(&str, &str)> {
    let refused = turn.lines().find_map(|line| line.strip_prefix("    refused: "))?;
    Some(refused.split_once(", ").expect("a number and its case"))
}

/// Not what the number means in any net.
fn names_its_case(turn: &str) -> bool {
    let Some((number, case)) = refused(turn) else {
        return true;
    };
    let meaning = number.parse().ok().and_then(nettext::number).expect("a number").wrong;
    case != meaning
}
