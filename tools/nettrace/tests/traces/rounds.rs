//! What is told of the end of a round: the bindings that its loop holds come back.

use crate::double::{stand_in, told};
use crate::telling::parts;
use embed::{Answer, Pick, Refused, RECORD_BYTES};
use generate::{file, Class};
use nettrace::{trace, Calls, Source};

/// Two rows to visit, with x1 and T1 bound before the loop; the body and the picks in it follow.
fn visiting(body: &str, picks: &str) -> Vec<String> {
    let start = "\
table CARD at site 0 (Int)
row (7) in CARD at site 0
row (8) in CARD at site 0
process visit:
    aggregate least of column 0 over (!x0) in CARD @self giving !x1
    select (x0) from CARD @self matching (!x0) where x0 < 8 into T1
    select (x0) from CARD @self matching (!x0) into T0
    foreach (!x5) in T0 do round
process round:
";
    let picks: String = picks.split(' ').map(|row| format!("pick thread 0 row {row}\n")).collect();
    parts(&format!("{start}{body}\nstart visit at site 0\n{picks}"))
}

/// The lines of a part between the one that begins so and the one on where the thread stands.
fn lines<'a>(part: &'a str, first: &str) -> &'a str {
    let (_, rest) = part.split_once(&format!("\n    {first}")).unwrap_or_else(|| panic!("{part}"));
    let (lines, _) = rest.split_once("\n    thread 0 (A) ").unwrap_or_else(|| panic!("{part}"));
    lines
}

#[test]
fn what_a_round_bound_comes_back_at_its_end() {
    let body = "    aggregate count over (!x0) in CARD @self giving !x1
    aggregate largest of column 0 over (!x0) in CARD @self giving !x6
    insert (x1) into CARD @self";
    let told = visiting(body, "0 0 0 1 0 0 0 0 0 0 0");
    assert!(told[5].contains("\n    x1 = 2\n") && told[6].contains("\n    x6 = 8\n"));
    let back = ": x1 is 7 again, x5 and x6 are unbound again";
    assert_eq!(lines(&told[7], "the round ends"), back);
    // The last round ends like the others.
    assert!(told[8].contains("\n    a round with row 0 of T0: (7)\n    x5 = 7\n"));
    assert_eq!(lines(&told[11], "the round ends"), back);
}

/// What the last step of a body binds is lost at once, also where that is what stood before it.
#[test]
fn what_the_last_step_bound_is_lost() {
    let lost = visiting("    aggregate count over (!x0) in CARD @self giving !x6", "0 0 0 1 0");
    assert_eq!(lines(&lost[5], "the round ends"), ": x5 and x6 are unbound again");
    assert!(!lost[5].contains("x6 ="));
    let bound = visiting("    aggregate count over (!x0) in CARD @self giving !x1", "0 0 0 1 0");
    assert_eq!(lines(&bound[5], "the round ends"), ": x1 is 7 again, x5 is unbound again");
}

/// The rows that such a step judged are told, though it has nothing bound any more.
#[test]
fn table_variables_come_back_with_their_rows() {
    let told = visiting("    delete (8) from CARD @self into T1", "0 0 0 1 0");
    let deleted = "done: 0 rows added, 1 taken
    table CARD at site 0
          (7)    not 7 = 8
        - (8)    8 = 8
    the round ends: x5 is unbound again
    T1 = 1 row again:
        0: (7)
    thread 0 (A) goes on: line 8 of visit with row 0 still to visit";
    assert!(told[5].ends_with(deleted), "{}", told[5]);
}

#[test]
fn a_round_that_bound_nothing_just_ends() {
    let told = parts(
        "table CARD at site 0 (Int)\nrow (7) in CARD at site 0\nprocess p:\n\
         select (x0) from CARD @self matching (!x0) into T0\nforeach (7) in T0 do q\n\
         process q:\ndrop CARD @self\nstart p at site 0\npick thread 0\npick thread 0\n\
         pick thread 0\n",
    );
    assert_eq!(lines(&told[3], "the round ends"), "");
}

/// A loop that is over as the last step of a body ends that body's round; a fork brings nothing
/// back to the thread that forked it.
#[test]
fn a_loop_at_the_end_of_a_body() {
    let over = "no round: of row 1 to visit none matches
    the round ends: x5 is unbound again
    thread 0 (A) goes on: line 8 of visit with row 0 still to visit";
    for (kind, picks, count) in
        [("foreach", "0 0 0 1 0 0 0", 7), ("foreach parallel", "0 0 0 1 0 0", 6)]
    {
        let body = format!(
            "    {kind} (7) in T0 do inner\nprocess inner:\n    insert (x5) into CARD @self"
        );
        let told = visiting(&body, picks);
        assert!(told[count].ends_with(over), "{}", told[count]);
    }
}

/// A thread within rounds is listed with what their ends bring back, the innermost first; between
/// two rounds it has all of that.
#[test]
fn a_thread_that_stands_tells_what_is_to_come_back() {
    let body = "    select (x0) from CARD @self matching (!x0) into T1
    aggregate count over (!x0) in CARD @self giving !x1
    foreach (!x6) in T0 do inner
process inner:
    insert (x6) into CARD @self
    drop CARD @self";
    let told = visiting(body, "0 0 0 1 0 0 0");
    let listed = "        T1 = 2 rows:
            0: (7)
            1: (8)
        when the round of line 12 of round ends: x6 is unbound again
        when the round of line 8 of visit ends: x1 is 7 again, x5 and x6 are unbound again
            T1 = 1 row again:
                0: (7)";
    assert!(told[8].ends_with(listed), "{}", told[8]);
    let between = visiting("    insert (x5) into CARD @self", "0 0 0 1 0");
    assert!(!between[6].contains("when the round"), "{}", between[6]);
}

/// Every pick of a generated file that leaves its thread with fewer entries says that a round ends.
#[test]
fn every_end_of_a_round_is_told() {
    let mut ends = 0;
    for seed in 0..200 {
        let file = file(Class::Valid, seed);
        let own = stand_in::picks(&file).expect("a file that loads");
        let told = told(&Source::of_records("generated", file.clone()), None);
        let told = told.expect("a file that loads");
        let turns = told.split("\n\n").filter(|part| part.starts_with("pick "));
        for (count, turn) in turns.enumerate() {
            let threads = |count| stand_in::threads(&file, &own[..count]).expect("threads");
            let (before, after) = (threads(count), threads(count + 1));
            let place = usize::from(own[count].thread);
            let depth = |threads: &[embed::Thread]| threads.get(place).map(|thread| thread.depth);
            let ended = before.len() == after.len() && depth(&after) < depth(&before);
            assert_eq!(turn.contains("\n    the round ends"), ended, "{turn}");
            ends += usize::from(ended);
        }
    }
    assert!(ends > 200, "{ends}");
}

/// The stand-in, but for what loops hold: every Int there is another.
struct Otherwise;

impl Calls for Otherwise {
    fn picks(&self, file: &[u8]) -> Result<Vec<Pick>, Refused> {
        stand_in::picks(file)
    }

    fn answers(&self, file: &[u8], picks: &[Pick]) -> Result<Vec<Answer>, Refused> {
        stand_in::answers(file, picks)
    }

    fn trace(
        &self,
        file: &[u8],
        picks: &[Pick],
        from: usize,
        out: &mut [u8],
    ) -> Result<usize, Refused> {
        let put = stand_in::trace(file, picks, from, out)?;
        let mut held = false;
        for record in out[..put].chunks_exact_mut(RECORD_BYTES) {
            held = record[0] == 69 || held && (66..69).contains(&record[0]);
            if held && record[0] == 66 && record[56] == 1 {
                record[60] ^= 1;
            }
        }
        Ok(put)
    }
}

/// That something came back is told only where the thread has what the loop's entry holds.
#[test]
fn what_does_not_agree_with_the_loop_is_not_told() {
    let text = "table CARD at site 0 (Int)\nrow (7) in CARD at site 0\nprocess p:\n\
                aggregate count over (!x0) in CARD @self giving !x1\n\
                select (x0) from CARD @self matching (!x0) into T0\nforeach (!x1) in T0 do q\n\
                process q:\ndrop CARD @self\nstart p at site 0\npick thread 0\npick thread 0\n\
                pick thread 0\npick thread 0\n";
    let source = Source::of_text("net.nettext", text.as_bytes()).expect("a text");
    let mut out = Vec::new();
    assert!(trace(&Otherwise, &source, None, &mut out).is_ok());
    let told = String::from_utf8(out).expect("a text");
    assert!(!told.contains("the round ends") && told.contains("\n    x1 = 1\n"), "{told}");
}
