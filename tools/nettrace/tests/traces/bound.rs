//! What picks bound, and what the threads that stand hold.

use crate::telling::parts;

const BINDING: &str = "\
table CARD at site 0 (Text, Int)
row (\"RIG1\", 36) in CARD at site 0
row (\"RIG2\", 40) in CARD at site 0
process p:
    aggregate sum of column 1 over (!x0, !x1) in CARD @self giving !x5
    aggregate largest of column 1 over (!x0, !x1) in CARD @self giving !x5
    aggregate count over (!x0, 40) in CARD @self giving !x6
    aggregate count over (!x0, 40) in CARD @self giving !x6
    select (@self, x0) from CARD @self matching (!x0, !x1) into T1
    delete (!x0, 50) from CARD @self into T0
    drop CARD @self
start p at site 0
pick thread 0
pick thread 0
pick thread 0
pick thread 0
pick thread 0
pick thread 0
";

#[test]
fn a_pick_tells_what_it_bound() {
    let parts = parts(BINDING);
    for (pick, bound) in [
        (0, "x5 = 76"),
        (1, "x5 = 40"),
        (2, "x6 = 1"),
        // Bound to what it was: the step binds it all the same.
        (3, "x6 = 1"),
        (4, "T1 = 2 rows:\n        0: (@0, \"RIG1\")\n        1: (@0, \"RIG2\")"),
        (5, "T0 = no rows of (Text, Int)"),
    ] {
        let part = &parts[pick + 1];
        let expected = format!("\n    {bound}\n    thread 0 (A) goes on");
        assert!(part.contains(&expected), "{part}");
        let binds = part.lines().filter(|line| line.contains(" = ") && !line.contains("("));
        assert_eq!(binds.count(), usize::from(pick < 5), "{part}");
    }
}

#[test]
fn a_thread_that_stands_is_shown_with_what_it_holds() {
    let last = parts(BINDING).swap_remove(7);
    let held = "    thread 0 (A) at site 0: line 11 of p
        x5 = 40
        x6 = 1
        T0 = no rows of (Text, Int)
        T1 = 2 rows:
            0: (@0, \"RIG1\")
            1: (@0, \"RIG2\")";
    assert!(last.ends_with(held), "{last}");
}
