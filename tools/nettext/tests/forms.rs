//! What the text form allows: defaults, shorter ways of writing, lines and labels.

use nettext::{assemble, dump};

/// The text as netdump would write it.
fn plain(text: &str) -> String {
    match assemble(text) {
        Ok(assembled) => dump(&assembled.file).expect("a net that loads"),
        Err(error) => panic!("{}", error.shown("text", text)),
    }
}

/// Both steps are one node.
fn same(step: &str, other: &str) {
    let net = |step: &str| plain(&format!("process n0:\n    {step}\n"));
    assert_eq!(net(step), net(other));
    assert_eq!(net(step), format!("process n0:\n    {other}\n"));
}

#[test]
fn signs_of_predicates() {
    let delete = |predicate: &str| format!("delete (!x0) from CARD @1 where {predicate} into T0");
    for (written, stored) in [
        ("x0 = 3", "x0 = 3"),
        ("x0 == 3", "x0 = 3"),
        ("x0 ≠ 3", "x0 != 3"),
        ("x0 != 3", "x0 != 3"),
        ("x0 < 3", "x0 < 3"),
        ("x0 <= 3", "x0 <= 3"),
        ("x0 ≤ 3", "x0 <= 3"),
        ("x0 > 3", "3 < x0"),
        ("x0 >= x1 + 1", "x1 + 1 <= x0"),
        ("x0 ≥ @2", "@2 <= x0"),
    ] {
        same(&delete(written), &delete(stored));
    }
    same(&delete("true"), "delete (!x0) from CARD @1 into T0");
}

#[test]
fn operands() {
    let insert = |operand: &str| format!("insert ({operand}) into CARD @x3");
    for (written, stored) in [
        ("x0 + 2", "x0 + 2"),
        ("x0+2", "x0 + 2"),
        ("x0 + -2", "x0 - 2"),
        ("x0 - 2", "x0 - 2"),
        ("x0 - -2", "x0 + 2"),
        ("x0 - 0", "x0 + 0"),
        ("x15 + -2147483648", "x15 - 2147483648"),
        ("x15 + 2147483647", "x15 + 2147483647"),
        ("-2147483648", "-2147483648"),
        ("@self", "@0"),
        ("\"A\"", "\"A   \""),
        ("\"\"", "\"    \""),
        ("\" a\"", "\" a  \""),
        ("\"\\\"\\\\#~\"", "\"\\\"\\\\#~\""),
    ] {
        same(&insert(written), &insert(stored));
    }
    assert_eq!(plain("table \"\\\"\" at site 0 (Int)"), "table \"\\\"   \" at site 0 (Int)\n");
}

#[test]
fn names_of_tables() {
    let drop = |name: &str| format!("drop {name} @self");
    for (written, stored) in [
        ("CARD", "CARD"),
        ("\"CARD\"", "CARD"),
        ("\"A\"", "A"),
        ("A", "A"),
        ("_9", "_9"),
        ("\" A\"", "\" A  \""),
        ("\"a b\"", "\"a b \""),
        ("\"T0\"", "\"T0  \""),
        ("\"x123\"", "\"x123\""),
        ("\"row\"", "\"row \""),
        ("\"self\"", "\"self\""),
        ("\"2015\"", "\"2015\""),
    ] {
        same(&drop(written), &drop(stored));
    }
    same("drop CARD @0", "drop CARD @self");
}

#[test]
fn statements_of_several_lines() {
    let text = "
process n0:          # a comment
    select (x0,      # in parentheses lines don't count

            x1)
        from CARD @1

        matching (!x0, !x1)
        where x0 = 3
        into T0
        then end     # a last one
";
    let step = "select (x0, x1) from CARD @1 matching (!x0, !x1) where x0 = 3 into T0";
    assert_eq!(plain(text), format!("process n0:\n    {step}\n"));
    assert_eq!(plain(&text.replace('\n', "\r\n")), plain(text));
}

#[test]
fn labels_and_nexts() {
    let text = "
process first:
    drop A @self
    drop B @self then end
again: also: drop C @self then last
    drop D @self
process second:
    foreach (!x0) in T0 do also then last
    foreach (!x0) in T0 do node 6
last:
    drop E @self
start also at site 0
start node 4 at site 1
pick thread 1
";
    // The loops name node 2, which is not above them, and are refused for it.
    assert!(assemble(text).is_ok_and(|assembled| assembled.check().is_err()));
    let sound = text.replace("do also", "do last");
    let expected = "process n0:
    drop A @self
    drop B @self

process n2:
    drop C @self then n6

process n3:
    drop D @self

process n4:
    foreach (!x0) in T0 do n6 then n6

process n5:
    foreach (!x0) in T0 do n6
n6:
    drop E @self

start n2 at site 0
start n4 at site 1

pick thread 1 row 0
";
    assert_eq!(plain(&sound), expected);
}

/// A label may be a table's name, since the two never stand at one place.
#[test]
fn labels_are_no_names() {
    let text = "process CARD:\n    drop CARD @self then CARD2\nCARD2:\n    drop CARD @self\n";
    assert!(assemble(text).is_ok_and(|assembled| assembled.check().is_ok()));
}
