//! Streams with records that a window refuses.

use super::{example, ints, Example, CARD};
use crate::record::*;

/// A record of each sort of refusal between good ones; none of them enters a window.
pub fn all() -> Vec<Example> {
    let good = row(0, CARD, &[int(5), int(6)]);
    let kinds = [0, 4, 15, 27, 31, 34, 255].map(|kind| good.byte(0, kind));
    let fields = [
        row(8, CARD, &[int(5), int(6)]),
        row(0, b"CAR\x7F", &[int(5), int(6)]),
        good.byte(2, 1),
        good.byte(3, 1),
        good.byte(8, 1),
        good.byte(55, 1),
        good.byte(57, 1),
        good.byte(84, 1),
        good.byte(88, 1),
        good.byte(103, 1),
        row(0, CARD, &[]),
        row(0, CARD, &[[0; 8], int(6)]),
        row(0, CARD, &[int(5), int(6), var(0)]),
        row(0, CARD, &[int(5), plus(0, 6)]),
        row(0, CARD, &[int(5), int(6), formal(0)]),
        row(0, CARD, &[int(5), int(6), loc(8)]),
        row(0, CARD, &[text(b"a\x1Fbc"), int(6)]),
    ];
    let nodes = node(DROP, END).name(CARD).at(loc(0));
    let others = [alias(0, 1, 1), table(0, CARD, &[INT, INT]), nodes, start(0, 0), pick(0, 0)];
    let no_ints = [
        row(0, CARD, &[int(5), text(b"6   ")]),
        row(0, CARD, &[int(5), loc(6)]),
        row(0, CARD, &[int(5)]),
    ];
    vec![
        among_good("refused-kind", &kinds),
        among_good("refused-field", &fields),
        among_good("refused-no-row", &others),
        among_good("refused-no-int", &no_ints),
        refused_while_full(),
        example("refused-before-all", ("2", "0"), &[pick(0, 0)], &["record 0 no 24"]),
    ]
}

/// Two good rows, the refused ones, and a good row that meets the window of the first two.
fn among_good(name: &'static str, refused: &[Record]) -> Example {
    let good = |value| row(0, CARD, &[loc(1), int(value)]);
    let records = [&[good(10), good(-3)], refused, &[good(1)]].concat();
    let mut lines: Vec<String> = vec!["record 0 10 10 10".into(), "record 1 7 -3 10".into()];
    lines.extend((0..refused.len()).map(|place| format!("record {} no 24", place + 2)));
    lines.push(format!("record {} 8 -3 10", refused.len() + 2));
    let lines: Vec<&str> = lines.iter().map(String::as_str).collect();
    example(name, ("3", "1"), &records, &lines)
}

fn refused_while_full() -> Example {
    let other = row(0, CARD, &[text(b"100 ")]);
    let records = [ints(&[5, 7]), vec![other, other], ints(&[1]), vec![other], ints(&[2])].concat();
    let lines = [
        "record 0 5 5 5",
        "record 1 12 5 7",
        "record 2 no 24",
        "record 3 no 24",
        "record 4 8 1 7",
        "record 5 no 24",
        "record 6 3 1 2",
    ];
    example("refused-while-full", ("2", "0"), &records, &lines)
}
