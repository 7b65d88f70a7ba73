//! Tables to lay out as pages: the text of netrun, and the text that netpage must print.

use super::{example, filled, joined, run, Example};
use crate::record::*;

pub fn all() -> Vec<Example> {
    vec![
        year(),
        largest_sums(),
        sums_past_32_bits(),
        no_rows(),
        no_int_column(),
        what_stands(),
        example("page-refused-file", &misfit(), &["load 7 at 1"]).with_page(&["load 7 at 1"]),
    ]
}

/// The cards of a year up to November: the month, the drift of the black level, the rig read and
/// the light counted.
const MONTHS: [(&Name, i32, u8, i32); 11] = [
    (b"JAN ", -21, 1, 187_500_000),
    (b"FEB ", -14, 1, 171_000_000),
    (b"MAR ", -4, 2, 190_250_000),
    (b"APR ", 3, 2, 204_000_000),
    (b"MAY ", 6, 1, 215_500_000),
    (b"JUN ", 9, 1, 221_000_000),
    (b"JUL ", 12, 2, 224_750_000),
    (b"AUG ", 10, 2, 219_500_000),
    (b"SEP ", 3, 1, 203_000_000),
    (b"OCT ", -2, 1, 195_750_000),
    (b"NOV ", -7, 2, 180_500_000),
];

const YEAR_LINES: [&str; 20] = [
    "pick 0 done 1 0",
    "pick 1 done 3 3",
    "pick 2 done 0 0",
    "table 1 CARD 12",
    "row JAN  -21 @1 187500000",
    "row FEB  -14 @1 171000000",
    "row MAR  -2 @2 190250000",
    "row APR  3 @2 204000000",
    "row MAY  6 @1 215500000",
    "row JUN  9 @1 221000000",
    "row JUL  12 @2 224750000",
    "row AUG  10 @2 219500000",
    "row SEP  3 @1 203000000",
    "row OCT  -2 @1 195750000",
    "row NOV  -5 @2 180500000",
    "row DEC  -9 @2 176250000",
    "table 0 RIGS 2",
    "row RIG1 @1",
    "row RIG2 @2",
    "table 1 NEXT 0",
];

const YEAR_PAGE: [&str; 20] = [
    "table 1 CARD 12",
    "JAN                    -21@1               187500000",
    "FEB                    -14@1               171000000",
    "MAR                     -2@2               190250000",
    "APR                      3@2               204000000",
    "MAY                      6@1               215500000",
    "JUN                      9@1               221000000",
    "JUL                     12@2               224750000",
    "AUG                     10@2               219500000",
    "SEP                      3@1               203000000",
    "OCT                     -2@1               195750000",
    "NOV                     -5@2               180500000",
    "DEC                     -9@2               176250000",
    "                       -10                2389000000",
    "table 0 RIGS 2",
    "RIG1         @1                                     ",
    "RIG2         @2                                     ",
    "                                                    ",
    "table 1 NEXT 0",
    "                         0                         0",
];

/// The row of December comes in by a pick, rig @2's lows are corrected, and the next year's table
/// is made ready.
fn year() -> Example {
    let card = |kind, next| node(kind, next).name(b"CARD").at(loc(1));
    let nodes = [
        card(INSERT, 1).tuple(&[text(b"DEC "), int(-11), loc(2), int(176_250_000)]),
        card(UPDATE, 2)
            .template(&[formal(0), formal(1), loc(2), formal(3)])
            .predicate(LESS, var(1), int(0))
            .tuple(&[var(0), plus(1, 2), loc(2), var(3)]),
        node(CREATE, END).name(b"NEXT").at(loc(1)).columns(&[TEXT, INT, LOC, INT]),
    ];
    let tables = [table(1, b"CARD", &[TEXT, INT, LOC, INT]), table(0, b"RIGS", &[TEXT, LOC])];
    let card_of = |(month, drift, rig, light)| {
        row(1, b"CARD", &[text(month), int(drift), loc(rig), int(light)])
    };
    let cards: Vec<Record> = MONTHS.into_iter().map(card_of).collect();
    let rigs =
        [row(0, b"RIGS", &[text(b"RIG1"), loc(1)]), row(0, b"RIGS", &[text(b"RIG2"), loc(2)])];
    let records = joined(&[&[alias(0, 1, 1)], &tables, &cards, &rigs, &run(&nodes, &[0, 0, 0])]);
    example("page-year", &records, &YEAR_LINES).with_page(&YEAR_PAGE)
}

/// Sixteen rows of the least and of the largest Int, which need all places that a sum can have.
fn largest_sums() -> Example {
    let even = [int(i32::MIN), int(i32::MAX), int(i32::MIN), int(-1)];
    let odd = [int(i32::MIN), int(i32::MAX), int(i32::MAX), int(-1)];
    let records = filled(7, b"EDGE", &[INT; 4], &[&even[..], &odd].repeat(8));
    let rows =
        ["row -2147483648 2147483647 -2147483648 -1", "row -2147483648 2147483647 2147483647 -1"];
    let lines = [
        "  -2147483648   2147483647  -2147483648           -1",
        "  -2147483648   2147483647   2147483647           -1",
    ];
    let sums = " -34359738368  34359738352           -8          -16";
    let page = [&["table 7 EDGE 16"], &lines.repeat(8)[..], &[sums]].concat();
    let printed = [&["table 7 EDGE 16"], &rows.repeat(8)[..]].concat();
    example("page-largest-sums", &records, &printed).with_page(&page)
}

fn sums_past_32_bits() -> Example {
    let rows: [&[Operand]; 2] = [&[int(i32::MAX), int(i32::MIN)], &[int(1), int(-1)]];
    let printed = ["table 3 SUMS 2", "row 2147483647 -2147483648", "row 1 -1"];
    let page = [
        "table 3 SUMS 2",
        "   2147483647  -2147483648                          ",
        "            1           -1                          ",
        "   2147483648  -2147483649                          ",
    ];
    example("page-sums-past-32-bits", &filled(3, b"SUMS", &[INT, INT], &rows), &printed)
        .with_page(&page)
}

fn no_rows() -> Example {
    let records = [
        table(0, b"INTS", &[INT; 4]),
        table(0, b"NONE", &[TEXT, LOC, TEXT]),
        table(2, b"HOP ", &[LOC, INT]),
    ];
    let printed = ["table 0 INTS 0", "table 0 NONE 0", "table 2 HOP  0"];
    let page = [
        "table 0 INTS 0",
        "            0            0            0            0",
        "table 0 NONE 0",
        "                                                    ",
        "table 2 HOP  0",
        "                         0                          ",
    ];
    example("page-no-rows", &records, &printed).with_page(&page)
}

/// Texts of blanks and at the edges of the bytes allowed; the last line is blank.
fn no_int_column() -> Example {
    let rows: [&[Operand]; 2] = [
        &[text(b"    "), loc(0), loc(7), text(b"~~~~")],
        &[text(b" x  "), loc(3), loc(3), text(b"-12 ")],
    ];
    let printed = ["table 6 TEXT 2", "row      @0 @7 ~~~~", "row  x   @3 @3 -12 "];
    let page = [
        "table 6 TEXT 2",
        "             @0           @7           ~~~~         ",
        " x           @3           @3           -12          ",
        "                                                    ",
    ];
    example("page-no-int-column", &filled(6, b"TEXT", &[TEXT, LOC, LOC, TEXT], &rows), &printed)
        .with_page(&page)
}

/// A table dropped has no page, one created has; a row moves from one page to another.
fn what_stands() -> Example {
    let on = |name, kind, next| node(kind, next).name(name).at(loc(0));
    let nodes = [
        on(b"GONE", DROP, 1),
        on(b"LEFT", DELETE, 2).template(&[formal(0), formal(1)]).predicate(LESS, var(0), int(0)),
        on(b"NEXT", CREATE, 3).columns(&[INT, TEXT]),
        on(b"NEXT", INSERT_TABLE, END),
    ];
    let records = joined(&[
        &[table(0, b"GONE", &[INT]), table(0, b"LEFT", &[INT, TEXT])],
        &[row(0, b"GONE", &[int(5)])],
        &[row(0, b"LEFT", &[int(-3), text(b"b   ")]), row(0, b"LEFT", &[int(1), text(b"a   ")])],
        &run(&nodes, &[0; 5]),
    ]);
    let printed = [
        "pick 0 done 0 1",
        "pick 1 done 0 1",
        "pick 2 done 0 0",
        "pick 3 done 1 0",
        "pick 4 no 11",
        "table 0 LEFT 1",
        "row 1 a   ",
        "table 0 NEXT 1",
        "row -3 b   ",
    ];
    let page = [
        "table 0 LEFT 1",
        "            1a                                      ",
        "            1                                       ",
        "table 0 NEXT 1",
        "           -3b                                      ",
        "           -3                                       ",
    ];
    example("page-what-stands", &records, &printed).with_page(&page)
}

fn misfit() -> [Record; 2] {
    [table(0, b"CARD", &[INT]), row(0, b"CARD", &[text(b"1   ")])]
}
