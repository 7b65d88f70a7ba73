//! Streams with the text that netwindow must print for them, computed by hand.

mod refused;

use crate::record::*;

pub struct Example {
    pub name: &'static str,
    pub width: &'static str,
    pub column: &'static str,
    pub stream: Vec<u8>,
    pub text: String,
}

const CARD: &Name = b"CARD";

pub fn all() -> Vec<Example> {
    [begun(), moved(), sums(), refused::all(), ends()].into_iter().flatten().collect()
}

fn example(
    name: &'static str,
    (width, column): (&'static str, &'static str),
    records: &[Record],
    lines: &[&str],
) -> Example {
    example_of_bytes(name, (width, column), file(records), lines)
}

fn example_of_bytes(
    name: &'static str,
    (width, column): (&'static str, &'static str),
    stream: Vec<u8>,
    lines: &[&str],
) -> Example {
    let text = lines.iter().flat_map(|line| [*line, "\n"]).collect();
    Example { name, width, column, stream, text }
}

/// Rows of one Int each.
fn ints(ints: &[i32]) -> Vec<Record> {
    ints.iter().map(|value| row(0, CARD, &[int(*value)])).collect()
}

/// Widths and columns, good ones and others.
fn begun() -> Vec<Example> {
    let three = ints(&[4, -2, 9]);
    let each = ["record 0 4 4 4", "record 1 -2 -2 -2", "record 2 9 9 9"];
    let fewer = ["record 0 4 4 4", "record 1 2 -2 4", "record 2 11 -2 9"];
    let none = ["record 0 no 24", "record 1 no 24", "record 2 no 24"];
    let refused = ["window no 23"];
    let past = "18446744073709551617";
    vec![
        example("width-1", ("1", "0"), &three, &each),
        example("width-1-with-zeros", ("000000000000000000000001", "00"), &three, &each),
        example("width-3-just-full", ("3", "0"), &three, &fewer),
        example("width-16-fewer", ("16", "0"), &three, &fewer),
        example("width-0", ("0", "0"), &three, &refused),
        example("width-17", ("17", "0"), &three, &refused),
        example("width-past-64-bits", (past, "0"), &three, &refused),
        example("width-0-before-column", ("0", "4"), &[Record::new(0)], &refused),
        example("column-4", ("3", "4"), &three, &none),
        example("column-past-64-bits", ("3", "18446744073709551616"), &three, &none),
    ]
}

/// Windows that move.
fn moved() -> Vec<Example> {
    vec![
        example("year", ("3", "1"), &year(), &YEAR_LINES),
        sixteen(),
        example(
            "least-and-largest-leave",
            ("2", "0"),
            &ints(&[-9, 8, 5, 5, 6]),
            &[
                "record 0 -9 -9 -9",
                "record 1 -1 -9 8",
                "record 2 13 5 8",
                "record 3 10 5 5",
                "record 4 11 5 6",
            ],
        ),
        example(
            "one-of-two-equal-leaves",
            ("3", "0"),
            &ints(&[2, 2, 7, 7, 7, 2]),
            &[
                "record 0 2 2 2",
                "record 1 4 2 2",
                "record 2 11 2 7",
                "record 3 16 2 7",
                "record 4 21 7 7",
                "record 5 16 2 7",
            ],
        ),
        example("tables-of-all-sorts", ("2", "1"), &of_all_sorts(), &OF_ALL_SORTS_LINES),
        long(),
    ]
}

/// The cards of a year: the month and the drift of the black level.
fn year() -> Vec<Record> {
    const MONTHS: [(&Name, i32); 12] = [
        (b"JAN ", -21),
        (b"FEB ", -14),
        (b"MAR ", -4),
        (b"APR ", 3),
        (b"MAY ", 6),
        (b"JUN ", 9),
        (b"JUL ", 12),
        (b"AUG ", 10),
        (b"SEP ", 3),
        (b"OCT ", -2),
        (b"NOV ", -7),
        (b"DEC ", -9),
    ];
    MONTHS.iter().map(|(month, drift)| row(1, CARD, &[text(month), int(*drift)])).collect()
}

const YEAR_LINES: [&str; 12] = [
    "record 0 -21 -21 -21",
    "record 1 -35 -21 -14",
    "record 2 -39 -21 -4",
    "record 3 -15 -14 3",
    "record 4 5 -4 6",
    "record 5 18 3 9",
    "record 6 27 6 12",
    "record 7 31 9 12",
    "record 8 25 3 12",
    "record 9 11 -2 10",
    "record 10 -6 -7 3",
    "record 11 -18 -9 -2",
];

/// The numbers 1 to 18: the window is full with the sixteenth, and 1 and 2 leave it.
fn sixteen() -> Example {
    let records: Vec<i32> = (1..=18).collect();
    let lines = [
        "record 0 1 1 1",
        "record 1 3 1 2",
        "record 2 6 1 3",
        "record 3 10 1 4",
        "record 4 15 1 5",
        "record 5 21 1 6",
        "record 6 28 1 7",
        "record 7 36 1 8",
        "record 8 45 1 9",
        "record 9 55 1 10",
        "record 10 66 1 11",
        "record 11 78 1 12",
        "record 12 91 1 13",
        "record 13 105 1 14",
        "record 14 120 1 15",
        "record 15 136 1 16",
        "record 16 152 2 17",
        "record 17 168 3 18",
    ];
    example("width-16-moves", ("16", "0"), &ints(&records), &lines)
}

/// Rows of other sites, names, widths and kinds, and one twice: the second value is all that counts.
fn of_all_sorts() -> Vec<Record> {
    vec![
        row(0, CARD, &[int(1), int(2)]),
        row(7, b"~  a", &[text(b"RIG1"), int(3), loc(7), int(100)]),
        row(1, CARD, &[loc(0), int(-5), text(b"    ")]),
        row(1, CARD, &[loc(0), int(-5), text(b"    ")]),
        row(0, b"card", &[int(i32::MAX), int(0), int(i32::MIN)]),
    ]
}

const OF_ALL_SORTS_LINES: [&str; 5] = [
    "record 0 2 2 2",
    "record 1 5 2 3",
    "record 2 -2 -5 3",
    "record 3 -10 -5 -5",
    "record 4 -5 -5 0",
];

/// More records than a file may have.
fn long() -> Example {
    let mut lines: Vec<String> = vec!["record 0 7 7 7".into()];
    lines.extend((1..300).map(|place| format!("record {place} 14 7 7")));
    let lines: Vec<&str> = lines.iter().map(String::as_str).collect();
    example("more-than-256-records", ("2", "0"), &ints(&[7; 300]), &lines)
}

/// Sums that leave 32 bits and come back.
fn sums() -> Vec<Example> {
    let (most, least) = (i32::MAX, i32::MIN);
    let above = [
        "record 0 2147483647 2147483647 2147483647",
        "record 1 2147483648 1 2147483647",
        "record 2 2 1 1",
    ];
    let below = [
        "record 0 -2147483648 -2147483648 -2147483648",
        "record 1 -2147483649 -2147483648 -1",
        "record 2 -2 -1 -1",
    ];
    let mut largest: Vec<String> = (0..16)
        .map(|place| format!("record {place} {} 2147483647 2147483647", LARGEST_SUMS[place]))
        .collect();
    largest.push("record 16 32212254704 -1 2147483647".into());
    let largest: Vec<&str> = largest.iter().map(String::as_str).collect();
    vec![
        example("sum-above-32-bits", ("2", "0"), &ints(&[most, 1, 1]), &above),
        example("sum-below-32-bits", ("2", "0"), &ints(&[least, -1, -1]), &below),
        example("largest-sum", ("16", "0"), &ints(&[&[most; 16][..], &[-1]].concat()), &largest),
        example(
            "least-sum",
            ("4", "0"),
            &ints(&[least; 5]),
            &[
                "record 0 -2147483648 -2147483648 -2147483648",
                "record 1 -4294967296 -2147483648 -2147483648",
                "record 2 -6442450944 -2147483648 -2147483648",
                "record 3 -8589934592 -2147483648 -2147483648",
                "record 4 -8589934592 -2147483648 -2147483648",
            ],
        ),
    ]
}

/// One to sixteen times 2147483647.
const LARGEST_SUMS: [i64; 16] = [
    2_147_483_647,
    4_294_967_294,
    6_442_450_941,
    8_589_934_588,
    10_737_418_235,
    12_884_901_882,
    15_032_385_529,
    17_179_869_176,
    19_327_352_823,
    21_474_836_470,
    23_622_320_117,
    25_769_803_764,
    27_917_287_411,
    30_064_771_058,
    32_212_254_705,
    34_359_738_352,
];

/// Streams that are empty or end within a record.
fn ends() -> Vec<Example> {
    let two = file(&ints(&[3, 4]));
    let lines = ["record 0 3 3 3", "record 1 no 24"];
    vec![
        example("no-records", ("5", "0"), &[], &[]),
        example("no-records-width-0", ("0", "0"), &[], &["window no 23"]),
        example_of_bytes("ragged-end", ("5", "0"), two[..207].to_vec(), &lines),
        example_of_bytes("ragged-end-after-values", ("5", "0"), two[..192].to_vec(), &lines),
        example_of_bytes("ragged-end-of-one-byte", ("5", "0"), two[..105].to_vec(), &lines),
        example_of_bytes("ragged-end-alone", ("5", "0"), two[..103].to_vec(), &["record 0 no 24"]),
    ]
}
