//! Pages: their lines by hand, the numbers 10, 14 and 22 in their order, and the bytes around.

use engine::{load, page, run, Net, Site, Text};
use generate::record::*;

const CARD: &Name = b"CARD";
const BLANK: &str = "                                                    ";

/// A byte that no page has, to show which bytes were left.
const LEFT: u8 = 9;

/// The net of a table CARD at site 1.
fn net(columns: &[u8], rows: &[&[Operand]]) -> Net {
    let mut records = vec![table(1, CARD, columns)];
    records.extend(rows.iter().map(|values| row(1, CARD, values)));
    load(&file(&records)).expect("a good file").0
}

/// The answer for CARD at site 1 and a buffer of this length, and the buffer after it.
fn paged(net: &Net, length: usize) -> (Result<usize, u8>, Vec<u8>) {
    let mut buffer = vec![LEFT; length];
    let answer = page(net, Site(1), Text(*CARD), &mut buffer);
    (answer, buffer)
}

/// Holds the page of CARD to these lines in a buffer of just its length and in a longer one, and
/// sees that shorter ones are refused.
fn shows(net: &Net, lines: &[&str]) {
    let wanted: String = lines.iter().flat_map(|line| [*line, "\n"]).collect();
    let length = 53 * lines.len();
    assert_eq!(wanted.len(), length, "lines of 53 bytes");
    let (answer, buffer) = paged(net, length);
    assert_eq!(answer, Ok(length));
    assert_eq!(String::from_utf8_lossy(&buffer), wanted);
    let (answer, buffer) = paged(net, length + 60);
    assert_eq!(answer, Ok(length));
    assert_eq!(String::from_utf8_lossy(&buffer[..length]), wanted);
    assert_eq!(buffer[length..], [LEFT; 60]);
    for short in [0, 1, 52, length - 53, length - 1] {
        assert_eq!(paged(net, short), (Err(22), vec![LEFT; short]), "{short} bytes");
    }
}

#[test]
fn ints_at_the_edges_of_32_bits() {
    let lines = [
        "  -2147483648                                       ",
        "   2147483647                                       ",
        "           -1                                       ",
    ];
    shows(&net(&[INT], &[&[int(i32::MIN)], &[int(i32::MAX)]]), &lines);
}

#[test]
fn sums_just_outside_32_bits() {
    let lines = [
        "   2147483647  -2147483648                          ",
        "            1           -1                          ",
        "   2147483648  -2147483649                          ",
    ];
    let rows: [&[Operand]; 2] = [&[int(i32::MAX), int(i32::MIN)], &[int(1), int(-1)]];
    shows(&net(&[INT, INT], &rows), &lines);
}

#[test]
fn the_least_and_the_largest_sum_there_is() {
    let even = [int(i32::MIN), int(i32::MAX), int(i32::MIN), int(1)];
    let odd = [int(i32::MIN), int(i32::MAX), int(i32::MAX), int(1)];
    let mut lines = [
        "  -2147483648   2147483647  -2147483648            1",
        "  -2147483648   2147483647   2147483647            1",
    ]
    .repeat(8);
    lines.push(" -34359738368  34359738352           -8           16");
    shows(&net(&[INT; 4], &[&even[..], &odd].repeat(8)), &lines);
}

#[test]
fn cells_of_each_kind() {
    let lines = [
        "JAN                     -5@7                      40",
        "feb                      0@0                     -41",
        "                        -5                        -1",
    ];
    let rows: [&[Operand]; 2] =
        [&[text(b"JAN "), int(-5), loc(7), int(40)], &[text(b"feb "), int(0), loc(0), int(-41)]];
    shows(&net(&[TEXT, INT, LOC, INT], &rows), &lines);
}

#[test]
fn a_table_without_rows_has_its_sums_alone() {
    shows(&net(&[INT], &[]), &["            0                                       "]);
    let mixed = net(&[INT, TEXT, LOC, INT], &[]);
    shows(&mixed, &["            0                                      0"]);
    shows(&net(&[LOC, TEXT], &[]), &[BLANK]);
}

#[test]
fn a_table_without_ints_ends_in_blanks() {
    let lines = [
        "RIG1         @0                                     ",
        " ~a          @7                                     ",
        "             @3                                     ",
        BLANK,
    ];
    let rows: [&[Operand]; 3] =
        [&[text(b"RIG1"), loc(0)], &[text(b" ~a "), loc(7)], &[text(b"    "), loc(3)]];
    shows(&net(&[TEXT, LOC], &rows), &lines);
}

#[test]
fn the_page_is_that_of_the_site_and_of_what_the_picks_left() {
    let records = [
        table(0, CARD, &[INT]),
        table(1, CARD, &[INT]),
        row(0, CARD, &[int(7)]),
        row(1, CARD, &[int(8)]),
        node(INSERT, END).name(CARD).at(loc(0)).tuple(&[int(-20)]),
        start(1, 0),
        pick(0, 0),
    ];
    let (mut net, picks) = load(&file(&records)).expect("a good file");
    let eight = "            8                                       ";
    shows(&net, &[eight, eight]);
    run(&mut net, &picks);
    let twenty = "          -20                                       ";
    let sum = "          -12                                       ";
    shows(&net, &[eight, twenty, sum]);
}

/// The earlier number is given, whether or not a later one would do too.
#[test]
fn refusals_come_in_their_order_and_leave_every_byte() {
    let sound = net(&[INT], &[&[int(1)]]);
    let mut unsound = sound.clone();
    unsound.tables[0].relation.rows[0][0] = engine::Value::Text(Text(*b"1   "));
    let absent = [(8, CARD), (255, CARD), (0, CARD), (1, b"card"), (1, &[0; 4])];
    for length in [0, 105, 106, 200] {
        let untouched = vec![LEFT; length];
        let mut buffer = untouched.clone();
        for (site, name) in absent {
            assert_eq!(page(&unsound, Site(site), Text(*name), &mut buffer), Err(10));
            assert_eq!(page(&sound, Site(site), Text(*name), &mut buffer), Err(14));
            assert_eq!(page(&Net::default(), Site(site), Text(*name), &mut buffer), Err(14));
        }
        assert_eq!(page(&unsound, Site(1), Text(*CARD), &mut buffer), Err(10));
        assert_eq!(buffer, untouched);
    }
    assert_eq!(paged(&sound, 105), (Err(22), vec![LEFT; 105]));
}
