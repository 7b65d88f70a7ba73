//! Writing: the records by hand, number 21, and the bytes around.

use engine::{load, run, write};
use generate::record::*;

/// Two tables whose rows come in turns, and a drop of one of them.
fn records() -> Vec<Record> {
    vec![
        table(3, b"ONE ", &[LOC]),
        table(3, b"two ", &[INT, TEXT]),
        table(4, b"ONE ", &[INT]),
        row(3, b"two ", &[int(-2), text(b" a~ ")]),
        row(3, b"ONE ", &[loc(7)]),
        row(3, b"two ", &[int(i32::MIN), text(b"TEAL")]),
        node(DROP, END).name(b"ONE ").at(loc(0)),
        start(3, 0),
        pick(0, 0),
    ]
}

#[test]
fn puts_tables_and_then_rows_table_by_table() {
    let (net, _) = load(&file(&records())).expect("a good file");
    let given = records();
    let wanted = file(&[given[0], given[1], given[2], given[4], given[3], given[5]]);
    let mut buffer = vec![9; 700];
    assert_eq!(write(&net, &mut buffer), Ok(624));
    assert_eq!(buffer[..624], wanted);
    assert_eq!(buffer[624..], [9; 76]);
}

#[test]
fn writes_what_the_picks_left() {
    let (mut net, picks) = load(&file(&records())).expect("a good file");
    run(&mut net, &picks);
    let given = records();
    let mut buffer = vec![0xFF; 416];
    assert_eq!(write(&net, &mut buffer), Ok(416));
    assert_eq!(buffer, file(&[given[1], given[2], given[3], given[5]]));
}

#[test]
fn refuses_a_buffer_one_byte_too_short() {
    let (net, _) = load(&file(&records())).expect("a good file");
    let mut buffer = vec![9; 623];
    assert_eq!(write(&net, &mut buffer), Err(21));
    assert_eq!(buffer, vec![9; 623]);
}

#[test]
fn writes_nothing_of_the_empty_net() {
    let (net, picks) = load(&[]).expect("no bytes are the empty net");
    assert!(picks.is_empty());
    assert_eq!(net, engine::Net::default());
    assert_eq!(write(&net, &mut []), Ok(0));
}
