//! Windows: the numbers 23 and 24 in their order, also for states made by hand, their bytes, and
//! the last good records of whole streams.

use engine::window::{begin, Answer, Window, STATE};
use engine::{decimal, load};
use generate::record::*;
use generate::stream::stream;

/// A state made by hand.
fn window(width: u64, column: u64, ints: &[i32]) -> Window {
    Window { width, column, ints: ints.iter().copied().collect() }
}

/// A row record with this Int in its second column.
fn second(value: i32) -> [u8; SIZE] {
    row(3, b"CARD", &[text(b"RIG1"), int(value)]).0
}

/// The answer to a record and the state after it.
fn taken(mut window: Window, record: &[u8]) -> (Result<Answer, u8>, Window) {
    let answer = window.take(record);
    (answer, window)
}

fn answer(sum: i64, least: i32, largest: i32) -> Result<Answer, u8> {
    Ok(Answer { sum, least, largest })
}

#[test]
fn a_beginning_asks_for_a_width_of_1_to_16_and_for_no_column() {
    for column in [0, 3, 4, 256, u64::MAX] {
        for width in 1..=16 {
            assert_eq!(begin(width, column), Ok(window(width, column, &[])));
        }
        for width in [0, 17, 18, 256, 257, 1 << 32, (1 << 32) + 1, u64::MAX] {
            assert_eq!(begin(width, column), Err(23), "{width}");
        }
    }
}

#[test]
fn a_state_of_no_width_or_of_more_rows_is_refused_before_any_record() {
    let wrong = [
        window(0, 1, &[]),
        window(0, 1, &[5]),
        window(17, 1, &[]),
        window(17, 1, &[1; 16]),
        window(257, 1, &[1]),
        window(u64::MAX, 1, &[]),
        window(1, 1, &[1, 2]),
        window(15, 1, &[1; 16]),
        window(1, 4, &[1, 2]),
    ];
    for state in wrong {
        for record in [&second(7)[..], &second(7)[..103], &[], &pick(0, 0).0, &[255; SIZE]] {
            assert_eq!(taken(state, record), (Err(23), state));
        }
    }
}

#[test]
fn a_state_of_just_as_many_rows_is_taken() {
    let (found, left) = taken(window(3, 1, &[-9, 4, 5]), &second(6));
    assert_eq!(found, answer(15, 4, 6));
    assert_eq!(left, window(3, 1, &[4, 5, 6]));
    let (found, left) = taken(window(1, 1, &[8]), &second(-8));
    assert_eq!(found, answer(-8, -8, -8));
    assert_eq!(left, window(1, 1, &[-8]));
    let (found, left) = taken(window(16, 1, &[i32::MIN; 16]), &second(i32::MIN));
    assert_eq!(found, answer(-34_359_738_368, i32::MIN, i32::MIN));
    assert_eq!(left, window(16, 1, &[i32::MIN; 16]));
}

#[test]
fn a_state_of_fewer_rows_only_grows() {
    let (found, left) = taken(window(3, 1, &[i32::MAX, 4]), &second(i32::MAX));
    assert_eq!(found, answer(4_294_967_298, 4, i32::MAX));
    assert_eq!(left, window(3, 1, &[i32::MAX, 4, i32::MAX]));
}

#[test]
fn a_refused_record_leaves_the_state() {
    let good = second(7);
    let long = [&good[..], &[0]].concat();
    let site = row(8, b"CARD", &[text(b"RIG1"), int(7)]).0;
    let variable = row(3, b"CARD", &[text(b"RIG1"), var(7)]).0;
    let unknown = Record(good).byte(0, 4).0;
    let others = [&[][..], &good[..1], &good[..103], &long, &[good, good].concat()];
    let fields = [&site[..], &variable, &unknown, &[0; SIZE], &Record(good).byte(88, 1).0];
    let no_rows = [&alias(0, 1, 0).0[..], &table(3, b"CARD", &[TEXT, INT]).0, &start(0, 0).0];
    for record in [&others[..], &fields, &no_rows].concat() {
        for state in [window(2, 1, &[]), window(2, 1, &[3]), window(2, 1, &[3, 4])] {
            assert_eq!(taken(state, record), (Err(24), state), "{record:?}");
        }
    }
}

#[test]
fn a_column_without_an_int_is_no_fault_of_the_state() {
    let values = [int(1), text(b"2   "), loc(3)];
    for (column, wanted) in [(0, answer(1, 1, 1)), (1, Err(24)), (2, Err(24)), (3, Err(24))] {
        let state = window(1, column, &[]);
        assert_eq!(taken(state, &row(0, b"CARD", &values).0).0, wanted, "{column}");
    }
    for column in [4, 5, 256, 1 << 32, u64::MAX] {
        let state = window(16, column, &[1, 2]);
        assert_eq!(taken(state, &row(0, b"CARD", &[int(1); 4]).0), (Err(24), state), "{column}");
    }
}

#[test]
fn a_state_is_88_bytes() {
    let bytes = window(3, 258, &[-2, 513]).to_bytes();
    let mut wanted = [0; STATE];
    (wanted[0], wanted[8], wanted[9], wanted[16]) = (3, 2, 1, 2);
    wanted[24..32].copy_from_slice(&[0xFE, 0xFF, 0xFF, 0xFF, 1, 2, 0, 0]);
    assert_eq!(STATE, 88);
    assert_eq!(bytes, wanted);
    assert_eq!(Window::from_bytes(&bytes), Ok(window(3, 258, &[-2, 513])));
}

#[test]
fn states_come_back_from_their_bytes() {
    let good =
        [window(1, 0, &[]), window(1, 3, &[i32::MIN]), window(16, u64::MAX, &[i32::MAX; 16])];
    for state in good {
        assert_eq!(Window::from_bytes(&state.to_bytes()), Ok(state));
    }
    for state in [window(0, 0, &[]), window(17, 0, &[1]), window(2, 0, &[1, 2, 3])] {
        assert_eq!(Window::from_bytes(&state.to_bytes()), Err(23), "{state:?}");
    }
}

#[test]
fn bytes_that_are_no_state_are_refused() {
    let good = window(16, 1, &[5, 6]).to_bytes();
    for length in [0, 1, 24, 87] {
        assert_eq!(Window::from_bytes(&good[..length]), Err(23), "{length} bytes");
    }
    assert_eq!(Window::from_bytes(&[&good[..], &[0]].concat()), Err(23));
    // The higher bytes of width and number, and each byte past the Ints.
    for at in (1..8).chain(17..24).chain(32..STATE) {
        let mut bytes = good;
        bytes[at] = 1;
        assert_eq!(Window::from_bytes(&bytes), Err(23), "byte {at}");
    }
    for held in [17, 18, 255] {
        let mut bytes = window(16, 1, &[5; 16]).to_bytes();
        bytes[16] = held;
        assert_eq!(Window::from_bytes(&bytes), Err(23), "{held} Ints");
    }
}

/// The Int that a record brings to a window of this column. Loading misses only the table of a good
/// row that stands alone.
fn brought(record: &[u8], column: u64) -> Option<i32> {
    load(record).is_err_and(|fault| fault.number == 7).then_some(())?;
    let at = 56 + 8 * usize::try_from(column).ok().filter(|column| *column < 4)?;
    let [1, 0, 0, 0, a, b, c, d] = record[at..at + 8] else {
        return None;
    };
    Some(i32::from_le_bytes([a, b, c, d]))
}

/// What the last good records come to, out of all since the beginning.
fn over_last(good: &[i32], width: u64) -> Result<Answer, u8> {
    let last = &good[good.len().saturating_sub(width as usize)..];
    let (least, largest) = (last.iter().min(), last.iter().max());
    let sum = last.iter().map(|int| i64::from(*int)).sum();
    answer(sum, *least.expect("one at least"), *largest.expect("one at least"))
}

/// Each record meets the bytes that the one before left.
#[test]
fn each_answer_is_that_of_the_last_good_records() {
    for seed in 0..1_000 {
        let stream = stream(seed);
        let [width, column] = [&stream.width, &stream.column].map(|word| decimal(word.as_bytes()));
        let (width, column) = (width.expect("digits"), column.expect("digits"));
        let Ok(begun) = begin(width, column) else {
            assert!(!(1..=16).contains(&width));
            continue;
        };
        let (mut good, mut state) = (Vec::new(), begun.to_bytes());
        for record in stream.bytes.chunks(SIZE) {
            let mut window = Window::from_bytes(&state).expect("bytes of a state");
            let brought = brought(record, column);
            good.extend(brought);
            let wanted = brought.map_or(Err(24), |_| over_last(&good, width));
            assert_eq!(window.take(record), wanted, "seed {seed}");
            state = window.to_bytes();
        }
    }
}
