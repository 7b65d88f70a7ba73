//! Measuring.

use crate::clock::timed;
use crate::work::{best, Work};
use std::thread::sleep;
use std::time::Duration;

#[test]
fn time_asleep_does_not_count() {
    let ((), time) = timed(|| sleep(Duration::from_millis(50)));
    assert!(time < Duration::from_millis(25), "{time:?}");
}

#[test]
fn works_take_turns() {
    let turns = std::cell::RefCell::new(String::new());
    let said = |word| {
        turns.borrow_mut().push_str(word);
        7
    };
    let first = Work::new("first", 1, 7, || said("a"));
    let second = Work::new("second", 1, 7, || said("b"));
    assert!(matches!(best(3, [Some(first), None, Some(second)]), [Some(_), None, Some(_)]));
    assert_eq!(*turns.borrow(), "ababab");
}

#[test]
#[should_panic(expected = "proved gives another sum than the second engine")]
fn another_sum_is_an_error() {
    best(1, [Some(Work::new("proved", 1, 7, || 8))]);
}
