//! What the generator promises about its streams.

use generate::stream::stats::Stats;
use generate::stream::{examples, stream};

#[test]
fn a_seed_gives_one_stream() {
    for seed in 0..50 {
        let (once, again) = (stream(seed), stream(seed));
        assert_eq!((once.width, once.column), (again.width, again.column));
        assert_eq!(once.bytes, again.bytes);
    }
}

#[test]
fn no_sort_of_record_is_rare_in_streams() {
    let stats = Stats::of(0..3_000);
    assert!(stats.shares().all(|share| share >= 1.0), "{stats}");
}

#[test]
fn streams_have_none_to_sixty_records() {
    let lengths: Vec<usize> = (0..3_000).map(|seed| stream(seed).bytes.len()).collect();
    assert!(lengths.contains(&0));
    assert!(lengths.iter().any(|length| *length >= 60 * 104));
    assert!(lengths.iter().all(|length| *length < 61 * 104));
}

#[test]
fn the_engine_prints_what_was_computed_by_hand() {
    for example in examples::all() {
        let number = |digits: &str| engine::decimal(digits.as_bytes()).expect("digits");
        let (width, column) = (number(example.width), number(example.column));
        let mut text = Vec::new();
        engine::netwindow(width, column, &mut &example.stream[..], &mut text).expect("in memory");
        assert_eq!(String::from_utf8_lossy(&text), example.text, "{}", example.name);
    }
}
