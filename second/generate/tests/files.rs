//! What the generator promises about its files.

use generate::stats::Stats;
use generate::{file, sweep, Class};

const SHARE: f64 = 1.0;

#[test]
fn a_seed_gives_one_file() {
    for (_, class) in Class::NAMES {
        for seed in 0..50 {
            assert_eq!(file(class, seed), file(class, seed));
        }
    }
}

#[test]
fn no_refusal_and_no_kind_done_is_rare_among_valid_files() {
    let stats = Stats::of(Class::Valid, 0..3_000);
    assert!(stats.balanced(), "{stats}");
    assert!((11..=20).all(|number| stats.refusal_share(number) >= SHARE), "{stats}");
    assert!((16..=26).all(|kind| stats.done_share(kind) >= SHARE), "{stats}");
}

#[test]
fn no_sort_of_round_end_is_rare_among_valid_files() {
    let stats = Stats::of(Class::Valid, 0..3_000);
    assert!(stats.ended_shares().all(|share| share >= SHARE), "{stats}");
}

#[test]
fn no_sort_of_page_is_rare_among_valid_files() {
    let stats = Stats::of(Class::Valid, 0..3_000);
    assert!(stats.page_shares().all(|share| share >= SHARE), "{stats}");
}

#[test]
fn no_sort_of_look_is_rare_among_valid_files() {
    let stats = Stats::of(Class::Valid, 0..3_000);
    assert!(stats.look_shares().all(|share| share >= SHARE), "{stats}");
}

#[test]
fn no_fault_is_rare_among_damaged_files() {
    let stats = Stats::of(Class::Damaged, 0..3_000);
    assert!(stats.balanced(), "{stats}");
    assert!((1..=9).all(|number| stats.fault_share(number) >= SHARE), "{stats}");
}

#[test]
fn damaged_files_include_none_and_very_long_ones() {
    let lengths: Vec<usize> = (0..3_000).map(|seed| file(Class::Damaged, seed).len()).collect();
    assert!(lengths.contains(&0));
    assert!(lengths.contains(&(256 * 104)));
    assert!(lengths.contains(&(257 * 104)));
    assert!(lengths.iter().any(|length| *length > 1_000 * 104));
}

/// A changed byte is a fault, or another value that its field allows.
#[test]
fn a_sweep_changes_each_byte_of_each_record() {
    let round = sweep::round() as u64;
    let base = file(Class::Sweep, 0);
    for index in 1..2 * round {
        let swept = file(Class::Sweep, index);
        assert_eq!(swept.len(), base.len());
        let at = (index % round) as usize;
        let elsewhere = |(place, (a, b)): (usize, (&u8, &u8))| place != 0 && place != at && a != b;
        assert!(!base.iter().zip(&swept).enumerate().any(elsewhere));
        assert!(at == 0 || swept[at] != base[at]);
    }
}

#[test]
fn the_base_of_the_sweep_loads() {
    let mut base = file(Class::Sweep, 0);
    base[0] = base[0].wrapping_sub(1);
    assert!(engine::load(&base).is_ok());
}
