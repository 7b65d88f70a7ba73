//! Nets in one file, and what the second engine's calls give for them.

use crate::calls::picks;
use crate::nets::single;
use crate::second::calls::{answers, tables};
use engine::{load, netrun};

#[test]
fn files_are_at_their_limit() {
    let file = single::without_picks();
    let (net, picks) = load(&file).expect("a file that loads");
    assert_eq!(file.len(), 256 * 104);
    assert_eq!((net.nodes.len(), net.tables.len(), net.threads.len()), (56, 8, 8));
    assert!(picks.is_empty());
}

#[test]
fn picks_of_a_file_are_all_done() {
    let file = single::with_picks();
    let text = String::from_utf8(netrun(&file)).expect("a text");
    assert_eq!(file.len(), 256 * 104);
    assert_eq!(text.lines().filter(|line| line.contains(" done ")).count(), 222);
    assert_eq!(text.lines().filter(|line| line.ends_with(" done 16 16")).count(), 201);
}

#[test]
fn answers_are_laid_out_as_the_header_says() {
    let mut out = vec![7; 24 * 1_000];
    assert_eq!(answers(&single::without_picks(), &picks(1_000), &mut out), out.len());
    let (answers, _) = out.as_chunks::<24>();
    assert!(answers.iter().all(|answer| answer[0] == 0));
    let mut update = [0; 24];
    (update[8], update[16]) = (16, 16);
    assert!(answers.iter().filter(|answer| **answer == update).count() > 950);
}

#[test]
fn a_refused_pick_is_its_number_and_no_rows() {
    let mut out = [7; 24];
    assert_eq!(answers(&single::without_picks(), &[8, 0], &mut out), 24);
    let mut refused = [0; 24];
    refused[0] = 11;
    assert_eq!(out, refused);
}

#[test]
fn tables_are_136_records() {
    let mut out = vec![0; 14_144];
    assert_eq!(tables(&single::without_picks(), &picks(100), &mut out), out.len());
    assert!(load(&out).is_ok());
}
