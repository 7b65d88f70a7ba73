//! Each of the wrong engines that a text shows is told apart by the generated files.

use compare::cases::{stored, stored_pages};
use engine::quirk::Quirk;
use generate::{file, Class};
use std::path::Path;

const FILES: u64 = 2_000;

/// Generated files with what the engine prints for them.
fn cases(text: fn(&[u8]) -> Vec<u8>) -> Vec<(Vec<u8>, Vec<u8>)> {
    let files = (0..FILES).map(|seed| file(Class::Mixed, seed));
    files
        .map(|file| {
            let text = text(&file);
            (file, text)
        })
        .collect()
}

/// Whether an engine gone wrong prints something else for one of the files.
fn differs(quirk: Quirk, cases: &[(Vec<u8>, Vec<u8>)], text: fn(&[u8]) -> Vec<u8>) -> bool {
    cases.iter().any(|(file, wanted)| quirk.during(|| text(file)) != *wanted)
}

#[test]
fn generated_files_tell_wrong_engines_apart() {
    let cases = cases(engine::netrun);
    for quirk in Quirk::OF_RUNS.into_iter().chain(Quirk::OF_ROUNDS) {
        assert!(differs(quirk, &cases, engine::netrun), "{quirk:?} looks right on {FILES} files");
    }
}

/// What is wrong with a page is no matter to netrun.
#[test]
fn generated_files_tell_wrong_pages_apart() {
    let (runs, pages) = (cases(engine::netrun), cases(engine::netpage));
    for quirk in Quirk::OF_PAGES {
        assert!(differs(quirk, &pages, engine::netpage), "{quirk:?} looks right on {FILES} files");
        assert!(!differs(quirk, &runs, engine::netrun), "{quirk:?} shows in netrun's text");
    }
}

/// How many fields were looked at is no matter to netrun.
#[test]
fn generated_files_tell_wrong_looks_apart() {
    let (runs, looks) = (cases(engine::netrun), cases(engine::looked));
    for quirk in Quirk::OF_LOOKS {
        assert!(differs(quirk, &looks, engine::looked), "{quirk:?} looks right on {FILES} files");
        assert!(!differs(quirk, &runs, engine::netrun), "{quirk:?} shows in netrun's text");
    }
}

/// Those are held to the right engine net by net, in `wrong_rounds.rs`.
#[test]
fn no_text_shows_what_only_a_net_shows() {
    let runs = cases(engine::netrun);
    for quirk in Quirk::OF_NETS.into_iter().chain(Quirk::OF_NETS_BY_HAND) {
        assert!(!differs(quirk, &runs, engine::netrun), "{quirk:?} shows in netrun's text");
    }
}

fn directory() -> &'static Path {
    Path::new(concat!(env!("CARGO_MANIFEST_DIR"), "/examples"))
}

#[test]
fn stored_examples_tell_wrong_rounds_apart() {
    let stored = stored(directory()).expect("the stored examples");
    let cases: Vec<_> = stored.into_iter().map(|run| (run.file, run.text)).collect();
    for quirk in Quirk::OF_ROUNDS {
        assert!(differs(quirk, &cases, engine::netrun), "{quirk:?} looks right on the examples");
    }
}

#[test]
fn stored_pages_tell_wrong_pages_apart() {
    let stored = stored_pages(directory()).expect("the stored pages");
    let cases: Vec<_> = stored.into_iter().map(|page| (page.file, page.text)).collect();
    for quirk in Quirk::OF_PAGES {
        assert!(differs(quirk, &cases, engine::netpage), "{quirk:?} looks right on the examples");
    }
}

/// Their looks are not stored: the right engine says what they are.
#[test]
fn stored_examples_tell_wrong_looks_apart() {
    let stored = stored(directory()).expect("the stored examples");
    let looked = |file: Vec<u8>| (file.clone(), engine::looked(&file));
    let cases: Vec<_> = stored.into_iter().map(|run| looked(run.file)).collect();
    for quirk in Quirk::OF_LOOKS {
        assert!(differs(quirk, &cases, engine::looked), "{quirk:?} looks right on the examples");
    }
}

/// The accounts read steps by the plain definitions, so that they notice an engine that moves
/// other rows.
#[test]
fn accounts_notice_a_wrong_update() {
    let broken = (0..FILES).map(|seed| file(Class::Mixed, seed)).any(|file| {
        let picks = engine::load(&file).map(|(_, picks)| picks).unwrap_or_default();
        Quirk::UpdateAgain.during(|| engine::accounts::check(&file, &picks)).is_err()
    });
    assert!(broken);
}
