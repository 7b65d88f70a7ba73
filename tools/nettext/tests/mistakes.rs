//! Whatever is done to a text, it has an error at a place of its own, or gives records that are
//! at most out of order, too many, or without the table, room or node that they name.

use engine::load;
use generate::{file, Class};
use nettext::{assemble, assemble_checked, dump, refused_file};

const PARTS: [&str; 14] =
    ["", " ", "\n", "(", ")", "\"", ",", ":", "!", "@", "x16", "-", "then node 255", "process p:"];

fn texts() -> impl Iterator<Item = String> {
    (0..20).filter_map(|seed| dump(&file(Class::Valid, seed)).ok())
}

/// The text with the part in place of some characters.
fn spoilt(text: &str, at: usize, length: usize, part: &str) -> String {
    let end = (at + length).min(text.len());
    format!("{}{part}{}", &text[..at], &text[end..])
}

fn spoilt_texts() -> impl Iterator<Item = String> {
    texts().flat_map(|text| {
        let places = (0..text.len()).step_by(37);
        let spoilt = places.map(|at| spoilt(&text, at, at % 5, PARTS[at % PARTS.len()]));
        spoilt.collect::<Vec<_>>()
    })
}

#[test]
fn errors_have_a_place_in_the_text() {
    let mut errors = 0;
    for text in spoilt_texts() {
        let Err(all) = assemble(&text) else {
            continue;
        };
        errors += 1;
        for error in all.told() {
            let place = error.place.expect("a place");
            let line = text.lines().nth(place.line - 1).unwrap_or_default();
            assert!(place.column <= line.chars().count() + 1, "{error:?} in {line}");
            assert!(error.shown("net", &text).ends_with("^\n"), "{error:?}");
        }
    }
    assert!(errors > 1_000, "{errors}");
}

/// The texts with two lines exchanged, or one of them in place of the other.
fn shuffled_texts() -> impl Iterator<Item = String> {
    texts().flat_map(|text| {
        let lines: Vec<&str> = text.lines().collect();
        let shuffled = (0..lines.len()).step_by(3).map(|at| {
            let other = (at * 7 + 11) % lines.len();
            let mut lines = lines.clone();
            match at % 2 {
                0 => lines.swap(at, other),
                _ => lines[at] = lines[other],
            }
            lines.join("\n")
        });
        shuffled.collect::<Vec<_>>()
    })
}

#[test]
fn what_assembles_has_known_kinds_and_fields_in_range() {
    let mut seen = [0; 10];
    let texts = spoilt_texts().chain(shuffled_texts());
    for file in texts.filter_map(|text| assemble(&text).ok()).map(|text| text.file) {
        if let Err(fault) = load(&file) {
            seen[usize::from(fault.number)] += 1;
        }
    }
    let [_, length, _, kind, field, order, _, misfit, ..] = seen;
    assert_eq!([length, kind, field], [0; 3]);
    assert!(order > 100 && misfit > 10, "{seen:?}");
}

/// The loader decides; where it refuses, its number and place are told first, in words of the text.
#[test]
fn what_is_told_agrees_with_loading() {
    let mut refused = 0;
    for text in spoilt_texts().chain(shuffled_texts()) {
        let checked = assemble_checked(&text).err();
        let Ok(assembled) = assemble(&text) else {
            assert!(checked.is_some());
            continue;
        };
        let Err(fault) = load(&assembled.file) else {
            assert_eq!(checked, None);
            continue;
        };
        let errors = checked.expect("a net that is refused");
        let first = &errors.told()[0].message;
        assert!(first.starts_with(&format!("load {} at {}: ", fault.number, fault.place)));
        assert!(!refused_file("", fault.number, fault.place).contains(first.as_str()), "{first}");
        refused += 1;
    }
    assert!(refused > 200, "{refused}");
}
