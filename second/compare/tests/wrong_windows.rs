//! Each of the wrong windows is told apart by the generated streams, by the stored ones, or by a
//! state made by hand.

use compare::cases::Case;
use compare::streams::{generated_stream, stored_streams, windows};
use engine::quirk::Quirk;
use engine::window::Window;
use engine::{netrun, List};
use generate::{file, Class};
use std::path::Path;

const STREAMS: u64 = 300;

fn generated() -> Vec<Case> {
    (0..STREAMS).map(generated_stream).collect()
}

/// Whether an engine gone wrong prints something else for one of the streams.
fn differs(quirk: Quirk, cases: &[Case]) -> bool {
    cases.iter().any(|case| {
        let text = quirk.during(|| windows(&case.arguments, &case.file));
        text.as_ref() != Some(&case.text)
    })
}

#[test]
fn generated_streams_tell_wrong_windows_apart() {
    let cases = generated();
    for quirk in Quirk::OF_WINDOWS {
        assert!(differs(quirk, &cases), "{quirk:?} looks right on {STREAMS} streams");
    }
}

#[test]
fn stored_streams_tell_wrong_windows_apart() {
    let directory = Path::new(concat!(env!("CARGO_MANIFEST_DIR"), "/streams"));
    let cases = stored_streams(directory).expect("the stored streams");
    for quirk in Quirk::OF_WINDOWS {
        assert!(differs(quirk, &cases), "{quirk:?} looks right on the stored streams");
    }
}

/// What is wrong with a window is no matter to netrun.
#[test]
fn wrong_windows_run_nets_rightly() {
    for file in (0..100).map(|seed| file(Class::Mixed, seed)) {
        let right = netrun(&file);
        for quirk in Quirk::OF_WINDOWS.into_iter().chain(Quirk::OF_WINDOWS_BY_HAND) {
            assert_eq!(quirk.during(|| netrun(&file)), right, "{quirk:?} shows in netrun's text");
        }
    }
}

/// A stream begins with a good state, and no record leaves another.
#[test]
fn only_a_state_made_by_hand_tells_which_is_judged_first() {
    let cases = generated();
    let mut state = Window { width: 1, column: 0, ints: List::default() };
    (0..2).for_each(|int| state.ints.push(int));
    for quirk in Quirk::OF_WINDOWS_BY_HAND {
        assert!(!differs(quirk, &cases), "{quirk:?} needs no hand");
        assert_eq!(state.clone().take(&[]), Err(23));
        assert_eq!(quirk.during(|| state.clone().take(&[])), Err(24), "{quirk:?} looks right");
    }
}
