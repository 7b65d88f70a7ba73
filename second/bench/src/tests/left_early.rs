//! Templates that leave every row at one field.

use crate::nets::left_early::files;
use engine::{look, run, sound, Done, Look, Pick};

#[test]
fn every_row_is_left_at_the_field_said() {
    for failing in [Some(0), Some(1), Some(2), Some(3), None] {
        let net = files(failing).start();
        assert!(sound(&net), "{failing:?}");
        let template = net.nodes[1].act.template().expect("a node with a template");
        let expected =
            Look { matches: failing.is_none(), fields: failing.map_or(4, |place| place + 1) };
        for row in net.tables.iter().flat_map(|table| table.relation.rows.iter()) {
            assert_eq!(look(template, &net.threads[0].variables, row), expected, "{failing:?}");
        }
    }
}

#[test]
fn every_pick_is_done() {
    let mut net = files(Some(0)).start();
    let answers = run(&mut net, &[Pick { thread: 0, row: 0 }; 126]);
    assert!(answers.iter().all(|answer| *answer == Ok(Done::NOTHING)));
}
