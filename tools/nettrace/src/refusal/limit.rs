//! Number 20: which limit was met.

use crate::scene::Scene;
use crate::words::{counted, table};
use engine::{Act, Loop};

const ROWS: usize = 16;
const TABLES: usize = 8;
const THREADS: usize = 8;
const ENTRIES: usize = 8;

pub fn case(scene: &Scene) -> Option<String> {
    match scene.act {
        Act::Insert { .. } => rows(scene, 1, "this is one more"),
        Act::InsertTable { read, .. } => {
            let more = scene.read()?.rows.len();
            rows(scene, more, &format!("T{read} has {more} more"))
        }
        Act::Create { .. } => full(scene.before.tables.len(), TABLES, "tables stand"),
        Act::Loop(Loop { parallel: true, .. }) => {
            full(scene.before.threads.len(), THREADS, "threads stand")
        }
        Act::Loop(_) => {
            full(scene.thread.stack.len(), ENTRIES, "entries are on the thread's stack")
        }
        _ => None,
    }
}

fn rows(scene: &Scene, more: usize, added: &str) -> Option<String> {
    let table = scene.table()?;
    let rows = table.relation.rows.len();
    let (name, has) = (self::table(table), counted(rows, "row"));
    (rows + more > ROWS).then(|| format!("{name} has {has}, and {added}; {ROWS} are the most"))
}

fn full(count: usize, most: usize, what: &str) -> Option<String> {
    (count >= most).then(|| format!("{count} {what}, which are the most"))
}
