//! Files with the text that netrun must print for them, and of some their pages, computed by hand.

mod document;
mod loading;
mod looks;
mod loops;
mod pages;
mod rounds;
mod steps;

use crate::record::{file, pick, row, start, table, Name, Operand, Record};

pub struct Example {
    pub name: &'static str,
    pub file: Vec<u8>,
    /// What netrun must print.
    pub text: String,
    /// What netpage must print, where that was computed too.
    pub page: Option<String>,
}

impl Example {
    fn with_page(self, lines: &[&str]) -> Example {
        Example { page: Some(joined_lines(lines)), ..self }
    }
}

/// The few that stand in the repository's `examples`: the name there, and the example's own.
const SHOWN: [(&str, &str); 17] = [
    ("printed-run", "k-printed-run"),
    ("insert", "16-insert"),
    ("insert-table", "17-insert-table"),
    ("delete", "18-delete"),
    ("select", "19-select-constants"),
    ("select-variable", "20-select-variable"),
    ("update", "21-update-of-what-fits"),
    ("aggregates", "22-aggregates"),
    ("create", "23-create"),
    ("drop", "24-drop"),
    ("sequential-loop", "25-sequential"),
    ("round-bindings", "25-template-bound-anew"),
    ("parallel-loop", "26-parallel"),
    ("refused-steps", "refused-steps"),
    ("refused-file", "07-kind"),
    ("left-early", "left-early"),
    ("page", "page-year"),
];

pub fn shown() -> Vec<Example> {
    let mut all = all();
    let mut take = |(name, own): (&'static str, &str)| {
        let place = all.iter().position(|example| example.name == own)?;
        Some(Example { name, ..all.swap_remove(place) })
    };
    SHOWN.into_iter().map(|names| take(names).expect("an example of that name")).collect()
}

pub fn all() -> Vec<Example> {
    [
        document::all(),
        loading::all(),
        steps::all(),
        loops::all(),
        rounds::all(),
        looks::all(),
        pages::all(),
    ]
    .into_iter()
    .flatten()
    .collect()
}

fn example(name: &'static str, records: &[Record], lines: &[&str]) -> Example {
    example_of_bytes(name, file(records), lines)
}

fn example_of_bytes(name: &'static str, file: Vec<u8>, lines: &[&str]) -> Example {
    Example { name, file, text: joined_lines(lines), page: None }
}

/// The lines as one text, each ended by a line feed.
fn joined_lines(lines: &[&str]) -> String {
    lines.iter().flat_map(|line| [line, "\n"]).collect()
}

/// A table at a site with its rows.
fn filled(site: u8, name: &Name, columns: &[u8], rows: &[&[Operand]]) -> Vec<Record> {
    let rows = rows.iter().map(|values| row(site, name, values));
    std::iter::once(table(site, name, columns)).chain(rows).collect()
}

/// Nodes that a thread at site 0 runs from node 0, picked with these row places.
fn run(nodes: &[Record], rows: &[u8]) -> Vec<Record> {
    let picks = rows.iter().map(|place| pick(0, *place));
    nodes.iter().copied().chain([start(0, 0)]).chain(picks).collect()
}

fn joined(parts: &[&[Record]]) -> Vec<Record> {
    parts.concat()
}
