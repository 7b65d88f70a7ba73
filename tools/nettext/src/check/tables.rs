//! Tables and their rows: checks 6 to 8.

use super::{At, Faults, Words};
use crate::item::{Group, Item, Statement};
use crate::near::{did_you_mean, nearest};
use crate::print::{columns as kinds, kind, name as shown_name, value};
use engine::{number, Columns, Kind, Site, Text, Value};
use std::collections::HashMap;

// The limits of a net.
const TABLES: usize = 8;
const ROWS: usize = 16;

/// A table by its site and name.
type Key = (Site, Text);

/// The tables so far, and those of the whole text.
#[derive(Default)]
pub struct Tables {
    so_far: HashMap<Key, Table>,
    /// The line of each table of the text, also below.
    lines: HashMap<Key, usize>,
    /// Whether a table may be missing here, since its statement breaks the grammar.
    lost: bool,
}

struct Table {
    columns: Columns,
    line: usize,
    rows: usize,
}

impl Tables {
    pub fn new(statements: &[Statement]) -> Tables {
        let mut tables = Tables::default();
        for statement in statements {
            match statement.item {
                Item::Table { site, name, .. } => {
                    tables.lines.entry((site, name)).or_insert(statement.place.line);
                }
                Item::Broken(group) => tables.lost |= matches!(group, None | Some(Group::Tables)),
                _ => {}
            }
        }
        tables
    }

    pub fn check_table(&self, at: At, site: Site, name: Text, faults: &mut Faults) {
        if let Some(table) = self.so_far.get(&(site, name)) {
            faults.add(number::REPEATED, at, || repeated((site, name), table.line));
        } else if self.so_far.len() == TABLES {
            faults.add(number::TOO_MANY, at, too_many_tables);
        }
    }

    pub fn check_row(&self, at: At, key: Key, row: &[Value], faults: &mut Faults) {
        match self.so_far.get(&key) {
            None if self.lost => {}
            None => faults.add(number::MISFIT_ROW, at, || self.absent(key, row)),
            Some(table) if !fits(&table.columns, row) => {
                faults.add(number::MISFIT_ROW, at, || misfit(key.1, table, row));
            }
            Some(table) if table.rows == ROWS => {
                faults.add(number::TOO_MANY, at, || too_many_rows(key));
            }
            Some(_) => {}
        }
    }

    pub fn declare(&mut self, key: Key, columns: Columns, line: usize) {
        self.so_far.entry(key).or_insert(Table { columns, line, rows: 0 });
    }

    pub fn count_row(&mut self, key: Key) {
        if let Some(table) = self.so_far.get_mut(&key) {
            table.rows += 1;
        }
    }

    /// A row's table is not there: perhaps it is below, at another site or of another name.
    fn absent(&self, key: Key, row: &[Value]) -> Words {
        let shown = table(key);
        if let Some(line) = self.lines.get(&key) {
            let wrong = format!("{shown} stands below its row, in line {line}");
            return (wrong, "put the tables above all rows".to_owned());
        }
        let wrong = format!("no {shown} is declared{}", self.instead(key));
        let given: Columns = row.iter().map(|value| value.kind()).collect();
        (
            wrong,
            format!(
                "correct name or site, or declare it above the rows: {shown} {}",
                kinds(&given)
            ),
        )
    }

    /// The table that was perhaps meant, as the end of a message.
    fn instead(&self, (site, name): Key) -> String {
        let other_sites = self.lines.iter().filter(|((_, other), _)| *other == name);
        if let Some(((other, _), line)) = other_sites.min_by_key(|(_, line)| **line) {
            return format!("; there is one at site {} (line {line})", other.0);
        }
        let here = self.lines.keys().filter(|(other, _)| *other == site);
        let mut names: Vec<String> = here.map(|(_, name)| shown_name(*name)).collect();
        names.sort_unstable();
        did_you_mean(nearest(&shown_name(name), names.iter().map(String::as_str)))
    }
}

/// A table as its declaration begins.
fn table((site, name): Key) -> String {
    format!("table {} at site {}", shown_name(name), site.0)
}

fn fits(columns: &Columns, row: &[Value]) -> bool {
    row.len() == columns.len() && wrong_columns(columns, row).next().is_none()
}

/// The columns whose kind is not that of the value: number, kind and value.
fn wrong_columns<'a>(
    columns: &'a Columns,
    row: &'a [Value],
) -> impl Iterator<Item = (usize, Kind, Value)> + 'a {
    let pairs = columns.iter().zip(row).enumerate();
    let columns = pairs.map(|(column, (kind, value))| (column, *kind, *value));
    columns.filter(|(_, kind, value)| value.kind() != *kind)
}

fn misfit(name: Text, table: &Table, row: &[Value]) -> Words {
    let (name, declared) = (shown_name(name), kinds(&table.columns));
    let line = table.line;
    if row.len() != table.columns.len() {
        let (expected, given) =
            (counted(table.columns.len(), "column"), counted(row.len(), "value"));
        let wrong = format!("{name} has {expected}, and the row {given}");
        return (wrong, format!("give it values of {declared}, as line {line} declares"));
    }
    let wrong = wrong_columns(&table.columns, row).map(|(column, expected, given)| {
        let (expected, kind) = (kind(expected), kind(given.kind()));
        let given = value(given);
        format!("column {column} of {name} is {expected}, and the row gives the {kind} {given}")
    });
    let wrong = wrong.collect::<Vec<_>>().join("; ");
    (wrong, format!("give values of {declared}, as line {line} declares; columns count from 0"))
}

fn counted(count: usize, what: &str) -> String {
    let plural = if count == 1 { "" } else { "s" };
    format!("{count} {what}{plural}")
}

fn repeated(key: Key, line: usize) -> Words {
    let wrong = format!("{} came before, in line {line}", table(key));
    (wrong, "remove one of the two, or rename it".to_owned())
}

fn too_many_tables() -> Words {
    let wrong = format!("this is table {}, and a net has at most {TABLES}", TABLES + 1);
    (wrong, "put rows of the same columns into one table, or leave a table out".to_owned())
}

fn too_many_rows(key: Key) -> Words {
    let wrong =
        format!("this is row {} of {}, and a table has at most {ROWS}", ROWS + 1, table(key));
    (wrong, "spread the rows over several tables".to_owned())
}
