//! Checks 2 and 5 to 8: how many statements there are, in which order, and what they declare.

use super::tables::Tables;
use super::{records, At, Faults, Words};
use crate::item::{Group, Item, Statement};
use engine::{number, Locality, Site};
use std::collections::{BTreeMap, HashMap};

// The limits of a net.
const RECORDS: usize = 256;
const STEPS: usize = 128;
const STARTS: usize = 8;

pub fn check(statements: &[Statement], faults: &mut Faults) {
    if let Some((at, _)) = records(statements).nth(RECORDS) {
        faults.add(number::RECORDS, at, || too_many_records(statements.len()));
    }
    let mut walk = Walk { tables: Tables::new(statements), ..Walk::default() };
    for (at, statement) in records(statements) {
        match walk.misplaced(&statement.item) {
            Some(first) => faults.add(number::ORDER, at, || out_of_order(&statement.item, first)),
            None => walk.check(at, &statement.item, faults),
        }
        walk.take(at, &statement.item);
    }
}

fn too_many_records(count: usize) -> Words {
    let wrong = format!("this is statement {}, and a net has at most {RECORDS}", RECORDS + 1);
    (wrong, format!("split the text, which has {count}: fewer rows or picks in one file"))
}

/// What the statements so far declare.
#[derive(Default)]
struct Walk {
    /// The line of the first statement of each group.
    groups: BTreeMap<Group, usize>,
    /// The line of each alias.
    aliases: HashMap<(Site, Locality), usize>,
    tables: Tables,
    steps: usize,
    starts: usize,
}

impl Walk {
    /// The first statement of a later group above this one, by its group and line.
    fn misplaced(&self, item: &Item) -> Option<(Group, usize)> {
        let group = item.group().filter(|_| !matches!(item, Item::Broken(_)))?;
        let later = self.groups.iter().filter(|(other, _)| **other > group);
        later.map(|(group, line)| (*group, *line)).min_by_key(|(_, line)| *line)
    }

    fn check(&self, at: At, item: &Item, faults: &mut Faults) {
        match item {
            Item::Alias { site, locality, .. } => {
                if let Some(line) = self.aliases.get(&(*site, *locality)) {
                    faults.add(number::REPEATED, at, || repeated_alias(*site, *locality, *line));
                }
            }
            Item::Table { site, name, .. } => self.tables.check_table(at, *site, *name, faults),
            Item::Row { site, name, row } => {
                self.tables.check_row(at, (*site, *name), row, faults);
            }
            Item::Step(_) if self.steps == STEPS => {
                faults.add(number::TOO_MANY, at, too_many_steps);
            }
            Item::Start { .. } if self.starts == STARTS => {
                faults.add(number::TOO_MANY, at, too_many_starts);
            }
            _ => {}
        }
    }

    /// Whatever was wrong with it, the statement counts for those below.
    fn take(&mut self, at: At, item: &Item) {
        let line = at.place.line;
        if let Some(group) = item.group() {
            self.groups.entry(group).or_insert(line);
            self.steps += usize::from(group == Group::Steps);
            self.starts += usize::from(group == Group::Starts);
        }
        match item {
            Item::Alias { site, locality, .. } => {
                self.aliases.entry((*site, *locality)).or_insert(line);
            }
            Item::Table { site, name, columns } => {
                self.tables.declare((*site, *name), *columns, line);
            }
            Item::Row { site, name, .. } => self.tables.count_row((*site, *name)),
            _ => {}
        }
    }
}

fn out_of_order(item: &Item, (later, line): (Group, usize)) -> Words {
    let one = item.group().map_or("this", Group::one);
    let wrong = format!("{one} stands below {} (line {line})", later.one());
    let order = "aliases, tables, rows, processes, starts, picks";
    (wrong, format!("move it above line {line}; a text has {order}, in this order"))
}

fn repeated_alias(site: Site, locality: Locality, line: usize) -> Words {
    let wrong = format!("alias @{} at site {} came before, in line {line}", locality.0, site.0);
    (wrong, "remove one of the two, or take another locality".to_owned())
}

fn too_many_steps() -> Words {
    let wrong = format!("this is step {}, and a net has at most {STEPS}", STEPS + 1);
    let to_do = "shorten the processes; starts, loops and nexts may share one by its label";
    (wrong, to_do.to_owned())
}

fn too_many_starts() -> Words {
    let wrong = format!("this is start {}, and a net has at most {STARTS} threads", STARTS + 1);
    (wrong, "start fewer processes; a parallel loop forks threads as it goes".to_owned())
}
