//! Records as statements.

use super::operand::{columns, name, row};
use super::step::step;
use crate::names::Names;
use engine::{decode, Act, Loop, Node, Record, RECORD_SIZE};
use std::collections::BTreeSet;
use std::mem::discriminant;

/// The records of a file.
pub struct Printer<'a> {
    slots: &'a [Slot],
    /// Nodes are named `n7`; one that is not there, or does not read, `node 7`.
    names: Names,
    /// The nodes that need a label: those of starts, bodies and nexts that are not the node below.
    targets: BTreeSet<usize>,
    /// The next of the node just above; a process begins where that is another node than this.
    next: Option<usize>,
}

/// A record, and the number that it has if it is a node.
pub struct Slot {
    /// None where it does not read.
    pub record: Option<Record>,
    node: usize,
}

/// The records, those that do not read among them.
pub fn slots(records: &[[u8; RECORD_SIZE]]) -> Vec<Slot> {
    let mut nodes = 0;
    let slot = |bytes: &[u8; RECORD_SIZE]| {
        let node = nodes;
        nodes += usize::from(matches!(bytes[0], 16..=26));
        Slot { record: decode(bytes), node }
    };
    records.iter().map(slot).collect()
}

impl<'a> Printer<'a> {
    pub fn new(slots: &'a [Slot]) -> Printer<'a> {
        let labels = slots.iter().filter(|slot| slot.is_node());
        let labels = labels.map(|slot| (slot.node, format!("n{}", slot.node))).collect();
        Printer { slots, names: Names::Labels(labels), targets: targets(slots), next: None }
    }

    /// The statement of a record with a mark above it; empty for one that does not read.
    pub fn record(&mut self, place: usize, mark: &str) -> String {
        let Slot { record: Some(record), node: number } = &self.slots[place] else {
            return String::new();
        };
        let above = place.checked_sub(1).and_then(|above| self.slots[above].record.as_ref());
        let blank = match above {
            Some(above) if discriminant(above) != discriminant(record) => "\n",
            _ => "",
        };
        if !matches!(above, Some(Record::Node(_))) {
            self.next = None;
        }
        match record {
            Record::Node(node) => {
                let process = if blank.is_empty() && above.is_some() { "\n" } else { "" };
                let heading = self.heading(*number, process);
                format!("{blank}{heading}{}", self.node(node, place, mark))
            }
            other => format!("{blank}{mark}{}\n", self.statement(other)),
        }
    }

    fn statement(&self, record: &Record) -> String {
        match record {
            Record::Alias { site, locality, meant } => {
                format!("alias @{} at site {} is site {}", locality.0, site.0, meant.0)
            }
            Record::Table { site, name: table, columns: kinds } => {
                format!("table {} at site {} {}", name(*table), site.0, columns(kinds))
            }
            Record::Row { site, name: table, row: values } => {
                format!("row {} in {} at site {}", row(values), name(*table), site.0)
            }
            Record::Node(node) => step(&node.act, &self.names),
            Record::Start { site, node } => {
                format!("start {} at site {}", self.names.target(*node), site.0)
            }
            Record::Pick(pick) => format!("pick thread {} row {}", pick.thread, pick.row),
        }
    }

    /// A node is in the process of the one above where that one goes on to it.
    fn heading(&self, number: usize, blank: &str) -> String {
        if self.next != Some(number) {
            return format!("{blank}process n{number}:\n");
        }
        let is_target = self.targets.contains(&number);
        if is_target {
            format!("n{number}:\n")
        } else {
            String::new()
        }
    }

    fn node(&mut self, node: &Node, place: usize, mark: &str) -> String {
        let mut text: String = mark.lines().map(|line| format!("    {line}\n")).collect();
        text += &format!("    {}", step(&node.act, &self.names));
        let below = self.slots.get(place + 1).filter(|slot| slot.is_node()).map(|slot| slot.node);
        self.next = node.next.map(usize::from);
        match node.next {
            Some(next) if self.next != below => {
                text += &format!(" then {}\n", self.names.target(next));
            }
            _ => text.push('\n'),
        }
        text
    }
}

impl Slot {
    fn is_node(&self) -> bool {
        matches!(self.record, Some(Record::Node(_)))
    }
}

fn targets(slots: &[Slot]) -> BTreeSet<usize> {
    let mut targets = BTreeSet::new();
    for slot in slots {
        match &slot.record {
            Some(Record::Node(node)) => {
                let next = node.next.map(usize::from).filter(|next| *next != slot.node + 1);
                targets.extend(next.into_iter().chain(body(node)));
            }
            Some(Record::Start { node, .. }) => {
                targets.insert(usize::from(*node));
            }
            _ => {}
        }
    }
    targets
}

fn body(node: &Node) -> Option<usize> {
    match node.act {
        Act::Loop(Loop { body, .. }) => Some(usize::from(body)),
        _ => None,
    }
}
