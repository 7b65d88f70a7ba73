//! A net as its text says it: one item for each record, in file order.

use crate::token::Place;
use engine::{Act, Columns, Locality, Pick, Row, Site, Text};

/// A statement of the text, which becomes one record.
pub struct Statement {
    pub place: Place,
    /// Behind its last word or sign.
    pub end: Place,
    pub item: Item,
}

pub enum Item {
    Alias {
        site: Site,
        locality: Locality,
        meant: Site,
    },
    Table {
        site: Site,
        name: Text,
        columns: Columns,
    },
    Row {
        site: Site,
        name: Text,
        row: Row,
    },
    /// Apart, since it is far larger than the others.
    Step(Box<Step>),
    Start {
        site: Site,
        node: Target,
    },
    Pick(Pick),
    /// It breaks the grammar; what it was meant for, if its first word says that.
    Broken(Option<Group>),
}

/// The groups of statements, in the order that a file has them.
#[derive(Clone, Copy, PartialEq, Eq, PartialOrd, Ord, Debug)]
pub enum Group {
    Aliases,
    Tables,
    Rows,
    Steps,
    Starts,
    Picks,
}

impl Item {
    pub fn group(&self) -> Option<Group> {
        Some(match self {
            Item::Alias { .. } => Group::Aliases,
            Item::Table { .. } => Group::Tables,
            Item::Row { .. } => Group::Rows,
            Item::Step(_) => Group::Steps,
            Item::Start { .. } => Group::Starts,
            Item::Pick(_) => Group::Picks,
            Item::Broken(group) => return *group,
        })
    }

    pub fn is_step(&self) -> bool {
        self.group() == Some(Group::Steps)
    }
}

impl Group {
    /// A statement of the group, in the words of the text.
    pub fn one(self) -> &'static str {
        match self {
            Group::Aliases => "an alias",
            Group::Tables => "a table",
            Group::Rows => "a row",
            Group::Steps => "a step",
            Group::Starts => "a start",
            Group::Picks => "a pick",
        }
    }
}

/// A node whose targets are still labels. The body in a loop's act means nothing yet.
pub struct Step {
    pub act: Act,
    pub body: Option<Target>,
    pub next: Next,
}

pub enum Next {
    /// The step below in the same process; the last one of a process ends.
    Below,
    End,
    To(Target),
}

/// A node by its label or its number.
pub enum Target {
    Label(String, Place),
    Node(u8),
}
