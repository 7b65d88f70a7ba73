//! The net: aliases, tables, nodes and threads.

use crate::list::List;
use crate::number;
use crate::operand::{Operand, Operands};
use crate::relation::{Columns, Relation};
use crate::value::{Locality, Site, Text, Value, PLACES};

pub const TABLES: usize = 8;
pub const NODES: usize = 128;
pub const THREADS: usize = 8;
pub const VARIABLES: u8 = 16;
pub const TABLE_VARIABLES: u8 = 2;

#[derive(Clone, PartialEq, Eq, Debug, Default)]
pub struct Net {
    pub aliases: Aliases,
    pub tables: Vec<Table>,
    pub nodes: Vec<Node>,
    pub threads: Vec<Thread>,
}

/// What each locality means at each site, by site and locality.
#[derive(Clone, PartialEq, Eq, Debug, Default)]
pub struct Aliases(pub [[Option<Site>; PLACES as usize]; PLACES as usize]);

#[derive(Clone, PartialEq, Eq, Debug)]
pub struct Table {
    pub site: Site,
    pub name: Text,
    pub relation: Relation,
}

pub type Variables = [Option<Value>; VARIABLES as usize];

pub type TableVariables = [Option<Relation>; TABLE_VARIABLES as usize];

#[derive(Clone, PartialEq, Eq, Debug)]
pub struct Thread {
    pub site: Site,
    pub variables: Variables,
    pub tables: TableVariables,
    pub stack: List<Entry, 8>,
    /// What each sequential loop's entry holds: the bindings of the moment the loop was first met.
    /// One for each of these entries, from the bottom of the stack to its top. They stand beside
    /// the stack because they are large and few.
    pub kept: Vec<Bindings>,
}

/// What a thread has bound.
#[derive(Clone, PartialEq, Eq, Debug, Default)]
pub struct Bindings {
    pub variables: Variables,
    pub tables: TableVariables,
}

#[derive(Clone, Copy, PartialEq, Eq, Debug)]
pub enum Entry {
    Run(u8),
    Loop { node: u8, left: Places },
}

/// A set of row places.
#[derive(Clone, Copy, PartialEq, Eq, Debug)]
pub struct Places(pub u16);

#[derive(Clone, PartialEq, Eq, Debug)]
pub struct Node {
    /// None: the entry is removed.
    pub next: Option<u8>,
    pub act: Act,
}

/// What a node does; each case has only the fields that its step speaks about.
#[derive(Clone, PartialEq, Eq, Debug)]
pub enum Act {
    Insert { into: Address, tuple: Operands },
    InsertTable { into: Address, read: u8 },
    Delete { from: Address, filter: Filter, bound: u8 },
    Select { from: Address, filter: Filter, tuple: Operands, bound: u8 },
    SelectVariable { read: u8, filter: Filter, tuple: Operands, bound: u8 },
    Update { at: Address, filter: Filter, tuple: Operands },
    Aggregate { over: Address, filter: Filter, function: Function, result: Operand },
    Create { at: Address, columns: Columns },
    Drop { at: Address },
    Loop(Loop),
}

/// Where a table is looked up.
#[derive(Clone, Copy, PartialEq, Eq, Debug)]
pub struct Address {
    pub name: Text,
    pub locality: Operand,
}

/// Which rows a step speaks about; without a predicate all that match.
#[derive(Clone, PartialEq, Eq, Debug)]
pub struct Filter {
    pub template: Operands,
    pub predicate: Option<Predicate>,
}

#[derive(Clone, Copy, PartialEq, Eq, Debug)]
pub struct Predicate {
    pub test: Test,
    pub left: Operand,
    pub right: Operand,
}

#[derive(Clone, Copy, PartialEq, Eq, Debug)]
pub enum Test {
    Equal,
    Unequal,
    Less,
    AtMost,
}

/// An aggregate function with its column; a count looks at none.
#[derive(Clone, Copy, PartialEq, Eq, Debug)]
pub enum Function {
    Count,
    Sum(u8),
    Least(u8),
    Largest(u8),
}

#[derive(Clone, PartialEq, Eq, Debug)]
pub struct Loop {
    pub parallel: bool,
    pub read: u8,
    pub template: Operands,
    pub body: u8,
}

/// The scheduler's choice of a thread place and a row place.
#[derive(Clone, Copy, PartialEq, Eq, Debug)]
pub struct Pick {
    pub thread: u8,
    pub row: u8,
}

impl Aliases {
    /// The site that a locality means at a site.
    pub fn meant(&self, site: Site, locality: Locality) -> Option<Site> {
        if locality == Locality::SELF {
            return Some(site);
        }
        self.0[usize::from(site.0)][usize::from(locality.0)]
    }
}

impl Thread {
    pub fn new(site: Site, node: u8) -> Thread {
        Thread {
            site,
            variables: Variables::default(),
            tables: TableVariables::default(),
            stack: List::from_iter([Entry::Run(node)]),
            kept: Vec::new(),
        }
    }

    pub fn bindings(&self) -> Bindings {
        Bindings { variables: self.variables, tables: self.tables }
    }

    pub fn table_variable(&self, variable: u8) -> Result<&Relation, u8> {
        self.tables[usize::from(variable)].as_ref().ok_or(number::UNBOUND)
    }

    /// Binds a table variable to an empty relation, to be filled in place.
    pub fn bind_table(&mut self, variable: u8, columns: Columns) -> &mut Relation {
        let relation = self.tables[usize::from(variable)].get_or_insert_with(Relation::default);
        relation.reset(columns);
        relation
    }
}

impl Default for Entry {
    fn default() -> Self {
        Entry::Run(0)
    }
}

impl Entry {
    pub fn node(self) -> u8 {
        match self {
            Entry::Run(node) | Entry::Loop { node, .. } => node,
        }
    }

    /// The loop that this is a loop entry of; none for an entry to run.
    pub fn looping(self, nodes: &[Node]) -> Option<&Loop> {
        match (self, &nodes.get(usize::from(self.node()))?.act) {
            (Entry::Loop { .. }, Act::Loop(looping)) => Some(looping),
            _ => None,
        }
    }
}

impl Places {
    /// The places below a count of at most 16.
    pub fn below(count: usize) -> Places {
        Places(((1u32 << count) - 1) as u16)
    }

    pub fn has(self, place: u8) -> bool {
        place < 16 && self.0 >> place & 1 == 1
    }

    pub fn without(self, place: u8) -> Places {
        Places(self.0 & !(1 << place))
    }

    pub fn is_empty(self) -> bool {
        self.0 == 0
    }

    pub fn iter(self) -> impl Iterator<Item = u8> {
        (0..16).filter(move |place| self.has(*place))
    }
}

impl Act {
    /// The kind byte of the node's record.
    pub fn kind(&self) -> u8 {
        match self {
            Act::Insert { .. } => 16,
            Act::InsertTable { .. } => 17,
            Act::Delete { .. } => 18,
            Act::Select { .. } => 19,
            Act::SelectVariable { .. } => 20,
            Act::Update { .. } => 21,
            Act::Aggregate { .. } => 22,
            Act::Create { .. } => 23,
            Act::Drop { .. } => 24,
            Act::Loop(Loop { parallel: false, .. }) => 25,
            Act::Loop(Loop { parallel: true, .. }) => 26,
        }
    }

    /// The template T of rows, where the kind has one. What an aggregate's result is matched with
    /// is no such template.
    pub fn template(&self) -> Option<&Operands> {
        match self {
            Act::Delete { filter, .. }
            | Act::Select { filter, .. }
            | Act::SelectVariable { filter, .. }
            | Act::Update { filter, .. }
            | Act::Aggregate { filter, .. } => Some(&filter.template),
            Act::Loop(looping) => Some(&looping.template),
            Act::Insert { .. }
            | Act::InsertTable { .. }
            | Act::Create { .. }
            | Act::Drop { .. } => None,
        }
    }
}
