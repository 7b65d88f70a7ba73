//! The net between two picks, in the types that steps and texts are read in.

use engine::{Columns, Entry, Kind, List, Locality, Places, Relation, Row, Site, Table};
use engine::{Text, Value};

/// The tables and threads that the engine gave out.
#[derive(PartialEq, Eq, Debug)]
pub struct Moment {
    pub tables: Vec<Table>,
    pub threads: Vec<Thread>,
}

#[derive(PartialEq, Eq, Debug)]
pub struct Thread {
    pub site: Site,
    pub bound: Bound,
    pub stack: List<Entry, 8>,
    /// For each entry of the stack the bindings that it holds: only loops hold some.
    pub held: Vec<Option<Bound>>,
}

/// The variables and table variables of a thread, or those that a loop's entry holds.
#[derive(PartialEq, Eq, Debug)]
pub struct Bound {
    pub variables: Variables,
    pub tables: [Option<Relation>; 2],
}

pub type Variables = [Variable; 16];

/// A later engine may bind values that are unknown here.
#[derive(Clone, Copy, PartialEq, Eq, Debug)]
pub enum Variable {
    Unbound,
    Known(Value),
    Unknown,
}

impl From<&embed::Moment> for Moment {
    fn from(moment: &embed::Moment) -> Moment {
        Moment {
            tables: moment.tables.iter().map(table).collect(),
            threads: moment.threads.iter().map(thread).collect(),
        }
    }
}

fn table(table: &embed::Table) -> Table {
    let (site, name) = (Site(table.site), Text(table.name));
    Table { site, name, relation: relation(&table.content) }
}

/// The stack's top comes last here.
fn thread(thread: &embed::ThreadState) -> Thread {
    Thread {
        site: Site(thread.site),
        bound: bound(&thread.variables, &thread.table_variables),
        stack: list(thread.stack.iter().rev().map(entry)),
        held: thread.stack.iter().rev().map(held).collect(),
    }
}

fn bound(variables: &[embed::Variable; 16], tables: &[Option<embed::Relation>; 2]) -> Bound {
    let tables = tables.each_ref().map(|table| table.as_ref().map(relation));
    Bound { variables: variables.map(variable), tables }
}

fn held(entry: &embed::Entry) -> Option<Bound> {
    match entry {
        embed::Entry::Loop { held: Some(held), .. } => {
            Some(bound(&held.variables, &held.table_variables))
        }
        _ => None,
    }
}

fn variable(variable: embed::Variable) -> Variable {
    match variable {
        embed::Variable::Unbound => Variable::Unbound,
        embed::Variable::Known(known) => Variable::Known(value(known)),
        _ => Variable::Unknown,
    }
}

fn entry(entry: &embed::Entry) -> Entry {
    match entry {
        embed::Entry::Run { node, .. } => Entry::Run(*node),
        embed::Entry::Loop { node, left, .. } => {
            let left = left.iter().fold(0, |places, place| places | 1_u16 << place);
            Entry::Loop { node: *node, left: Places(left) }
        }
    }
}

fn relation(relation: &embed::Relation) -> Relation {
    let columns: Columns = list(relation.columns.iter().map(|column| kind(*column)));
    let row = |row: &embed::Row| -> Row { list(row.iter().map(|given| value(*given))) };
    Relation { columns, rows: list(relation.rows.iter().map(row)) }
}

/// No list of the engine is longer than its limit.
fn list<T: Copy + Default, const N: usize>(items: impl Iterator<Item = T>) -> List<T, N> {
    items.take(N).collect()
}

fn value(value: embed::Value) -> Value {
    match value {
        embed::Value::Int(int) => Value::Int(int),
        embed::Value::Text(text) => Value::Text(Text(text)),
        embed::Value::Loc(locality) => Value::Loc(Locality(locality)),
    }
}

fn kind(kind: embed::Kind) -> Kind {
    match kind {
        embed::Kind::Int => Kind::Int,
        embed::Kind::Text => Kind::Text,
        embed::Kind::Loc => Kind::Loc,
    }
}
