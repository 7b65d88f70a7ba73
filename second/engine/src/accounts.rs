//! The accounts of rows: what demand 3 says of any accepted file and any list of picks.
//! Each step is read off the net before it by the plain definitions, apart from the step's code.

use crate::load::load;
use crate::net::{Act, Address, Filter, Net, Pick, Table, Test, Thread, Variables};
use crate::operand::Operand;
use crate::record::{KIND, NAME, ROW, SITE, SIZE, TUPLE};
use crate::relation::{fits, Row};
use crate::sound::sound;
use crate::step::{step_sound, Done};
use crate::value::{Site, Text, Value};
use crate::write::encode_row;
use std::cmp::Ordering;
use std::collections::{HashMap, HashSet};

/// A site, a name and a row as the bytes of its record.
type Key = (Site, Text, [u8; 32]);

#[derive(Clone, Copy, Default)]
struct Account {
    loaded: usize,
    added: usize,
    taken: usize,
}

/// What a done step does to the rows of one site and name.
struct Movement {
    site: Site,
    name: Text,
    added: Vec<Row>,
    taken: Vec<Row>,
}

/// Holds the engine to demand 3 on a file and a list of picks; a refused file owes nothing.
/// An error says what is broken.
pub fn check(file: &[u8], picks: &[Pick]) -> Result<(), String> {
    let Ok((loaded, _)) = load(file) else {
        return Ok(());
    };
    let mut accounts = Accounts::new(file);
    let mut net = loaded.clone();
    for pick in picks {
        let movement = movement(&net, *pick);
        let answer = step_sound(&mut net, *pick);
        if !sound(&net) {
            return Err(format!("unsound after {pick:?}"));
        }
        if let Ok(done) = answer {
            let movement = movement.ok_or_else(|| format!("no account of {pick:?}"))?;
            accounts.enter(done, movement);
        }
    }
    accounts.tables_stand(&net)?;
    accounts.rows_balance(&net)?;
    accounts.others_are_loaded(&net, &loaded)?;
    accounts.counts_agree()
}

struct Accounts {
    rows: HashMap<Key, Account>,
    acted: HashSet<(Site, Text)>,
    reported: Done,
}

impl Accounts {
    fn new(file: &[u8]) -> Accounts {
        let mut rows = HashMap::<Key, Account>::new();
        for record in file.as_chunks::<SIZE>().0.iter().filter(|record| record[KIND] == ROW) {
            let mut name = [0; 4];
            name.copy_from_slice(&record[NAME..NAME + 4]);
            let mut row = [0; 32];
            row.copy_from_slice(&record[TUPLE..TUPLE + 32]);
            rows.entry((Site(record[SITE]), Text(name), row)).or_default().loaded += 1;
        }
        Accounts { rows, acted: HashSet::new(), reported: Done::NOTHING }
    }

    fn enter(&mut self, done: Done, movement: Option<Movement>) {
        self.reported.added += done.added;
        self.reported.taken += done.taken;
        let Some(Movement { site, name, added, taken }) = movement else {
            return;
        };
        self.acted.insert((site, name));
        for row in added {
            self.rows.entry((site, name, encode_row(&row))).or_default().added += 1;
        }
        for row in taken {
            self.rows.entry((site, name, encode_row(&row))).or_default().taken += 1;
        }
    }

    fn tables_stand(&self, net: &Net) -> Result<(), String> {
        let mut seen = HashSet::new();
        for table in &net.tables {
            let relation = &table.relation;
            if !relation.rows.iter().all(|row| fits(&relation.columns, row)) {
                return Err(format!("a row doesn't fit {:?} {:?}", table.site, table.name));
            }
            if !seen.insert((table.site, table.name)) {
                return Err(format!("{:?} {:?} is there twice", table.site, table.name));
            }
        }
        Ok(())
    }

    fn rows_balance(&self, net: &Net) -> Result<(), String> {
        let mut standing = HashMap::<Key, usize>::new();
        for table in &net.tables {
            for row in table.relation.rows.iter() {
                *standing.entry((table.site, table.name, encode_row(row))).or_default() += 1;
            }
        }
        let keys = self.rows.keys().chain(standing.keys());
        for key in keys {
            let account = self.rows.get(key).copied().unwrap_or_default();
            let stands = standing.get(key).copied().unwrap_or_default();
            if stands + account.taken != account.loaded + account.added {
                return Err(format!("{key:?} doesn't balance"));
            }
        }
        Ok(())
    }

    fn others_are_loaded(&self, net: &Net, loaded: &Net) -> Result<(), String> {
        for table in net.tables.iter().chain(&loaded.tables) {
            let (site, name) = (table.site, table.name);
            let untouched = !self.acted.contains(&(site, name));
            if untouched && find(net, site, name) != find(loaded, site, name) {
                return Err(format!("{site:?} {name:?} changed with no step on it"));
            }
        }
        Ok(())
    }

    fn counts_agree(&self) -> Result<(), String> {
        let added = self.rows.values().map(|account| account.added).sum();
        let taken = self.rows.values().map(|account| account.taken).sum();
        if self.reported == (Done { added, taken }) {
            return Ok(());
        }
        Err(format!("reported {:?}, accounts {added} {taken}", self.reported))
    }
}

fn find(net: &Net, site: Site, name: Text) -> Option<&Table> {
    net.tables.iter().find(|table| table.site == site && table.name == name)
}

/// The movement that a pick makes if it is done: none inside for a step that acts on no table,
/// none outside where the step cannot be done.
fn movement(net: &Net, pick: Pick) -> Option<Option<Movement>> {
    let thread = net.threads.get(usize::from(pick.thread))?;
    let node = net.nodes.get(usize::from(thread.stack.last()?.node()))?;
    let on = |address: &Address, added: Vec<Row>, taken: Vec<Row>| {
        let site = site_meant(net, thread, address)?;
        Some(Some(Movement { site, name: address.name, added, taken }))
    };
    match &node.act {
        Act::Insert { into, tuple } => {
            on(into, vec![row_of(tuple, &thread.variables)?], Vec::new())
        }
        Act::InsertTable { into, read } => {
            let source = thread.tables[usize::from(*read)].as_ref()?;
            on(into, source.rows.to_vec(), Vec::new())
        }
        Act::Delete { from, filter, .. } => {
            let table = table_meant(net, thread, from)?;
            on(from, Vec::new(), selected(table, filter, thread).map(|(row, _)| row).collect())
        }
        Act::Update { at, filter, tuple } => {
            let table = table_meant(net, thread, at)?;
            let (taken, added) = selected(table, filter, thread)
                .filter_map(|(row, bindings)| Some((row, row_of(tuple, &bindings)?)))
                .filter(|(_, new)| fits(&table.relation.columns, new))
                .unzip();
            on(at, added, taken)
        }
        Act::Create { at, .. } => on(at, Vec::new(), Vec::new()),
        Act::Drop { at } => {
            let table = table_meant(net, thread, at)?;
            on(at, Vec::new(), table.relation.rows.to_vec())
        }
        _ => Some(None),
    }
}

fn site_meant(net: &Net, thread: &Thread, address: &Address) -> Option<Site> {
    match value_of(address.locality, &thread.variables)? {
        Value::Loc(locality) => net.aliases.meant(thread.site, locality),
        _ => None,
    }
}

fn table_meant<'net>(net: &'net Net, thread: &Thread, address: &Address) -> Option<&'net Table> {
    find(net, site_meant(net, thread, address)?, address.name)
}

/// The rows selected, each with the variables as the formals of T bind them for that row.
fn selected<'a>(
    table: &'a Table,
    filter: &'a Filter,
    thread: &'a Thread,
) -> impl Iterator<Item = (Row, Variables)> + 'a {
    let rows = table.relation.rows.iter().copied();
    rows.filter_map(|row| {
        let mut bindings = thread.variables;
        for (operand, value) in filter.template.iter().zip(row.iter()) {
            match operand {
                Operand::Formal(v) => bindings[usize::from(*v)] = Some(*value),
                operand if value_of(*operand, &thread.variables)?.matches(*value) => {}
                _ => return None,
            }
        }
        satisfies(filter, &bindings).then_some((row, bindings))
    })
}

fn satisfies(filter: &Filter, bindings: &Variables) -> bool {
    let Some(predicate) = filter.predicate else {
        return true;
    };
    let left = value_of(predicate.left, bindings);
    let right = value_of(predicate.right, bindings);
    let order = left.zip(right).and_then(|(left, right)| left.order(right));
    order.is_some_and(|order| match predicate.test {
        Test::Equal => order == Ordering::Equal,
        Test::Unequal => order != Ordering::Equal,
        Test::Less => order == Ordering::Less,
        Test::AtMost => order != Ordering::Greater,
    })
}

fn value_of(operand: Operand, bindings: &Variables) -> Option<Value> {
    match operand {
        Operand::Constant(value) => Some(value),
        Operand::Variable(v) => bindings[usize::from(v)],
        Operand::Plus(v, more) => bindings[usize::from(v)]?.plus(more),
        Operand::Formal(_) => None,
    }
}

fn row_of(tuple: &[Operand], bindings: &Variables) -> Option<Row> {
    let mut row = Row::default();
    for operand in tuple {
        row.push(value_of(*operand, bindings)?);
    }
    Some(row)
}
