//! The steps that are no loop rounds. Each makes all its checks before it changes anything.

use crate::aggregate::fold;
use crate::net::{Act, Address, Aliases, Entry, Filter, Function, Node, Table, Thread, TABLES};
use crate::number;
use crate::operand::{Operand, Operands};
use crate::quirk::{wrong, Quirk};
use crate::relation::{fits, Columns, Relation};
use crate::step::{Answer, Done};
use crate::term::{read, Selection, Terms};
use crate::value::{Site, Text, Value};

/// The parts of a net that one step of one thread can reach.
pub struct Stage<'net> {
    pub aliases: &'net Aliases,
    pub nodes: &'net [Node],
    pub tables: &'net mut Vec<Table>,
    pub thread: &'net mut Thread,
}

impl Stage<'_> {
    pub fn act(&mut self, act: &Act) -> Answer {
        match act {
            Act::Insert { into, tuple } => self.insert(into, tuple),
            Act::InsertTable { into, read } => self.insert_table(into, *read),
            Act::Delete { from, filter, bound } => self.delete(from, filter, *bound),
            Act::Select { from, filter, tuple, bound } => self.select(from, filter, tuple, *bound),
            Act::SelectVariable { read, filter, tuple, bound } => {
                self.select_variable(*read, filter, tuple, *bound)
            }
            Act::Update { at, filter, tuple } => self.update(at, filter, tuple),
            Act::Aggregate { over, filter, function, result } => {
                self.aggregate(over, filter, *function, *result)
            }
            Act::Create { at, columns } => self.create(at, *columns),
            Act::Drop { at } => self.drop_table(at),
            // A loop that opens no round just goes on.
            Act::Loop(_) => Ok(Done::NOTHING),
        }
    }

    fn insert(&mut self, into: &Address, tuple: &Operands) -> Answer {
        let locality = self.read(into.locality)?;
        let terms = Terms::new(tuple, &[], &self.thread.variables)?;
        let place = self.find(locality, into.name)?;
        let relation = &mut self.tables[place].relation;
        let row = terms.row(&[]).filter(|row| fits(&relation.columns, row));
        let row = row.ok_or(number::MISFIT)?;
        if relation.rows.is_full() {
            return Err(number::LIMIT);
        }
        relation.rows.push(row);
        Ok(Done { added: 1, taken: 0 })
    }

    fn insert_table(&mut self, into: &Address, read: u8) -> Answer {
        let locality = self.read(into.locality)?;
        let source = self.thread.table_variable(read)?;
        let place = self.find(locality, into.name)?;
        let relation = &mut self.tables[place].relation;
        if source.columns != relation.columns {
            return Err(number::MISFIT);
        }
        if !relation.rows.has_room(source.rows.len()) {
            return Err(number::LIMIT);
        }
        source.rows.iter().for_each(|row| relation.rows.push(*row));
        Ok(Done { added: source.rows.len(), taken: 0 })
    }

    fn delete(&mut self, from: &Address, filter: &Filter, bound: u8) -> Answer {
        let locality = self.read(from.locality)?;
        let selection = Selection::new(filter, &self.thread.variables)?;
        let place = self.find(locality, from.name)?;
        let relation = &mut self.tables[place].relation;
        selection.pattern.suits(&relation.columns)?;
        free(self.nodes, self.thread, bound)?;
        let taken = self.thread.bind_table(bound, relation.columns);
        relation.rows.retain(|row| {
            let takes = selection.takes(row);
            if takes {
                taken.rows.push(*row);
            }
            !takes
        });
        Ok(Done { added: 0, taken: taken.rows.len() })
    }

    fn select(&mut self, from: &Address, filter: &Filter, tuple: &Operands, bound: u8) -> Answer {
        let locality = self.read(from.locality)?;
        let selection = Selection::new(filter, &self.thread.variables)?;
        let terms = Terms::new(tuple, &filter.template, &self.thread.variables)?;
        let place = self.find(locality, from.name)?;
        let source = &self.tables[place].relation;
        selection.pattern.suits(&source.columns)?;
        free(self.nodes, self.thread, bound)?;
        store(self.thread, bound, source, &selection, terms);
        Ok(Done::NOTHING)
    }

    fn select_variable(
        &mut self,
        read: u8,
        filter: &Filter,
        tuple: &Operands,
        bound: u8,
    ) -> Answer {
        let selection = Selection::new(filter, &self.thread.variables)?;
        let terms = Terms::new(tuple, &filter.template, &self.thread.variables)?;
        // A copy, since the variable read may be the one bound.
        let source = *self.thread.table_variable(read)?;
        selection.pattern.suits(&source.columns)?;
        free(self.nodes, self.thread, bound)?;
        store(self.thread, bound, &source, &selection, terms);
        Ok(Done::NOTHING)
    }

    fn update(&mut self, at: &Address, filter: &Filter, tuple: &Operands) -> Answer {
        let locality = self.read(at.locality)?;
        let selection = Selection::new(filter, &self.thread.variables)?;
        let terms = Terms::new(tuple, &filter.template, &self.thread.variables)?;
        let place = self.find(locality, at.name)?;
        let relation = &mut self.tables[place].relation;
        selection.pattern.suits(&relation.columns)?;
        let columns = relation.columns;
        let mut replaced = 0;
        for row in relation.rows.iter_mut().filter(|row| selection.takes(row)) {
            match terms.row(row).filter(|new| fits(&columns, new)) {
                Some(new) if wrong(Quirk::UpdateAgain) && selection.takes(&new) => {
                    *row = terms.row(&new).unwrap_or(new);
                }
                Some(new) => *row = new,
                None if wrong(Quirk::UpdateRefuses) => return Err(number::MISFIT),
                None => continue,
            }
            replaced += 1;
        }
        Ok(Done { added: replaced, taken: replaced })
    }

    fn aggregate(
        &mut self,
        over: &Address,
        filter: &Filter,
        function: Function,
        result: Operand,
    ) -> Answer {
        let locality = self.read(over.locality)?;
        let selection = Selection::new(filter, &self.thread.variables)?;
        let wanted = self.read(result)?;
        let place = self.find(locality, over.name)?;
        let relation = &self.tables[place].relation;
        selection.pattern.suits(&relation.columns)?;
        let value = fold(function, relation, &selection)?;
        match result {
            Operand::Formal(v) => self.thread.variables[usize::from(v)] = Some(value),
            _ if wanted.is_some_and(|wanted| wanted.matches(value)) => {}
            _ => return Err(number::NO_RESULT),
        }
        Ok(Done::NOTHING)
    }

    fn create(&mut self, at: &Address, columns: Columns) -> Answer {
        let locality = self.read(at.locality)?;
        let site = self.site(locality)?;
        if self.place(site, at.name).is_some() {
            return Err(number::TABLE_THERE);
        }
        if self.tables.len() >= TABLES {
            return Err(number::LIMIT);
        }
        self.tables.push(Table { site, name: at.name, relation: Relation::new(columns) });
        Ok(Done::NOTHING)
    }

    fn drop_table(&mut self, at: &Address) -> Answer {
        let locality = self.read(at.locality)?;
        let place = self.find(locality, at.name)?;
        let table = self.tables.remove(place);
        Ok(Done { added: 0, taken: table.relation.rows.len() })
    }

    fn read(&self, operand: Operand) -> Result<Option<Value>, u8> {
        read(operand, &self.thread.variables)
    }

    fn site(&self, locality: Option<Value>) -> Result<Site, u8> {
        match locality {
            Some(Value::Loc(locality)) => self.aliases.meant(self.thread.site, locality),
            _ => None,
        }
        .ok_or(number::NO_SITE)
    }

    fn place(&self, site: Site, name: Text) -> Option<usize> {
        self.tables.iter().position(|table| table.site == site && same_name(table.name, name))
    }

    fn find(&self, locality: Option<Value>, name: Text) -> Result<usize, u8> {
        let site = self.site(locality)?;
        self.place(site, name).ok_or(number::NO_TABLE)
    }
}

fn same_name(a: Text, b: Text) -> bool {
    a == b || wrong(Quirk::FoldedNames) && a.order(b).is_eq()
}

/// Refuses to bind a table variable that a loop entry of the thread holds.
fn free(nodes: &[Node], thread: &Thread, variable: u8) -> Result<(), u8> {
    let held = thread.stack.iter().any(|entry| match *entry {
        Entry::Loop { left, .. } if left.is_empty() && wrong(Quirk::HeldWhileRows) => false,
        entry => entry.looping(nodes).is_some_and(|looping| looping.read == variable),
    });
    if held {
        return Err(number::HELD);
    }
    Ok(())
}

/// Binds a table variable to what t gives for each row that the selection takes.
fn store(
    thread: &mut Thread,
    bound: u8,
    source: &Relation,
    selection: &Selection,
    mut terms: Terms,
) {
    if wrong(Quirk::SelectDropsConstants) {
        terms.drop_fixed();
    }
    let target = thread.bind_table(bound, terms.columns(&source.columns));
    let taken = source.rows.iter().filter(|row| selection.takes(row));
    for row in taken.filter_map(|row| terms.row(row)) {
        if wrong(Quirk::SelectSet) && target.rows.contains(&row) {
            continue;
        }
        target.rows.push(row);
    }
}
