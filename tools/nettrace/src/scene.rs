//! What a pick meets: the step, its thread, and the net around it.

use crate::moment::{Moment, Thread};
use crate::parts::Parts;
use crate::reading::Bindings;
use crate::run::Turn;
use crate::steps::Steps;
use crate::words;
use engine::{Act, Entry, Places, Relation, Site, Table, Value};

pub struct Scene<'a> {
    pub act: &'a Act,
    pub parts: Parts<'a>,
    pub thread: &'a Thread,
    pub top: Entry,
    pub row: u8,
    pub before: &'a Moment,
    pub steps: &'a Steps,
}

impl<'a> Scene<'a> {
    /// None where the pick's place has no thread.
    pub fn new(turn: &Turn<'a>, steps: &'a Steps) -> Option<Scene<'a>> {
        let thread = turn.before.threads.get(usize::from(turn.pick.thread))?;
        let top = *thread.stack.last()?;
        let act = steps.act(top.node())?;
        let (parts, row, before) = (Parts::of(act), turn.pick.row, turn.before);
        Some(Scene { act, parts, thread, top, row, before, steps })
    }

    pub fn own(&self) -> Bindings<'a> {
        Bindings::own(&self.thread.bound.variables)
    }

    /// What L gives.
    pub fn locality(&self) -> Option<Value> {
        self.own().value(self.parts.address?.locality)
    }

    /// The site that L means.
    pub fn site(&self) -> Option<Site> {
        match self.locality()? {
            Value::Loc(locality) => self.steps.aliases.meant(self.thread.site, locality),
            _ => None,
        }
    }

    /// The table of the step's name at that site.
    pub fn table(&self) -> Option<&'a Table> {
        let (site, name) = (self.site()?, self.parts.address?.name);
        self.before.tables.iter().find(|table| table.site == site && table.name == name)
    }

    /// The table variable read, if it is bound.
    pub fn read(&self) -> Option<&'a Relation> {
        self.thread.bound.tables.get(usize::from(self.parts.read?))?.as_ref()
    }

    /// The rows that the template speaks of: those of the table variable read, or of the table.
    pub fn source(&self) -> Option<(&'a Relation, String)> {
        match self.parts.read {
            Some(read) => self.read().map(|relation| (relation, format!("T{read}"))),
            None => self.table().map(|table| (&table.relation, words::table(table))),
        }
    }

    /// The row places that a loop has still to visit: all of them where it is first met.
    pub fn left(&self) -> Places {
        match self.top {
            Entry::Loop { left, .. } => left,
            Entry::Run(_) => Places::below(self.read().map_or(0, |relation| relation.rows.len())),
        }
    }
}
