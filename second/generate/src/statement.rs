//! Nodes written one by one so that they are mostly done when picked.

use crate::program::Theme;
use crate::random::Random;
use crate::record::{
    formal, loc, node, plus, var, Operand, Record, AGGREGATE, COUNT, CREATE, DELETE, DROP, END,
    INSERT, INSERT_TABLE, INT, LOC, SELECT, SELECT_VARIABLE, UPDATE,
};
use crate::scope::{amount, operand, predicate, Kinds, Scope, Template};
use crate::world::{columns, kind, name, TablePlan, World};

/// Writes the nodes of a program.
pub struct Writer<'world> {
    pub random: &'world mut Random,
    pub world: &'world World,
    pub theme: Theme,
    /// Tables that are or may come to be there.
    pub known: Vec<TablePlan>,
    /// The site that the program is written for.
    pub home: u8,
    pub scope: Scope,
    pub nodes: Vec<Record>,
}

/// A table to work on and the L that leads there.
pub struct Target {
    pub locality: Operand,
    pub plan: TablePlan,
}

impl Target {
    pub fn node(&self, kind: u8) -> Record {
        node(kind, END).name(&self.plan.name).at(self.locality)
    }
}

impl Writer<'_> {
    /// A table that the home site can reach and that passes the test.
    pub fn target_where(&mut self, test: impl Fn(&TablePlan) -> bool) -> Option<Target> {
        let mut reached = Vec::new();
        for locality in 0..8 {
            let site = self.world.meant(self.home, locality);
            let plans = self.known.iter().filter(|plan| Some(plan.site) == site && test(plan));
            reached.extend(plans.map(|plan| (locality, plan)));
        }
        if reached.is_empty() {
            return None;
        }
        let (locality, plan) = *self.random.choose(&reached);
        Some(Target { locality: loc(locality), plan: plan.clone() })
    }

    pub fn target(&mut self) -> Option<Target> {
        let mut target = self.target_where(|_| true)?;
        let hops = (0..16).filter(|v| self.scope.variables[usize::from(*v)] == Some(LOC));
        match hops.max() {
            Some(variable) if self.random.chance(8) => target.locality = var(variable),
            _ => {}
        }
        Some(target)
    }

    /// A template over a table, mostly of formals.
    pub fn template(&mut self, plan: &TablePlan, formals: usize) -> Template {
        let sample = (!plan.rows.is_empty()).then(|| self.random.choose(&plan.rows).clone());
        self.scope.template(self.random, &plan.columns, sample.as_ref(), formals)
    }

    fn with_predicate(&mut self, record: Record, inner: &Kinds, percent: usize) -> Record {
        if !self.random.chance(percent) {
            return record;
        }
        let (test, left, right) = predicate(self.random, inner);
        record.predicate(test, left, right)
    }

    /// A t for these columns.
    fn tuple(&mut self, columns: &[u8], kinds: &Kinds) -> Vec<Operand> {
        columns.iter().map(|kind| operand(self.random, kinds, *kind, true)).collect()
    }

    pub fn insert(&mut self) -> Option<Record> {
        let target = self.target()?;
        let kinds = self.scope.variables;
        let tuple = self.tuple(&target.plan.columns, &kinds);
        Some(target.node(INSERT).tuple(&tuple))
    }

    pub fn insert_table(&mut self) -> Option<Record> {
        let read = self.scope.bound_table(self.random)?;
        let columns = self.scope.tables[usize::from(read)].clone()?;
        match self.target_where(|plan| plan.columns == columns) {
            Some(target) => Some(target.node(INSERT_TABLE).read(read)),
            None => Some(self.create_with(columns)),
        }
    }

    pub fn delete(&mut self) -> Option<Record> {
        let bound = self.scope.free_table(self.random)?;
        let target = self.target()?;
        let template = self.template(&target.plan, 60);
        let record = target.node(DELETE).template(&template.operands).bound(bound);
        self.scope.tables[usize::from(bound)] = Some(target.plan.columns);
        Some(self.with_predicate(record, &template.inner, 50))
    }

    /// A select that takes most or all rows.
    pub fn select_wide(&mut self) -> Option<Record> {
        self.select_with(100, 10)
    }

    pub fn select(&mut self) -> Option<Record> {
        self.select_with(70, 45)
    }

    fn select_with(&mut self, formals: usize, predicates: usize) -> Option<Record> {
        let bound = self.scope.free_table(self.random)?;
        let target = self.target()?;
        let template = self.template(&target.plan, formals);
        let record = target.node(SELECT).template(&template.operands).bound(bound);
        let record = self.with_predicate(record, &template.inner, predicates);
        Some(self.stored(record, bound, &template, &target.plan.columns))
    }

    pub fn select_variable(&mut self) -> Option<Record> {
        let read = self.scope.bound_table(self.random)?;
        let bound = self.scope.free_table(self.random)?;
        let columns = self.scope.tables[usize::from(read)].clone()?;
        let template = self.scope.template(self.random, &columns, None, 85);
        let record =
            node(SELECT_VARIABLE, END).template(&template.operands).bound(bound).read(read);
        let record = self.with_predicate(record, &template.inner, 30);
        Some(self.stored(record, bound, &template, &columns))
    }

    /// Gives a select its t: often the row as it is, else components of any kinds.
    fn stored(&mut self, record: Record, bound: u8, template: &Template, columns: &[u8]) -> Record {
        let kinds: Vec<u8> = match self.random.chance(50) {
            true => columns.to_vec(),
            false => (0..self.random.between(1, 4)).map(|_| kind(self.random)).collect(),
        };
        let tuple: Vec<Operand> =
            kinds.iter().map(|kind| operand(self.random, &template.inner, *kind, false)).collect();
        self.scope.tables[usize::from(bound)] = Some(kinds);
        record.tuple(&tuple)
    }

    pub fn update(&mut self) -> Option<Record> {
        let target = self.target()?;
        let template = self.template(&target.plan, 65);
        let mut tuple = self.tuple(&target.plan.columns, &template.inner);
        if self.random.chance(15) {
            let place = self.random.below(tuple.len());
            tuple[place] = plus(self.random.below(6) as u8, amount(self.random));
        }
        let record = target.node(UPDATE).template(&template.operands).tuple(&tuple);
        Some(self.with_predicate(record, &template.inner, 50))
    }

    pub fn aggregate(&mut self) -> Option<Record> {
        self.aggregate_with(75, 35)
    }

    pub fn aggregate_with(&mut self, formals: usize, predicates: usize) -> Option<Record> {
        let target = self.target()?;
        let template = self.template(&target.plan, formals);
        let ints: Vec<u8> =
            (0..4).filter(|at| target.plan.columns.get(usize::from(*at)) == Some(&INT)).collect();
        let record = target.node(AGGREGATE).template(&template.operands);
        let record = match ints.is_empty() || self.random.chance(20) {
            true => record.function(COUNT, 0),
            false => record.function(self.random.between(2, 4) as u8, *self.random.choose(&ints)),
        };
        let record = self.with_predicate(record, &template.inner, predicates);
        let variable = self.random.below(6) as u8;
        self.scope.variables[usize::from(variable)] = Some(INT);
        Some(record.tuple(&[formal(variable)]))
    }

    pub fn create(&mut self) -> Record {
        let columns = columns(self.random);
        self.create_with(columns)
    }

    /// A create under a name that seems free; it is taken to be there from now on.
    pub fn create_with(&mut self, columns: Vec<u8>) -> Record {
        let localities: Vec<u8> =
            (0..8).filter(|at| self.world.meant(self.home, *at).is_some()).collect();
        let locality = *self.random.choose(&localities);
        let site = self.world.meant(self.home, locality).unwrap_or(self.home);
        let mut name = name(self.random);
        while self.known.iter().any(|plan| plan.site == site && plan.name == name) {
            name[3] = self.random.between(0x20, 0x7E) as u8;
        }
        let record = node(CREATE, END).name(&name).at(loc(locality)).columns(&columns);
        self.known.push(TablePlan { site, name, columns, rows: Vec::new() });
        record
    }

    pub fn drop_table(&mut self) -> Option<Record> {
        let target = self.target()?;
        // Two threads may drop one table; mostly it is taken to be gone.
        if self.random.chance(80) {
            let gone =
                |plan: &TablePlan| plan.site == target.plan.site && plan.name == target.plan.name;
            self.known.retain(|plan| !gone(plan));
        }
        Some(target.node(DROP))
    }
}
