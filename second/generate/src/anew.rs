//! Sequential loops whose bodies bind anew what the loop's T or its sequel reads.

use crate::program::{Chain, DEPTH};
use crate::record::{
    formal, node, plus, var, Operand, Record, AGGREGATE, COUNT, END, INSERT, INSERT_TABLE, INT,
    LARGEST, LEAST, PARALLEL, SELECT, SELECT_VARIABLE, SEQUENTIAL,
};
use crate::scope::Template;
use crate::statement::{Target, Writer};
use crate::world::value;

/// The rows of a table in a table variable, and a variable with one of their Ints.
struct Sought {
    target: Target,
    read: u8,
    column: usize,
    variable: u8,
}

impl Writer<'_> {
    /// Such loops one after another, mostly with something that reads what their bodies bound.
    pub fn anew(&mut self, chain: &mut Chain) {
        for _ in 0..self.random.between(2, 4) {
            self.loop_anew(chain, 0);
        }
    }

    pub fn loop_anew(&mut self, chain: &mut Chain, depth: usize) {
        let Some(sought) = self.seek(chain) else {
            return self.statements(chain, 1, DEPTH);
        };
        let template = self.template_reading(&sought);
        let opened = self.open_with(chain, SEQUENTIAL, sought.read, template);
        let body = &mut Chain::default();
        self.bind_anew(body, &sought);
        self.end_body(body, depth);
        self.close_loop(opened);
        self.sequel(chain, &sought);
    }

    /// Selects the rows of a table as they are, and finds an Int of theirs to look for.
    fn seek(&mut self, chain: &mut Chain) -> Option<Sought> {
        let read = self.unheld()?;
        let target =
            self.target_where(|plan| plan.columns.contains(&INT) && !plan.rows.is_empty())?;
        let columns = &target.plan.columns;
        let ints: Vec<usize> = (0..columns.len()).filter(|at| columns[*at] == INT).collect();
        let column = *self.random.choose(&ints);
        let select = self.select_rows(&target, read);
        self.append(chain, select);
        let sought = Sought { target, read, column, variable: self.random.below(6) as u8 };
        let function = *self.random.choose(&[LEAST, LARGEST]);
        let aggregate = self.aggregate_of(&sought, function);
        self.append(chain, aggregate);
        Some(sought)
    }

    /// A table variable that no loop holds; one that is not bound yet, if there is such.
    fn unheld(&mut self) -> Option<u8> {
        let first = self.random.below(2) as u8;
        let mut choice = [first, 1 - first];
        choice.sort_by_key(|at| self.scope.tables[usize::from(*at)].is_some());
        choice.into_iter().find(|at| !self.scope.held[usize::from(*at)])
    }

    /// All rows of a table as they are.
    fn select_rows(&mut self, target: &Target, bound: u8) -> Record {
        let places = 0..target.plan.columns.len() as u8;
        let row: Vec<Operand> = places.clone().map(var).collect();
        let all: Vec<Operand> = places.map(formal).collect();
        self.scope.tables[usize::from(bound)] = Some(target.plan.columns.clone());
        target.node(SELECT).template(&all).tuple(&row).bound(bound)
    }

    /// Binds the variable to a function of the rows sought, which nothing but a drop can refuse.
    fn aggregate_of(&mut self, sought: &Sought, function: u8) -> Record {
        let all: Vec<Operand> =
            (6..6 + sought.target.plan.columns.len() as u8).map(formal).collect();
        let column = if function == COUNT { 0 } else { sought.column as u8 };
        self.scope.variables[usize::from(sought.variable)] = Some(INT);
        let record = sought.target.node(AGGREGATE).template(&all).function(function, column);
        record.tuple(&[formal(sought.variable)])
    }

    /// Formals, and mostly the variable in the column that it was taken from. Now and then a
    /// formal of the same T binds that variable.
    fn template_reading(&mut self, sought: &Sought) -> Template {
        let (reads, same) = (self.random.chance(70), self.random.chance(15));
        let first = self.random.between(6, 10) as u8;
        let mut template = Template { operands: Vec::new(), inner: self.scope.variables };
        for (place, kind) in sought.target.plan.columns.iter().enumerate() {
            if place == sought.column && reads {
                template.operands.push(var(sought.variable));
                continue;
            }
            let variable = if place == 0 && same { sought.variable } else { first + place as u8 };
            template.inner[usize::from(variable)] = Some(*kind);
            template.operands.push(formal(variable));
        }
        template
    }

    /// Binds the variable and mostly the other table variable anew, now and then after a look at
    /// what an earlier round would have left.
    fn bind_anew(&mut self, chain: &mut Chain, sought: &Sought) {
        if self.random.chance(50) {
            self.read_old(chain, sought);
        }
        if self.random.chance(85) {
            let function = self.random.weighted(&[(3, COUNT), (1, LEAST), (1, LARGEST)]);
            let aggregate = self.aggregate_of(sought, function);
            self.append(chain, aggregate);
        }
        let target = self.target().filter(|_| self.random.chance(80));
        if let (Some(target), Some(bound)) = (target, self.unheld()) {
            let select = self.select_rows(&target, bound);
            self.append(chain, select);
        }
    }

    /// The last entry of a body: a step, or a loop that is over in the end.
    fn end_body(&mut self, chain: &mut Chain, depth: usize) {
        match self.random.below(10) {
            0..2 if depth < DEPTH && self.has_room() => self.loop_anew(chain, depth + 1),
            2..5 => self.last_loop(chain, PARALLEL),
            5..6 => self.last_loop(chain, SEQUENTIAL),
            6..8 => self.again(chain),
            // What was just bound is the last, if anything was.
            _ => self.statements(chain, 0, DEPTH),
        }
    }

    fn last_loop(&mut self, chain: &mut Chain, kind: u8) {
        let Some(opened) = self.open_loop(chain, kind, 90) else {
            return self.again(chain);
        };
        self.again(&mut Chain::default());
        self.close_loop(opened);
    }

    /// A step that can be done in each round.
    fn again(&mut self, chain: &mut Chain) {
        let record = match self.random.below(4) {
            0 => self.insert(),
            1 => self.update(),
            2 => self.select_variable(),
            _ => self.aggregate_with(100, 0),
        };
        let record = record.unwrap_or_else(|| self.create());
        self.append(chain, record);
    }

    /// Reads after the loop what its body bound, now and then what nothing but a round bound.
    fn sequel(&mut self, chain: &mut Chain, sought: &Sought) {
        self.read_old(chain, sought);
        if self.random.chance(20) {
            let gone = var(self.random.between(6, 10) as u8);
            let insert = self.insert_like(sought, gone);
            self.append(chain, insert);
        }
    }

    /// Reads the variable or the other table variable, both as they were before the loop.
    fn read_old(&mut self, chain: &mut Chain, sought: &Sought) {
        let old = *self.random.choose(&[var(sought.variable), plus(sought.variable, 0)]);
        if self.random.chance(80) {
            let insert = self.insert_like(sought, old);
            self.append(chain, insert);
        }
        let other = 1 - sought.read;
        let (bound, held) =
            (self.scope.tables[usize::from(other)].is_some(), self.scope.held[usize::from(other)]);
        if !held && (bound || self.random.chance(15)) {
            let reads = self.reads_other(other);
            self.append(chain, reads);
        }
    }

    /// An insert where one value is given, so that it shows.
    fn insert_like(&mut self, sought: &Sought, given: Operand) -> Record {
        let kinds = sought.target.plan.columns.iter();
        let mut tuple: Vec<Operand> = kinds.map(|kind| value(self.random, *kind, 10)).collect();
        tuple[sought.column] = given;
        sought.target.node(INSERT).tuple(&tuple)
    }

    /// Reads a table variable as it was before the loop, if it was bound at all.
    fn reads_other(&mut self, other: u8) -> Record {
        let known = self.scope.tables[usize::from(other)].clone();
        let columns = known.unwrap_or_else(|| vec![INT]);
        let all: Vec<Operand> = (0..columns.len() as u8).map(formal).collect();
        match self.target_where(|plan| plan.columns == columns) {
            Some(target) if self.random.chance(60) => target.node(INSERT_TABLE).read(other),
            _ => {
                let record = node(SELECT_VARIABLE, END).template(&all).read(other).bound(other);
                record.tuple(&all.iter().map(|operand| var(operand[1])).collect::<Vec<Operand>>())
            }
        }
    }
}
