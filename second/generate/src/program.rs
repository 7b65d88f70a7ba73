//! Programs: chains of nodes, loops with bodies, and loops nested in loops.

use crate::record::{node, Record, COUNT, END, PARALLEL, SEQUENTIAL, SUM};
use crate::scope::{Scope, Template};
use crate::statement::Writer;

/// What a file is mostly about.
#[derive(Clone, Copy, PartialEq, Eq)]
pub enum Theme {
    Mixed,
    /// Sequential loops in each other, up to the limit of a stack.
    Deep,
    /// Parallel loops in each other, up to the limit of threads.
    Forks,
    /// Tables at their limit of rows.
    Full,
    /// Nets at their limit of tables.
    Crowded,
    /// Sums at the edge of 32 bits.
    Sums,
    /// Sequential loops whose bodies bind anew what is read again.
    Anew,
    /// Short programs that end in nodes with several reasons to be refused.
    Traps,
}

/// Nodes that follow each other; the last has no next yet.
#[derive(Default)]
pub struct Chain {
    last: Option<usize>,
}

/// A loop whose body is being written.
pub struct Opened {
    parallel: bool,
    before: Scope,
}

#[derive(Clone, Copy)]
enum Statement {
    Insert,
    InsertTable,
    Delete,
    Select,
    SelectVariable,
    Update,
    Aggregate,
    Create,
    Drop,
    Loop(u8),
}

const STATEMENTS: [(usize, Statement); 11] = [
    (9, Statement::Insert),
    (12, Statement::InsertTable),
    (8, Statement::Delete),
    (9, Statement::Select),
    (10, Statement::SelectVariable),
    (13, Statement::Update),
    (10, Statement::Aggregate),
    (6, Statement::Create),
    (10, Statement::Drop),
    (9, Statement::Loop(SEQUENTIAL)),
    (9, Statement::Loop(PARALLEL)),
];

/// How deep loops of mixed statements go.
pub const DEPTH: usize = 3;

/// The nodes after which only the program at hand is ended.
const ROOM: usize = 90;

impl Writer<'_> {
    pub fn has_room(&self) -> bool {
        self.nodes.len() < ROOM
    }

    /// Writes a program and gives the number of its first node.
    pub fn program(&mut self) -> u8 {
        let first = self.nodes.len() as u8;
        self.scope = Scope::default();
        let mut chain = Chain::default();
        let opening = self.select_wide().unwrap_or_else(|| self.create());
        self.append(&mut chain, opening);
        match self.theme {
            Theme::Mixed | Theme::Traps => {}
            Theme::Deep => self.deep(&mut chain),
            Theme::Forks => self.bound_forks(&mut chain),
            Theme::Full => self.fill(&mut chain),
            Theme::Crowded => self.crowd(&mut chain),
            Theme::Sums => self.sums(&mut chain),
            Theme::Anew => self.anew(&mut chain),
        }
        let (count, traps) = match self.theme {
            Theme::Traps => (self.random.between(0, 2), 100),
            Theme::Anew => (self.random.between(0, 2), 30),
            _ => (self.random.between(2, 9), 60),
        };
        self.statements(&mut chain, count, 0);
        if self.random.chance(traps) {
            self.trap(&mut chain);
        }
        first
    }

    pub fn append(&mut self, chain: &mut Chain, record: Record) {
        let number = self.nodes.len();
        if let Some(last) = chain.last {
            self.nodes[last] = self.nodes[last].next(number as u8);
        }
        chain.last = Some(number);
        self.nodes.push(record);
    }

    pub fn statements(&mut self, chain: &mut Chain, count: usize, depth: usize) {
        for _ in 0..count {
            if self.has_room() {
                self.statement(chain, depth);
            }
        }
        if chain.last.is_none() {
            let record = self.create();
            self.append(chain, record);
        }
    }

    fn statement(&mut self, chain: &mut Chain, depth: usize) {
        let record = match self.random.weighted(&STATEMENTS) {
            Statement::Insert => self.insert(),
            Statement::InsertTable => self.insert_table(),
            Statement::Delete => self.delete(),
            Statement::Select => self.select(),
            Statement::SelectVariable => self.select_variable(),
            Statement::Update => self.update(),
            Statement::Aggregate => self.aggregate(),
            Statement::Create => Some(self.create()),
            Statement::Drop => self.drop_table(),
            Statement::Loop(SEQUENTIAL) if depth < DEPTH && self.random.chance(40) => {
                return self.loop_anew(chain, depth + 1)
            }
            Statement::Loop(kind) if depth < DEPTH => return self.nested(chain, &[kind], depth),
            Statement::Loop(_) => self.aggregate(),
        };
        let record = record.or_else(|| self.select_wide()).unwrap_or_else(|| self.create());
        self.append(chain, record);
    }

    /// Loops of these kinds, each the body of the one before, with statements innermost.
    pub fn nested(&mut self, chain: &mut Chain, kinds: &[u8], depth: usize) {
        let [kind, inner @ ..] = kinds else {
            let count = self.random.between(1, 3);
            return self.statements(chain, count, depth);
        };
        let formals = if inner.is_empty() { 80 } else { 100 };
        match self.open_loop(chain, *kind, formals) {
            Some(opened) => {
                self.nested(&mut Chain::default(), inner, depth + 1);
                self.close_loop(opened);
            }
            None => self.statements(chain, 1, DEPTH),
        }
    }

    /// Writes a loop node over a table variable; its body is what is written next.
    pub fn open_loop(&mut self, chain: &mut Chain, kind: u8, formals: usize) -> Option<Opened> {
        let read = self.scope.bound_table(self.random)?;
        let columns = self.scope.tables[usize::from(read)].clone()?;
        let template = self.scope.template(self.random, &columns, None, formals);
        Some(self.open_with(chain, kind, read, template))
    }

    /// The same with a T that is given.
    pub fn open_with(
        &mut self,
        chain: &mut Chain,
        kind: u8,
        read: u8,
        template: Template,
    ) -> Opened {
        let body = self.nodes.len() as u8 + 1;
        let record = node(kind, END).body(body).read(read).template(&template.operands);
        self.append(chain, record);
        let before = self.scope.clone();
        let parallel = kind == PARALLEL;
        self.scope.variables = template.inner;
        if parallel {
            self.scope.held = [false; 2];
        } else {
            self.scope.held[usize::from(read)] = true;
        }
        Opened { parallel, before }
    }

    /// After a loop its thread has what it had bound before it. Now and then a sequential one is
    /// taken to leave what its body bound.
    pub fn close_loop(&mut self, opened: Opened) {
        if opened.parallel || self.random.chance(75) {
            self.scope = opened.before;
        } else {
            self.scope.held = opened.before.held;
        }
    }

    pub fn deep(&mut self, chain: &mut Chain) {
        let kinds = vec![SEQUENTIAL; self.random.between(5, 9)];
        self.nested(chain, &kinds, DEPTH);
    }

    pub fn forks(&mut self, chain: &mut Chain) {
        let depth = self.random.between(1, 4);
        let kinds: Vec<u8> =
            (0..depth).map(|_| self.random.weighted(&[(4, PARALLEL), (1, SEQUENTIAL)])).collect();
        self.nested(chain, &kinds, DEPTH);
    }

    /// Forks between a binding and a use of it in the forking thread.
    fn bound_forks(&mut self, chain: &mut Chain) {
        if let Some(record) = self.aggregate() {
            self.append(chain, record);
        }
        self.forks(chain);
        for record in [self.insert(), self.insert()].into_iter().flatten() {
            self.append(chain, record);
        }
    }

    /// Inserts a table's rows into it again and again.
    pub fn fill(&mut self, chain: &mut Chain) {
        for _ in 0..self.random.between(1, 4) {
            if let Some(record) = self.insert_table() {
                self.append(chain, record);
            }
        }
    }

    /// Sums over whole tables, stored so that they show.
    fn sums(&mut self, chain: &mut Chain) {
        for _ in 0..self.random.between(1, 3) {
            let sum = self.aggregate_with(100, 10);
            let sum = sum.map(|sum| if sum.0[10] == COUNT { sum } else { sum.byte(10, SUM) });
            for record in [sum, self.insert()].into_iter().flatten() {
                self.append(chain, record);
            }
        }
    }

    pub fn crowd(&mut self, chain: &mut Chain) {
        for _ in 0..self.random.between(1, 4) {
            let record = self.create();
            self.append(chain, record);
        }
    }
}
