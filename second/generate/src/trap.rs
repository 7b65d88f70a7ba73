//! Nodes written to be refused, by number; often for more than one reason.

use crate::program::{Chain, Theme};
use crate::random::Random;
use crate::record::{
    int, loc, node, plus, text, var, Operand, Record, AGGREGATE, COUNT, CREATE, DELETE, DROP, END,
    INSERT, INSERT_TABLE, INT, LARGEST, LEAST, LESS, LOC, SELECT, SELECT_VARIABLE, SEQUENTIAL,
    UPDATE,
};
use crate::statement::Writer;

const TRAPS: [(usize, u8); 8] =
    [(3, 12), (4, 13), (2, 14), (3, 15), (7, 16), (12, 17), (3, 18), (4, 20)];

// Where operands lie.
const LOCALITY: usize = 16;
const TEMPLATE: usize = 24;
const TUPLE: usize = 56;
const RIGHT: usize = 96;

impl Writer<'_> {
    /// Ends a chain with a node that is probably refused.
    pub fn trap(&mut self, chain: &mut Chain) {
        let number = self.random.weighted(&TRAPS);
        match number {
            17 => return self.binds_held(chain),
            20 => return self.passes_limit(chain),
            _ => {}
        }
        let good = match number {
            15 => self.create_again(),
            18 => self.aggregate(),
            _ => self.on_a_table(),
        };
        if let Some(good) = good {
            let record = self.spoilt(good, number);
            let record = self.perhaps_spoilt(record);
            self.append(chain, record);
        }
    }

    /// A good node of a kind that looks up a table.
    fn on_a_table(&mut self) -> Option<Record> {
        match self.random.below(7) {
            0 => self.insert(),
            1 => self.delete(),
            2 => self.select(),
            3 => self.update(),
            4 => self.aggregate(),
            5 => self.insert_table(),
            _ => self.drop_table(),
        }
    }

    fn create_again(&mut self) -> Option<Record> {
        let target = self.target_where(|_| true)?;
        Some(target.node(CREATE).columns(&target.plan.columns))
    }

    /// A second reason now and then, to show which is found first.
    fn perhaps_spoilt(&mut self, record: Record) -> Record {
        let share = if self.theme == Theme::Traps { 70 } else { 40 };
        if !self.random.chance(share) {
            return record;
        }
        let number = self.random.weighted(&[(2, 12), (1, 13), (1, 14), (2, 16), (1, 18)]);
        self.spoilt(record, number)
    }

    /// The node with a reason to be refused by this number, if its kind has one.
    fn spoilt(&mut self, record: Record, number: u8) -> Record {
        let kind = record.kind();
        match number {
            12 => self.reads_unbound(record),
            13 if has_address(kind) => record.at(self.nowhere()),
            14 if has_address(kind) => record.name(&self.other_name(&record)),
            16 => self.misfits(record),
            18 if kind == AGGREGATE => self.has_no_result(record),
            _ => record,
        }
    }

    fn reads_unbound(&mut self, record: Record) -> Record {
        let start = self.random.between(6, 15) as u8;
        let is_unbound = |v: &u8| self.scope.variables[usize::from(*v)].is_none();
        let unbound = (start..16).chain(6..start).find(is_unbound).unwrap_or(start);
        let kind = record.kind();
        let mut spots = Vec::new();
        spots.extend(has_address(kind).then_some(LOCALITY));
        spots.extend(has_template(kind).then_some(TEMPLATE));
        spots.extend((has_tuple(kind) || kind == AGGREGATE).then_some(TUPLE));
        spots.extend(has_predicate(kind).then_some(RIGHT));
        let free = (0..2).find(|at| self.scope.tables[usize::from(*at)].is_none());
        match (spots.is_empty(), free) {
            (false, _) if kind != INSERT_TABLE || self.random.chance(40) => {
                let spot = *self.random.choose(&spots);
                let sum = spot != LOCALITY && ![SELECT, SELECT_VARIABLE].contains(&kind);
                let operand = match sum && self.random.chance(30) {
                    true => plus(unbound, 1),
                    false => var(unbound),
                };
                put(record, spot, operand)
            }
            (_, Some(free)) if reads_table(kind) => record.read(free),
            _ => record,
        }
    }

    /// An L that means no site: no Loc, or one without an alias.
    fn nowhere(&mut self) -> Operand {
        let is_other =
            |v: &u8| self.scope.variables[usize::from(*v)].is_some_and(|kind| kind != LOC);
        let others: Vec<u8> = (0..16).filter(is_other).collect();
        let unknown: Vec<u8> =
            (1..8).filter(|at| self.world.meant(self.home, *at).is_none()).collect();
        match (others.is_empty(), unknown.is_empty()) {
            (false, empty) if empty || self.random.chance(50) => var(*self.random.choose(&others)),
            (_, false) => loc(*self.random.choose(&unknown)),
            _ => loc(self.random.between(1, 7) as u8),
        }
    }

    /// Another name, often one that differs by case alone.
    fn other_name(&mut self, record: &Record) -> [u8; 4] {
        if self.random.chance(40) {
            return [b'n', b'o', b'n', self.random.between(0x20, 0x7E) as u8];
        }
        [4, 5, 6, 7].map(|at| match record.0[at] {
            letter if letter.is_ascii_alphabetic() => letter ^ 0x20,
            byte => byte,
        })
    }

    fn misfits(&mut self, record: Record) -> Record {
        match record.kind() {
            INSERT if self.random.chance(30) => self.overflowing_insert().unwrap_or(record),
            INSERT if self.random.chance(50) => resized(self.random, record, TUPLE),
            INSERT => put(record, TUPLE, *self.random.choose(&[loc(1), int(1), text(b"a   ")])),
            INSERT_TABLE => match self.target_where(|_| true) {
                Some(target) => target.node(INSERT_TABLE).read(record.0[9]),
                None => record,
            },
            AGGREGATE if self.random.chance(60) => {
                record.function(self.random.between(2, 4) as u8, self.random.below(4) as u8)
            }
            kind if has_template(kind) => resized(self.random, record, TEMPLATE),
            _ => record,
        }
    }

    /// An insert of a sum that may leave 32 bits.
    fn overflowing_insert(&mut self) -> Option<Record> {
        let target = self.target_where(|plan| plan.columns == [INT])?;
        let more = *self.random.choose(&[i32::MAX, i32::MIN, 1, -1]);
        Some(target.node(INSERT).tuple(&[plus(self.int_variable()?, more)]))
    }

    fn int_variable(&mut self) -> Option<u8> {
        (0..16).find(|v| self.scope.variables[usize::from(*v)] == Some(INT))
    }

    /// A sequential loop whose body binds the table variable that the loop reads.
    fn binds_held(&mut self, chain: &mut Chain) {
        let Some(opened) = self.open_loop(chain, SEQUENTIAL, 95) else {
            return;
        };
        let held = if self.scope.held[0] { 0 } else { 1 };
        // Written as if nothing were held.
        self.scope.held = [false; 2];
        let record = match self.random.below(3) {
            0 => self.delete(),
            1 => self.select(),
            _ => self.select_variable(),
        };
        let record = match record {
            Some(record) => self.perhaps_spoilt(record.bound(held)),
            None => node(DROP, END).name(b"none").at(loc(0)),
        };
        self.append(&mut Chain::default(), record);
        self.close_loop(opened);
    }

    fn has_no_result(&mut self, record: Record) -> Record {
        let large = self.int_variable().map(|variable| plus(variable, i32::MAX));
        match self.random.below(6) {
            0 => record.tuple(&[int(99)]),
            1 => record.tuple(&[text(b"12  ")]),
            2 => record.function(COUNT, 0).tuple(&[loc(1)]),
            3 => record.tuple(&[large.unwrap_or(int(-99))]),
            _ => {
                let least = *self.random.choose(&[LEAST, LARGEST]);
                record.predicate(LESS, int(1), int(0)).function(least, record.0[11])
            }
        }
    }

    fn passes_limit(&mut self, chain: &mut Chain) {
        match self.random.below(4) {
            0 => self.deep(chain),
            1 => self.forks(chain),
            2 => (0..2).for_each(|_| self.fill(chain)),
            _ => (0..2).for_each(|_| self.crowd(chain)),
        }
    }
}

fn has_address(kind: u8) -> bool {
    (INSERT..=DROP).contains(&kind) && kind != SELECT_VARIABLE
}

fn has_template(kind: u8) -> bool {
    (DELETE..=AGGREGATE).contains(&kind)
}

fn has_tuple(kind: u8) -> bool {
    [INSERT, SELECT, SELECT_VARIABLE, UPDATE].contains(&kind)
}

fn has_predicate(kind: u8) -> bool {
    has_template(kind)
}

fn reads_table(kind: u8) -> bool {
    [INSERT_TABLE, SELECT_VARIABLE].contains(&kind)
}

/// Puts an operand in place of another; the right one of a predicate brings a predicate along.
fn put(record: Record, at: usize, operand: Operand) -> Record {
    if at == RIGHT {
        return record.predicate(LESS, int(3), operand);
    }
    operand
        .iter()
        .enumerate()
        .fold(record, |record, (offset, byte)| record.byte(at + offset, *byte))
}

/// One operand more, or one less.
fn resized(random: &mut Random, record: Record, at: usize) -> Record {
    let count = (0..4).take_while(|place| record.0[at + 8 * place] != 0).count();
    if count > 1 && (count == 4 || random.chance(50)) {
        return put(record, at + 8 * (count - 1), [0; 8]);
    }
    put(record, at + 8 * count, int(0))
}
