//! The bytes of a record, field by field.

use engine::{
    Act, Address, Columns, Filter, Function, Operand, Predicate, Test, Text, Value, RECORD_SIZE,
};

pub type Bytes = [u8; RECORD_SIZE];

// Where the fields lie.
const KIND: usize = 0;
const PREDICATE: usize = 3;
const NAME: usize = 4;
const COLUMNS: usize = 8;
const BOUND: usize = 8;
const READ: usize = 9;
const FUNCTION: usize = 10;
const COLUMN: usize = 11;
const LOCALITY: usize = 16;
const TEMPLATE: usize = 24;
const TUPLE: usize = 56;
const LEFT: usize = 88;
const RIGHT: usize = 96;

const OPERAND: usize = 8;

/// A record that is zero but for the fields put in.
pub struct Record(Bytes);

impl Record {
    pub fn new(kind: u8) -> Record {
        let mut bytes = [0; RECORD_SIZE];
        bytes[KIND] = kind;
        Record(bytes)
    }

    pub fn bytes(self) -> Bytes {
        self.0
    }

    /// Bytes 1 and on: sites, localities, threads, nodes, as the kind says.
    pub fn head(mut self, fields: &[u8]) -> Record {
        self.put(1, fields);
        self
    }

    pub fn name(mut self, name: Text) -> Record {
        self.put(NAME, &name.0);
        self
    }

    pub fn columns(mut self, columns: &Columns) -> Record {
        let kinds: Vec<u8> = columns.iter().map(|kind| *kind as u8).collect();
        self.put(COLUMNS, &kinds);
        self
    }

    pub fn row(mut self, values: &[Value]) -> Record {
        for (place, value) in values.iter().enumerate() {
            self.operand(TUPLE + OPERAND * place, Operand::Constant(*value));
        }
        self
    }

    pub fn act(mut self, act: &Act) -> Record {
        match act {
            Act::Insert { into, tuple } => {
                self.address(into);
                self.operands(TUPLE, tuple);
            }
            Act::InsertTable { into, read } => {
                self.address(into);
                self.0[READ] = *read;
            }
            Act::Delete { from, filter, bound } => {
                self.address(from);
                self.filter(filter);
                self.0[BOUND] = *bound;
            }
            Act::Select { from, filter, tuple, bound } => {
                self.address(from);
                self.filter(filter);
                self.operands(TUPLE, tuple);
                self.0[BOUND] = *bound;
            }
            Act::SelectVariable { read, filter, tuple, bound } => {
                self.filter(filter);
                self.operands(TUPLE, tuple);
                self.put(BOUND, &[*bound, *read]);
            }
            Act::Update { at, filter, tuple } => {
                self.address(at);
                self.filter(filter);
                self.operands(TUPLE, tuple);
            }
            Act::Aggregate { over, filter, function, result } => {
                self.address(over);
                self.filter(filter);
                self.function(*function);
                self.operand(TUPLE, *result);
            }
            Act::Create { at, columns } => {
                self.address(at);
                return self.columns(columns);
            }
            Act::Drop { at } => self.address(at),
            Act::Loop(looping) => {
                self.0[READ] = looping.read;
                self.operands(TEMPLATE, &looping.template);
            }
        }
        self
    }

    fn put(&mut self, at: usize, bytes: &[u8]) {
        self.0[at..at + bytes.len()].copy_from_slice(bytes);
    }

    fn address(&mut self, address: &Address) {
        self.put(NAME, &address.name.0);
        self.operand(LOCALITY, address.locality);
    }

    fn filter(&mut self, filter: &Filter) {
        self.operands(TEMPLATE, &filter.template);
        if let Some(Predicate { test, left, right }) = filter.predicate {
            self.0[PREDICATE] = match test {
                Test::Equal => 1,
                Test::Unequal => 2,
                Test::Less => 3,
                Test::AtMost => 4,
            };
            self.operand(LEFT, left);
            self.operand(RIGHT, right);
        }
    }

    fn function(&mut self, function: Function) {
        let (number, column) = match function {
            Function::Count => (1, 0),
            Function::Sum(column) => (2, column),
            Function::Least(column) => (3, column),
            Function::Largest(column) => (4, column),
        };
        self.0[FUNCTION] = number;
        self.0[COLUMN] = column;
    }

    fn operands(&mut self, at: usize, operands: &[Operand]) {
        for (place, operand) in operands.iter().enumerate() {
            self.operand(at + OPERAND * place, *operand);
        }
    }

    fn operand(&mut self, at: usize, operand: Operand) {
        let (tag, variable, value) = match operand {
            Operand::Constant(Value::Int(int)) => (1, 0, int.to_le_bytes()),
            Operand::Constant(Value::Text(text)) => (2, 0, text.0),
            Operand::Constant(Value::Loc(locality)) => (3, 0, [locality.0, 0, 0, 0]),
            Operand::Variable(variable) => (4, variable, [0; 4]),
            Operand::Plus(variable, more) => (5, variable, more.to_le_bytes()),
            Operand::Formal(variable) => (6, variable, [0; 4]),
        };
        self.put(at, &[tag, variable]);
        self.put(at + 4, &value);
    }
}
