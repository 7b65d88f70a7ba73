//! Records and operands as bytes, put together by name.

pub const SIZE: usize = 104;

/// No next node.
pub const END: u8 = 255;

// Column kinds.
pub const INT: u8 = 1;
pub const TEXT: u8 = 2;
pub const LOC: u8 = 3;

// Node kinds.
pub const INSERT: u8 = 16;
pub const INSERT_TABLE: u8 = 17;
pub const DELETE: u8 = 18;
pub const SELECT: u8 = 19;
pub const SELECT_VARIABLE: u8 = 20;
pub const UPDATE: u8 = 21;
pub const AGGREGATE: u8 = 22;
pub const CREATE: u8 = 23;
pub const DROP: u8 = 24;
pub const SEQUENTIAL: u8 = 25;
pub const PARALLEL: u8 = 26;

// Tests of predicates.
pub const EQUAL: u8 = 1;
pub const UNEQUAL: u8 = 2;
pub const LESS: u8 = 3;
pub const AT_MOST: u8 = 4;

// Aggregate functions.
pub const COUNT: u8 = 1;
pub const SUM: u8 = 2;
pub const LEAST: u8 = 3;
pub const LARGEST: u8 = 4;

pub type Name = [u8; 4];
pub type Operand = [u8; 8];

pub fn int(value: i32) -> Operand {
    operand(1, 0, value.to_le_bytes())
}

pub fn text(value: &Name) -> Operand {
    operand(2, 0, *value)
}

pub fn loc(locality: u8) -> Operand {
    operand(3, 0, [locality, 0, 0, 0])
}

pub fn var(variable: u8) -> Operand {
    operand(4, variable, [0; 4])
}

pub fn plus(variable: u8, more: i32) -> Operand {
    operand(5, variable, more.to_le_bytes())
}

pub fn formal(variable: u8) -> Operand {
    operand(6, variable, [0; 4])
}

fn operand(tag: u8, variable: u8, value: [u8; 4]) -> Operand {
    let [a, b, c, d] = value;
    [tag, variable, 0, 0, a, b, c, d]
}

#[derive(Clone, Copy, PartialEq, Eq, Debug)]
pub struct Record(pub [u8; SIZE]);

pub fn alias(site: u8, locality: u8, meant: u8) -> Record {
    Record::new(1).byte(1, site).byte(2, locality).byte(3, meant)
}

pub fn table(site: u8, name: &Name, columns: &[u8]) -> Record {
    Record::new(2).byte(1, site).name(name).columns(columns)
}

pub fn row(site: u8, name: &Name, values: &[Operand]) -> Record {
    Record::new(3).byte(1, site).name(name).tuple(values)
}

pub fn start(site: u8, node: u8) -> Record {
    Record::new(32).byte(1, site).byte(2, node)
}

pub fn pick(thread: u8, row: u8) -> Record {
    Record::new(33).byte(1, thread).byte(2, row)
}

pub fn node(kind: u8, next: u8) -> Record {
    Record::new(kind).byte(1, next)
}

impl Record {
    pub fn new(kind: u8) -> Record {
        Record([0; SIZE]).byte(0, kind)
    }

    pub fn byte(mut self, at: usize, value: u8) -> Record {
        self.0[at] = value;
        self
    }

    pub fn bytes(mut self, at: usize, values: &[u8]) -> Record {
        self.0[at..at + values.len()].copy_from_slice(values);
        self
    }

    pub fn next(self, node: u8) -> Record {
        self.byte(1, node)
    }

    pub fn body(self, node: u8) -> Record {
        self.byte(2, node)
    }

    pub fn name(self, name: &Name) -> Record {
        self.bytes(4, name)
    }

    pub fn columns(self, columns: &[u8]) -> Record {
        self.bytes(8, columns)
    }

    pub fn bound(self, table_variable: u8) -> Record {
        self.byte(8, table_variable)
    }

    pub fn read(self, table_variable: u8) -> Record {
        self.byte(9, table_variable)
    }

    pub fn function(self, function: u8, column: u8) -> Record {
        self.byte(10, function).byte(11, column)
    }

    pub fn at(self, locality: Operand) -> Record {
        self.bytes(16, &locality)
    }

    pub fn template(self, operands: &[Operand]) -> Record {
        self.bytes(24, operands.as_flattened())
    }

    pub fn tuple(self, operands: &[Operand]) -> Record {
        self.bytes(56, operands.as_flattened())
    }

    pub fn predicate(self, test: u8, left: Operand, right: Operand) -> Record {
        self.byte(3, test).bytes(88, &left).bytes(96, &right)
    }

    pub fn kind(&self) -> u8 {
        self.0[0]
    }
}

/// The records as one file.
pub fn file(records: &[Record]) -> Vec<u8> {
    records.iter().flat_map(|record| record.0).collect()
}
