//! One record of a file: its group and its fields.

use crate::net::{Act, Address, Filter, Function, Loop, Node, Pick, Predicate, Test};
use crate::operand::{Operand, Operands};
use crate::quirk::{wrong, Quirk};
use crate::relation::{Columns, Row};
use crate::sound::node_obeys;
use crate::value::{Kind, Locality, Site, Text, Value};

pub const SIZE: usize = 104;

/// The byte that stands for no next node.
const END: u8 = 255;

// Where the fields lie.
pub const KIND: usize = 0;
pub const SITE: usize = 1;
pub const NAME: usize = 4;
pub const COLUMNS: usize = 8;
pub const TUPLE: usize = 56;
const NEXT: usize = 1;
const BODY: usize = 2;
const PREDICATE: usize = 3;
const BOUND: usize = 8;
const READ: usize = 9;
const FUNCTION: usize = 10;
const COLUMN: usize = 11;
const LOCALITY: usize = 16;
const TEMPLATE: usize = 24;
const LEFT: usize = 88;
const RIGHT: usize = 96;

// The kinds that writing needs too.
pub const TABLE: u8 = 2;
pub const ROW: u8 = 3;

pub enum Record {
    Alias { site: Site, locality: Locality, meant: Site },
    Table { site: Site, name: Text, columns: Columns },
    Row { site: Site, name: Text, row: Row },
    Node(Node),
    Start { site: Site, node: u8 },
    Pick(Pick),
}

/// The groups in the order that a file has them; none for an unknown kind.
pub fn group(kind: u8) -> Option<u8> {
    match kind {
        1..=3 => Some(kind),
        16..=26 => Some(4),
        32 => Some(5),
        33 => Some(6),
        _ => None,
    }
}

/// Check 4: none where a field, tag or unused byte breaks its rule.
pub fn decode(bytes: &[u8; SIZE]) -> Option<Record> {
    let mut fields = Fields(*bytes);
    let record = match fields.byte(KIND) {
        1 => fields.alias()?,
        TABLE => Record::Table {
            site: fields.site(SITE)?,
            name: fields.name()?,
            columns: fields.columns()?,
        },
        ROW => Record::Row { site: fields.site(SITE)?, name: fields.name()?, row: fields.row()? },
        32 => Record::Start { site: fields.site(SITE)?, node: fields.byte(2) },
        33 => Record::Pick(Pick { thread: fields.byte(1), row: fields.byte(2) }),
        kind => Record::Node(fields.node(kind)?),
    };
    fields.are_spent().then_some(record)
}

/// The bytes of a record that nothing has read yet. A byte read is set to zero, so that in the
/// end the unused ones are left.
struct Fields([u8; SIZE]);

impl Fields {
    fn byte(&mut self, at: usize) -> u8 {
        std::mem::take(&mut self.0[at])
    }

    fn bytes<const N: usize>(&mut self, at: usize) -> [u8; N] {
        let mut taken = [0; N];
        self.0[at..at + N].swap_with_slice(&mut taken);
        taken
    }

    fn are_spent(&mut self) -> bool {
        if wrong(Quirk::LooseGap) {
            self.bytes::<4>(12);
        }
        self.0 == [0; SIZE]
    }

    fn site(&mut self, at: usize) -> Option<Site> {
        Some(Site(self.byte(at))).filter(|site| site.in_range())
    }

    fn name(&mut self) -> Option<Text> {
        Some(Text(self.bytes(NAME))).filter(|name| name.in_range())
    }

    fn alias(&mut self) -> Option<Record> {
        let site = self.site(1)?;
        let locality = Locality(self.byte(2));
        let meant = self.site(3)?;
        let named = locality.in_range() && locality != Locality::SELF;
        named.then_some(Record::Alias { site, locality, meant })
    }

    fn columns(&mut self) -> Option<Columns> {
        let tags: [u8; 4] = self.bytes(COLUMNS);
        let columns: Columns = tags.iter().map_while(|tag| Kind::from_tag(*tag)).collect();
        let rest = &tags[columns.len()..];
        (!columns.is_empty() && rest.iter().all(|tag| *tag == 0)).then_some(columns)
    }

    /// One to four operands, then only tag 0.
    fn operands(&mut self, at: usize) -> Option<Operands> {
        let mut operands = Operands::default();
        let mut ended = false;
        for place in 0..4 {
            match self.operand(at + 8 * place)? {
                Some(_) if ended => return None,
                Some(operand) => operands.push(operand),
                None => ended = true,
            }
        }
        (!operands.is_empty()).then_some(operands)
    }

    /// Some(None) is tag 0. Ranges are judged with the node or row.
    fn operand(&mut self, at: usize) -> Option<Option<Operand>> {
        let [tag, variable, 0, 0, value @ ..] = self.bytes::<8>(at) else {
            return None;
        };
        let int = i32::from_le_bytes(value);
        Some(match (tag, variable, value) {
            (0, 0, [0, 0, 0, 0]) => None,
            (1, 0, _) => Some(Operand::Constant(Value::Int(int))),
            (2, 0, _) => Some(Operand::Constant(Value::Text(Text(value)))),
            (3, 0, [locality, 0, 0, 0]) => Some(Operand::Constant(Value::Loc(Locality(locality)))),
            (4, _, [0, 0, 0, 0]) => Some(Operand::Variable(variable)),
            (5, _, _) => Some(Operand::Plus(variable, int)),
            (6, _, [0, 0, 0, 0]) => Some(Operand::Formal(variable)),
            _ => return None,
        })
    }

    fn row(&mut self) -> Option<Row> {
        let mut row = Row::default();
        for operand in self.operands(TUPLE)?.iter() {
            match operand {
                Operand::Constant(value) if value.in_range() => row.push(*value),
                _ => return None,
            }
        }
        Some(row)
    }

    fn node(&mut self, kind: u8) -> Option<Node> {
        let next = Some(self.byte(NEXT)).filter(|next| *next != END);
        let act = self.act(kind)?;
        Some(Node { next, act }).filter(node_obeys)
    }

    fn act(&mut self, kind: u8) -> Option<Act> {
        Some(match kind {
            16 => Act::Insert { into: self.address()?, tuple: self.operands(TUPLE)? },
            17 => Act::InsertTable { into: self.address()?, read: self.byte(READ) },
            18 => Act::Delete {
                from: self.address()?,
                filter: self.filter()?,
                bound: self.byte(BOUND),
            },
            19 => Act::Select {
                from: self.address()?,
                filter: self.filter()?,
                tuple: self.operands(TUPLE)?,
                bound: self.byte(BOUND),
            },
            20 => Act::SelectVariable {
                read: self.byte(READ),
                filter: self.filter()?,
                tuple: self.operands(TUPLE)?,
                bound: self.byte(BOUND),
            },
            21 => Act::Update {
                at: self.address()?,
                filter: self.filter()?,
                tuple: self.operands(TUPLE)?,
            },
            22 => Act::Aggregate {
                over: self.address()?,
                filter: self.filter()?,
                function: self.function()?,
                result: self.operand(TUPLE)??,
            },
            23 => Act::Create { at: self.address()?, columns: self.columns()? },
            24 => Act::Drop { at: self.address()? },
            25 | 26 => Act::Loop(self.looping(kind == 26)?),
            _ => return None,
        })
    }

    fn looping(&mut self, parallel: bool) -> Option<Loop> {
        let template = self.operands(TEMPLATE)?;
        Some(Loop { parallel, read: self.byte(READ), template, body: self.byte(BODY) })
    }

    fn address(&mut self) -> Option<Address> {
        Some(Address { name: self.name()?, locality: self.operand(LOCALITY)?? })
    }

    fn filter(&mut self) -> Option<Filter> {
        Some(Filter { template: self.operands(TEMPLATE)?, predicate: self.predicate()? })
    }

    /// Some(None) is predicate 0, which uses no operands.
    fn predicate(&mut self) -> Option<Option<Predicate>> {
        let test = match self.byte(PREDICATE) {
            0 => return Some(None),
            1 => Test::Equal,
            2 => Test::Unequal,
            3 => Test::Less,
            4 => Test::AtMost,
            _ => return None,
        };
        Some(Some(Predicate { test, left: self.operand(LEFT)??, right: self.operand(RIGHT)?? }))
    }

    fn function(&mut self) -> Option<Function> {
        match self.byte(FUNCTION) {
            1 => Some(Function::Count),
            2 => Some(Function::Sum(self.byte(COLUMN))),
            3 => Some(Function::Least(self.byte(COLUMN))),
            4 => Some(Function::Largest(self.byte(COLUMN))),
            _ => None,
        }
    }
}
