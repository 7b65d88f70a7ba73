//! Values, and the rows that tables and table variables have of them.

/// An Int, a Text of four characters, or a Loc.
#[derive(Clone, Copy, PartialEq, Eq, Debug)]
pub enum Value {
    Int(i32),
    Text([u8; 4]),
    Loc(u8),
}

#[derive(Clone, Copy, PartialEq, Eq, Debug)]
pub enum Kind {
    Int,
    Text,
    Loc,
}

pub type Row = Vec<Value>;

/// Columns and rows.
#[derive(Clone, PartialEq, Eq, Debug, Default)]
pub struct Relation {
    pub columns: Vec<Kind>,
    pub rows: Vec<Row>,
}

impl Relation {
    /// No rows.
    pub(crate) fn new(columns: Vec<Kind>) -> Relation {
        Relation { columns, rows: Vec::new() }
    }
}

impl Value {
    /// An operand of 8 bytes: a tag, three zeros, the value. None is any other tag.
    pub(crate) fn read(operand: &[u8; 8]) -> Option<Value> {
        let [tag, _, _, _, value @ ..] = *operand;
        match tag {
            1 => Some(Value::Int(i32::from_le_bytes(value))),
            2 => Some(Value::Text(value)),
            3 => Some(Value::Loc(value[0])),
            _ => None,
        }
    }

    /// One to four operands, then only tag 0.
    pub(crate) fn read_row(operands: &[[u8; 8]]) -> Row {
        operands.iter().map_while(Value::read).collect()
    }
}

impl Kind {
    /// One to four kinds, then only 0.
    pub(crate) fn read_columns(bytes: &[u8]) -> Vec<Kind> {
        let kind = |byte: &u8| match byte {
            1 => Some(Kind::Int),
            2 => Some(Kind::Text),
            3 => Some(Kind::Loc),
            _ => None,
        };
        bytes.iter().map_while(kind).collect()
    }
}
