//! Sites, localities, texts and values.

use crate::quirk::{wrong, Quirk};
use std::cmp::Ordering;

/// Sites and localities are numbered 0..7.
pub const PLACES: u8 = 8;

/// A physical locality.
#[derive(Clone, Copy, PartialEq, Eq, Hash, Debug)]
pub struct Site(pub u8);

/// A logical locality: what it means depends on the site that reads it.
#[derive(Clone, Copy, PartialEq, Eq, Hash, Debug)]
pub struct Locality(pub u8);

/// Four bytes of readable text; also the name of a table.
#[derive(Clone, Copy, PartialEq, Eq, Hash, Debug)]
pub struct Text(pub [u8; 4]);

#[derive(Clone, Copy, PartialEq, Eq, Hash, Debug, Default)]
pub enum Kind {
    #[default]
    Int = 1,
    Text = 2,
    Loc = 3,
}

/// `==` says that kind and bytes agree; `order` is what matching and predicates see.
#[derive(Clone, Copy, PartialEq, Eq, Hash, Debug)]
pub enum Value {
    Int(i32),
    Text(Text),
    Loc(Locality),
}

impl Site {
    pub fn in_range(self) -> bool {
        self.0 < PLACES
    }
}

impl Locality {
    /// At each site this locality is the site itself.
    pub const SELF: Locality = Locality(0);

    pub fn in_range(self) -> bool {
        self.0 < PLACES
    }
}

impl Text {
    pub fn in_range(self) -> bool {
        self.0.iter().all(|byte| (0x20..=0x7E).contains(byte))
    }

    /// The bytes as one number that orders like them, a..z read as A..Z.
    fn folded(self) -> u32 {
        let mut bytes = self.0;
        if wrong(Quirk::LowerText) {
            bytes.make_ascii_lowercase();
        } else if !wrong(Quirk::ExactText) {
            bytes.make_ascii_uppercase();
        }
        u32::from_be_bytes(bytes)
    }

    pub fn order(self, other: Text) -> Ordering {
        self.folded().cmp(&other.folded())
    }
}

impl Kind {
    pub fn from_tag(tag: u8) -> Option<Kind> {
        match tag {
            1 => Some(Kind::Int),
            2 => Some(Kind::Text),
            3 => Some(Kind::Loc),
            _ => None,
        }
    }
}

impl Default for Value {
    fn default() -> Self {
        Value::Int(0)
    }
}

impl Value {
    pub fn kind(self) -> Kind {
        match self {
            Value::Int(_) => Kind::Int,
            Value::Text(_) => Kind::Text,
            Value::Loc(_) => Kind::Loc,
        }
    }

    pub fn in_range(self) -> bool {
        match self {
            Value::Int(_) => true,
            Value::Text(text) => text.in_range(),
            Value::Loc(locality) => locality.in_range(),
        }
    }

    /// The order of two values of one kind; unlike kinds have none.
    pub fn order(self, other: Value) -> Option<Ordering> {
        match (self, other) {
            (Value::Int(a), Value::Int(b)) => Some(a.cmp(&b)),
            (Value::Text(a), Value::Text(b)) => Some(a.order(b)),
            (Value::Loc(a), Value::Loc(b)) => Some(a.0.cmp(&b.0)),
            _ => None,
        }
    }

    pub fn matches(self, other: Value) -> bool {
        self.order(other) == Some(Ordering::Equal)
    }

    /// The sum with an Int; none for another kind or outside 32 bits.
    pub fn plus(self, more: i32) -> Option<Value> {
        match self {
            Value::Int(int) if wrong(Quirk::WrappingSum) => {
                Some(Value::Int(int.wrapping_add(more)))
            }
            Value::Int(int) => int.checked_add(more).map(Value::Int),
            _ => None,
        }
    }
}
