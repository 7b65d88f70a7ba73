//! Words that several parts of a trace share.

use engine::{Kind, Locality, Operand, Site, Table, Value};
use nettext::name;

/// What a variable holds that a later engine bound.
pub const UNKNOWN_VALUE: &str = "a value that this nettrace does not know";

/// A number of things.
pub fn counted(count: usize, thing: &str) -> String {
    match count {
        1 => format!("1 {thing}"),
        _ => format!("{count} {thing}s"),
    }
}

/// Rows added and taken.
pub fn counts(added: u64, taken: u64) -> String {
    match added {
        1 => format!("1 row added, {taken} taken"),
        _ => format!("{added} rows added, {taken} taken"),
    }
}

pub fn a_kind(kind: Kind) -> &'static str {
    match kind {
        Kind::Int => "an Int",
        Kind::Text => "a Text",
        Kind::Loc => "a Loc",
    }
}

/// A table by its name and site.
pub fn table(table: &Table) -> String {
    format!("{} at {}", name(table.name), site(table.site))
}

pub fn site(site: Site) -> String {
    format!("site {}", site.0)
}

/// A locality as a step names it.
pub fn locality(operand: Operand) -> String {
    match operand {
        Operand::Constant(Value::Loc(locality)) => loc(locality),
        Operand::Variable(variable) => format!("@x{variable}"),
        other => nettext::operand(other),
    }
}

pub fn loc(locality: Locality) -> String {
    match locality {
        Locality::SELF => "@self".to_owned(),
        Locality(number) => format!("@{number}"),
    }
}
