//! Names, operands and predicates as text.

use crate::token::quoted;
use crate::words::{is_reserved, is_word};
use engine::{Address, Columns, Filter, Function, Kind, Operand, Predicate, Test, Text, Value};

/// A name as a word where it reads as one, else in quotes with all its blanks.
pub fn name(name: Text) -> String {
    let text = String::from_utf8_lossy(&name.0).into_owned();
    let word = text.trim_end_matches(' ');
    if is_word(word) && !is_reserved(word) {
        return word.to_owned();
    }
    quoted(name)
}

pub fn columns(columns: &Columns) -> String {
    listed(columns.iter().map(|kind| self::kind(*kind).to_owned()))
}

pub fn kind(kind: Kind) -> &'static str {
    match kind {
        Kind::Int => "Int",
        Kind::Text => "Text",
        Kind::Loc => "Loc",
    }
}

pub fn row(values: &[Value]) -> String {
    listed(values.iter().map(|value| self::value(*value)))
}

/// A tuple or a template.
pub fn operands(operands: &[Operand]) -> String {
    listed(operands.iter().map(|operand| self::operand(*operand)))
}

fn listed(parts: impl Iterator<Item = String>) -> String {
    format!("({})", parts.collect::<Vec<_>>().join(", "))
}

pub fn value(value: Value) -> String {
    match value {
        Value::Int(int) => int.to_string(),
        Value::Text(text) => quoted(text),
        Value::Loc(locality) => format!("@{}", locality.0),
    }
}

pub fn operand(operand: Operand) -> String {
    match operand {
        Operand::Constant(constant) => value(constant),
        Operand::Variable(variable) => format!("x{variable}"),
        Operand::Plus(variable, more) if more < 0 => {
            format!("x{variable} - {}", more.unsigned_abs())
        }
        Operand::Plus(variable, more) => format!("x{variable} + {more}"),
        Operand::Formal(variable) => format!("!x{variable}"),
    }
}

/// A table's name with its locality.
pub fn address(address: &Address) -> String {
    let locality = match address.locality {
        Operand::Constant(Value::Loc(locality)) if locality == engine::Locality::SELF => {
            "@self".to_owned()
        }
        Operand::Variable(variable) => format!("@x{variable}"),
        other => operand(other),
    };
    format!("{} {locality}", name(address.name))
}

/// Empty where every row that matches is meant; else begins with a blank.
pub fn predicate(filter: &Filter) -> String {
    let Some(Predicate { test, left, right }) = filter.predicate else {
        return String::new();
    };
    let sign = match test {
        Test::Equal => "=",
        Test::Unequal => "!=",
        Test::Less => "<",
        Test::AtMost => "<=",
    };
    format!(" where {} {sign} {}", operand(left), operand(right))
}

pub fn function(function: Function) -> String {
    match function {
        Function::Count => "count".to_owned(),
        Function::Sum(column) => format!("sum of column {column}"),
        Function::Least(column) => format!("least of column {column}"),
        Function::Largest(column) => format!("largest of column {column}"),
    }
}
