//! What the tables are like that stand after a file's picks: netpage lays each out as a page.

use engine::{Kind, Net, Relation, Value};

/// A sort of page, and whether the page of a table is of that sort.
type Sort = (&'static str, fn(&Relation) -> bool);

const SORTS: [Sort; 12] = [
    ("16 rows", |relation| relation.rows.is_full()),
    ("no rows", |relation| relation.rows.is_empty()),
    ("four columns", |relation| relation.columns.is_full()),
    ("no Int column", |relation| !relation.columns.contains(&Kind::Int)),
    ("Loc cells", |relation| values(relation).any(|value| value.kind() == Kind::Loc)),
    ("Int -2147483648", |relation| values(relation).any(|value| value == Value::Int(i32::MIN))),
    ("Int 2147483647", |relation| values(relation).any(|value| value == Value::Int(i32::MAX))),
    ("a negative sum", |relation| sums(relation).any(|sum| sum < 0)),
    ("a sum past 32 bits", |relation| sums(relation).any(|sum| i32::try_from(sum).is_err())),
    ("a sum of 11 places", |relation| sums(relation).any(|sum| places(sum) == 11)),
    ("a sum of 12 places", |relation| sums(relation).any(|sum| places(sum) == 12)),
    ("a sum at its bound", |relation| sums(relation).any(|sum| BOUNDS.contains(&sum))),
];

/// The sums of 16 least and of 16 largest Ints.
const BOUNDS: [i64; 2] = [-34_359_738_368, 34_359_738_352];

/// Counts of tables standing.
#[derive(Default)]
pub struct Standing {
    pub tables: usize,
    sorts: [usize; SORTS.len()],
}

impl Standing {
    pub fn count(&mut self, net: &Net) {
        for table in &net.tables {
            self.tables += 1;
            for (count, (_, is_of_sort)) in self.sorts.iter_mut().zip(SORTS) {
                *count += usize::from(is_of_sort(&table.relation));
            }
        }
    }

    /// Each sort of page, with the number of tables that have one.
    pub fn sorts(&self) -> impl Iterator<Item = (&'static str, usize)> {
        SORTS.into_iter().zip(self.sorts).map(|((name, _), count)| (name, count))
    }
}

fn values(relation: &Relation) -> impl Iterator<Item = Value> + '_ {
    relation.rows.iter().flat_map(|row| row.iter().copied())
}

/// The sums of the Int columns.
fn sums(relation: &Relation) -> impl Iterator<Item = i64> + '_ {
    let columns = relation.columns.iter().enumerate().filter(|(_, kind)| **kind == Kind::Int);
    columns.map(|(column, _)| relation.rows.iter().map(|row| int(row[column])).sum())
}

fn int(value: Value) -> i64 {
    match value {
        Value::Int(int) => i64::from(int),
        _ => 0,
    }
}

/// The places of a number with its sign.
fn places(number: i64) -> usize {
    number.to_string().len()
}
