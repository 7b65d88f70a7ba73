//! What differs between the tables before and after a pick.

use engine::{Row, Table};

/// A table with the rows that went and came, counted with repeats.
pub struct Change<'a> {
    pub table: &'a Table,
    pub kind: TableChange,
    pub gone: Vec<Row>,
    pub new: Vec<Row>,
}

#[derive(Clone, Copy, PartialEq, Eq, Debug)]
pub enum TableChange {
    Created,
    Dropped,
    Stays,
}

/// The tables that changed: first those that were there, then the new ones.
pub fn changes<'a>(before: &'a [Table], after: &'a [Table]) -> Vec<Change<'a>> {
    let known = before.iter().map(|table| match find(after, table) {
        Some(later) => {
            between(table, TableChange::Stays, &table.relation.rows, &later.relation.rows)
        }
        None => between(table, TableChange::Dropped, &table.relation.rows, &[]),
    });
    let created = after.iter().filter(|table| find(before, table).is_none());
    let created =
        created.map(|table| between(table, TableChange::Created, &[], &table.relation.rows));
    known.chain(created).filter(Change::is_one).collect()
}

impl Change<'_> {
    fn is_one(&self) -> bool {
        self.kind != TableChange::Stays || !self.gone.is_empty() || !self.new.is_empty()
    }
}

fn find<'a>(tables: &'a [Table], like: &Table) -> Option<&'a Table> {
    let key = |table: &Table| (table.site, table.name);
    tables.iter().find(|table| key(table) == key(like))
}

fn between<'a>(table: &'a Table, kind: TableChange, before: &[Row], after: &[Row]) -> Change<'a> {
    Change { table, kind, gone: without(before, after), new: without(after, before) }
}

/// The rows that are left when each of the others takes one equal row away.
fn without(rows: &[Row], others: &[Row]) -> Vec<Row> {
    let mut left = rows.to_vec();
    for other in others {
        if let Some(place) = left.iter().position(|row| row == other) {
            left.remove(place);
        }
    }
    left
}

#[cfg(test)]
mod tests {
    use super::*;
    use engine::{Columns, Kind, Relation, Site, Text, Value};

    fn table(name: &[u8; 4], values: &[i32]) -> Table {
        let columns = Columns::from_iter([Kind::Int]);
        let relation = Relation { columns, rows: rows(values).into_iter().collect() };
        Table { site: Site(0), name: Text(*name), relation }
    }

    fn rows(values: &[i32]) -> Vec<Row> {
        values.iter().map(|value| Row::from_iter([Value::Int(*value)])).collect()
    }

    #[test]
    fn rows_are_counted_with_repeats() {
        let (before, after) = ([table(b"CARD", &[1, 1, 2])], [table(b"CARD", &[1, 3, 3])]);
        let changes = changes(&before, &after);
        assert_eq!(changes.len(), 1);
        assert_eq!((&changes[0].gone, &changes[0].new), (&rows(&[1, 2]), &rows(&[3, 3])));
        assert_eq!(changes[0].kind, TableChange::Stays);
    }

    #[test]
    fn an_order_of_rows_is_no_change() {
        let (before, after) = ([table(b"CARD", &[1, 2])], [table(b"CARD", &[2, 1])]);
        assert!(changes(&before, &after).is_empty());
    }

    #[test]
    fn tables_come_and_go() {
        let (old, new) = ([table(b"OLD ", &[1])], [table(b"NEW ", &[])]);
        let changes = changes(&old, &new);
        assert_eq!(changes.len(), 2);
        assert_eq!((changes[0].kind, &changes[0].gone), (TableChange::Dropped, &rows(&[1])));
        assert_eq!((changes[1].kind, changes[1].new.len()), (TableChange::Created, 0));
    }
}
