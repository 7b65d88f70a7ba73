//! Number 16: which column and kind did not fit.

use crate::fitting::fitted;
use crate::scene::Scene;
use crate::words::{a_kind, counted, table};
use engine::{Act, Columns, Function, Kind};
use nettext::columns as shown;

pub fn case(scene: &Scene) -> Option<String> {
    match scene.act {
        Act::Insert { tuple, .. } => {
            let table = scene.table()?;
            let misfit = fitted(tuple, scene.own(), &table.relation.columns).err()?;
            Some(format!("no row for {}: {misfit}", self::table(table)))
        }
        Act::InsertTable { read, .. } => {
            let (table, held) = (scene.table()?, scene.read()?);
            let (here, there) = (held.columns, table.relation.columns);
            (here != there).then(|| {
                let name = self::table(table);
                format!("T{read} has the columns {}, and {name} {}", shown(&here), shown(&there))
            })
        }
        _ => template(scene).or_else(|| column(scene)),
    }
}

/// T is not as long as the columns.
fn template(scene: &Scene) -> Option<String> {
    let (relation, name) = scene.source()?;
    let (fields, columns) = (scene.parts.template.len(), relation.columns);
    (fields != columns.len()).then(|| {
        let fields = counted(fields, "field");
        format!("the template has {fields}, and {name} has the columns {}", shown(&columns))
    })
}

/// The column of a sum, a least or a largest is absent or no Int.
fn column(scene: &Scene) -> Option<String> {
    let Act::Aggregate { function, .. } = scene.act else {
        return None;
    };
    let place = match function {
        Function::Count => return None,
        Function::Sum(place) | Function::Least(place) | Function::Largest(place) => *place,
    };
    let (relation, name) = scene.source()?;
    wrong_column(&relation.columns, place).map(|wrong| {
        format!("column {place} of {name} {wrong}: the columns are {}", shown(&relation.columns))
    })
}

fn wrong_column(columns: &Columns, place: u8) -> Option<String> {
    match columns.get(usize::from(place)) {
        None => Some("is absent".to_owned()),
        Some(Kind::Int) => None,
        Some(kind) => Some(format!("is {}, not an Int", a_kind(*kind))),
    }
}
