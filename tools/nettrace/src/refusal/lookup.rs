//! Numbers 13 to 15: which site a locality means, and which tables stand.

use crate::scene::Scene;
use crate::words::{a_kind, counted, loc, locality, site};
use engine::{Act, Locality, Operand, Value};
use nettext::{columns, name, value};

/// 13: L is no Loc, or has no alias at the thread's site.
pub fn no_site(scene: &Scene) -> Option<String> {
    let operand = scene.parts.address?.locality;
    let here = scene.thread.site;
    match scene.locality()? {
        Value::Loc(locality) if scene.site().is_none() => {
            let named = named(operand, locality);
            Some(format!("{named} has no alias at {}, which {}", site(here), known(scene)))
        }
        Value::Loc(_) => None,
        other => {
            let (kind, other) = (a_kind(other.kind()), value(other));
            Some(format!("{} is {other}, {kind} and no Loc", nettext::operand(operand)))
        }
    }
}

/// A locality that a variable holds is named with the variable.
fn named(operand: Operand, held: Locality) -> String {
    match operand {
        Operand::Variable(_) => format!("{}, which is {},", locality(operand), loc(held)),
        _ => locality(operand),
    }
}

/// The localities that the thread's site knows.
fn known(scene: &Scene) -> String {
    let here = scene.thread.site;
    let known = (1..8).filter_map(|number| {
        let meant = scene.steps.aliases.meant(here, Locality(number))?;
        Some(format!("@{number} as {}", site(meant)))
    });
    match known.collect::<Vec<_>>() {
        known if known.is_empty() => "knows no other site".to_owned(),
        known => format!("knows {}", known.join(", ")),
    }
}

/// 14: no such table at the site that L means.
pub fn no_table(scene: &Scene) -> Option<String> {
    if scene.table().is_some() {
        return None;
    }
    let wanted = scene.parts.address?.name;
    let alike = |other: &[u8; 4]| other.eq_ignore_ascii_case(&wanted.0);
    let others = scene.before.tables.iter().filter(|table| alike(&table.name.0));
    let others: Vec<String> =
        others.map(|table| format!("{} is at {}", name(table.name), site(table.site))).collect();
    let elsewhere = match others.as_slice() {
        [] => "no site has one".to_owned(),
        others => others.join(", "),
    };
    Some(format!("{}, which has no table {}; {elsewhere}", meant(scene)?, name(wanted)))
}

/// 15: the table to create is there.
pub fn table_there(scene: &Scene) -> Option<String> {
    let there = scene.table().filter(|_| matches!(scene.act, Act::Create { .. }))?;
    let (rows, columns) = (&there.relation.rows, columns(&there.relation.columns));
    let rows = counted(rows.len(), "row");
    let name = name(there.name);
    Some(format!("{}, which has {name} already, with {rows} of {columns}", meant(scene)?))
}

/// The site that L means, by the words of the step.
fn meant(scene: &Scene) -> Option<String> {
    let (operand, meant) = (scene.parts.address?.locality, site(scene.site()?));
    match (operand, scene.locality()?) {
        (Operand::Variable(_), Value::Loc(held)) => {
            Some(format!("{} is {}, {meant}", locality(operand), loc(held)))
        }
        _ => Some(format!("{} is {meant}", locality(operand))),
    }
}
