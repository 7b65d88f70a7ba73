//! Number 12: which variable or table variable is unbound.

use crate::moment::Variable;
use crate::parts::Parts;
use crate::scene::Scene;
use engine::Operand;

/// Where a step reads an operand. In the predicate and in t a formal of T has the row's value.
#[derive(Clone, Copy, PartialEq, Eq)]
enum Read {
    InLocality,
    InTemplate,
    AfterGiving,
    InPredicate,
    InTuple,
}

pub fn case(scene: &Scene) -> Option<String> {
    let unbound = operands(&scene.parts).filter_map(|(place, operand)| {
        let variable = variable(operand).filter(|variable| is_unbound(scene, place, *variable))?;
        Some(format!("x{variable}, read {}, is unbound", place.words()))
    });
    let table = scene.parts.read.filter(|_| scene.read().is_none());
    let table = table.map(|variable| format!("T{variable} is unbound"));
    let mut cases: Vec<String> = Vec::new();
    for case in unbound.chain(table) {
        if !cases.contains(&case) {
            cases.push(case);
        }
    }
    (!cases.is_empty()).then(|| cases.join("; "))
}

fn operands<'a>(parts: &Parts<'a>) -> impl Iterator<Item = (Read, Operand)> + use<'a> {
    let locality = parts.address.map(|address| (Read::InLocality, address.locality));
    let template = parts.template.iter().map(|field| (Read::InTemplate, *field));
    let result = parts.result.map(|result| (Read::AfterGiving, result));
    let predicate = parts.predicate.into_iter().flat_map(|test| [test.left, test.right]);
    let predicate = predicate.map(|operand| (Read::InPredicate, operand));
    let tuple = parts.tuple.iter().map(|field| (Read::InTuple, *field));
    locality.into_iter().chain(template).chain(result).chain(predicate).chain(tuple)
}

fn variable(operand: Operand) -> Option<u8> {
    match operand {
        Operand::Variable(variable) | Operand::Plus(variable, _) => Some(variable),
        _ => None,
    }
}

fn is_unbound(scene: &Scene, place: Read, variable: u8) -> bool {
    let of_row = matches!(place, Read::InPredicate | Read::InTuple);
    scene.own().variable(variable) == Variable::Unbound
        && !(of_row && scene.parts.has_formal(variable))
}

impl Read {
    fn words(self) -> &'static str {
        match self {
            Read::InLocality => "in the locality",
            Read::InTemplate => "in the template",
            Read::AfterGiving => "after giving",
            Read::InPredicate => "in the predicate",
            Read::InTuple => "in the tuple",
        }
    }
}
