//! Soundness of a net, and the part of check 4 that a loaded node must obey too.

use crate::kept::keeps;
use crate::list::List;
use crate::net::{
    Act, Address, Bindings, Entry, Filter, Function, Loop, Net, Node, Places, Predicate, Table,
    TableVariables, Thread, Variables, NODES, TABLES, TABLE_VARIABLES, THREADS,
};
use crate::operand::{Operand, Operands};
use crate::relation::{fits, Relation};
use crate::value::{Locality, Value};

pub fn sound(net: &Net) -> bool {
    net.tables.len() <= TABLES
        && net.nodes.len() <= NODES
        && net.threads.len() <= THREADS
        && net.aliases.0.iter().all(|meant| {
            meant[usize::from(Locality::SELF.0)].is_none()
                && meant.iter().flatten().all(|site| site.in_range())
        })
        && net.tables.iter().enumerate().all(|(place, table)| {
            table_sound(table) && !net.tables[..place].iter().any(|other| same_table(table, other))
        })
        && net
            .nodes
            .iter()
            .enumerate()
            .all(|(number, node)| node_obeys(node) && targets_exist(node, number, net.nodes.len()))
        && net.threads.iter().all(|thread| thread_sound(thread, &net.nodes))
}

fn table_sound(table: &Table) -> bool {
    table.site.in_range() && table.name.in_range() && relation_sound(&table.relation)
}

fn same_table(a: &Table, b: &Table) -> bool {
    a.site == b.site && a.name == b.name
}

fn relation_sound(relation: &Relation) -> bool {
    !relation.columns.is_empty()
        && relation
            .rows
            .iter()
            .all(|row| fits(&relation.columns, row) && row.iter().all(|value| value.in_range()))
}

fn thread_sound(thread: &Thread, nodes: &[Node]) -> bool {
    thread.site.in_range()
        && bindings_sound(&thread.variables, &thread.tables)
        && !thread.stack.is_empty()
        && thread.stack.iter().all(|entry| entry_sound(*entry, thread, nodes))
        && kept_sound(thread, nodes)
}

/// Of a thread's own bindings and of those that its loops keep.
fn bindings_sound(variables: &Variables, tables: &TableVariables) -> bool {
    variables.iter().flatten().all(|value| value.in_range())
        && tables.iter().flatten().all(relation_sound)
}

fn entry_sound(entry: Entry, thread: &Thread, nodes: &[Node]) -> bool {
    match (nodes.get(usize::from(entry.node())), entry) {
        (Some(_), Entry::Run(_)) => true,
        (Some(Node { act: Act::Loop(looping), .. }), Entry::Loop { left, .. }) => {
            let source = thread.tables.get(usize::from(looping.read));
            source
                .and_then(Option::as_ref)
                .is_some_and(|source| left.0 & !Places::below(source.rows.len()).0 == 0)
        }
        _ => false,
    }
}

/// Whether each entry that keeps bindings has its own, and no more are kept. They are bindings like
/// the thread's, and agree with these on the table variables that the entry or a loop entry of
/// either kind below it holds, so that the places left to visit stay places when they come back.
fn kept_sound(thread: &Thread, nodes: &[Node]) -> bool {
    let mut kept = thread.kept.iter();
    let mut held = Held::default();
    for looping in thread.stack.iter().filter_map(|entry| entry.looping(nodes)) {
        held[usize::from(looping.read)] = true;
        let sound = |kept: &Bindings| {
            bindings_sound(&kept.variables, &kept.tables)
                && agree(&kept.tables, &thread.tables, held)
        };
        if keeps(looping) && !kept.next().is_some_and(sound) {
            return false;
        }
    }
    kept.next().is_none()
}

/// Which table variables loop entries hold.
type Held = [bool; TABLE_VARIABLES as usize];

/// Whether the table variables that are held are bound alike: columns, and rows in order.
fn agree(kept: &TableVariables, own: &TableVariables, held: Held) -> bool {
    kept.iter().zip(own).zip(held).all(|((kept, own), held)| !held || kept.is_some() && kept == own)
}

/// Check 9 on a node: what it names is a node above its own number.
pub fn targets_exist(node: &Node, number: usize, count: usize) -> bool {
    let above = |target: u8| (number + 1..count).contains(&usize::from(target));
    let body = match node.act {
        Act::Loop(Loop { body, .. }) => above(body),
        _ => true,
    };
    body && node.next.is_none_or(above)
}

/// Check 4 on a node, as far as the case of its act does not give it already.
pub fn node_obeys(node: &Node) -> bool {
    match &node.act {
        Act::Insert { into, tuple } => address_obeys(into) && tuple_obeys(tuple),
        Act::InsertTable { into, read } => address_obeys(into) && variable_obeys(*read),
        Act::Delete { from, filter, bound } => {
            address_obeys(from) && filter_obeys(filter) && variable_obeys(*bound)
        }
        Act::Select { from, filter, tuple, bound } => {
            address_obeys(from)
                && filter_obeys(filter)
                && selected_obeys(tuple)
                && variable_obeys(*bound)
        }
        Act::SelectVariable { read, filter, tuple, bound } => {
            variable_obeys(*read)
                && filter_obeys(filter)
                && selected_obeys(tuple)
                && variable_obeys(*bound)
        }
        Act::Update { at, filter, tuple } => {
            address_obeys(at) && filter_obeys(filter) && tuple_obeys(tuple)
        }
        Act::Aggregate { over, filter, function, result } => {
            address_obeys(over)
                && filter_obeys(filter)
                && function_obeys(*function)
                && result.in_range()
        }
        Act::Create { at, columns } => address_obeys(at) && !columns.is_empty(),
        Act::Drop { at } => address_obeys(at),
        Act::Loop(looping) => variable_obeys(looping.read) && template_obeys(&looping.template),
    }
}

fn variable_obeys(table_variable: u8) -> bool {
    table_variable < TABLE_VARIABLES
}

fn function_obeys(function: Function) -> bool {
    match function {
        Function::Count => true,
        Function::Sum(column) | Function::Least(column) | Function::Largest(column) => column < 4,
    }
}

fn address_obeys(address: &Address) -> bool {
    let locality = address.locality;
    let tag = matches!(locality, Operand::Constant(Value::Loc(_)) | Operand::Variable(_));
    tag && locality.in_range() && address.name.in_range()
}

fn filter_obeys(filter: &Filter) -> bool {
    template_obeys(&filter.template) && filter.predicate.as_ref().is_none_or(predicate_obeys)
}

fn predicate_obeys(predicate: &Predicate) -> bool {
    [predicate.left, predicate.right].iter().all(|side| side.in_range() && !side.is_formal())
}

fn template_obeys(template: &Operands) -> bool {
    let repeated = |place: usize, operand: &Operand| {
        operand.is_formal() && template[..place].contains(operand)
    };
    operands_obey(template)
        && !template.iter().enumerate().any(|(place, operand)| repeated(place, operand))
}

fn tuple_obeys(tuple: &Operands) -> bool {
    operands_obey(tuple) && !tuple.iter().any(|operand| operand.is_formal())
}

/// In selects t has no sums, so that every component has a value.
fn selected_obeys(tuple: &Operands) -> bool {
    tuple_obeys(tuple) && !tuple.iter().any(|operand| operand.is_sum())
}

fn operands_obey<const N: usize>(operands: &List<Operand, N>) -> bool {
    !operands.is_empty() && operands.iter().all(|operand| operand.in_range())
}
