//! Number 10: every way in which a net can be unsound refuses picks, writing and pages.

use engine::{
    load, page, sound, step, write, Act, Columns, Entry, Function, Kind, List, Locality, Net,
    Operand, Operands, Pick, Places, Relation, Row, Site, Text, Value,
};
use generate::record::*;

/// A net with a loop entry, bound variables and a node of each kind that the breakers need.
fn net() -> Net {
    let card = |kind| node(kind, END).name(b"CARD").at(loc(1));
    let select = card(SELECT).next(1).template(&[formal(0)]).tuple(&[var(0)]);
    let delete = card(DELETE).template(&[formal(0)]).predicate(EQUAL, var(0), int(1));
    let records = [
        alias(0, 1, 1),
        table(1, b"CARD", &[INT]),
        table(2, b"CARD", &[TEXT, LOC]),
        row(1, b"CARD", &[int(4)]),
        row(1, b"CARD", &[int(5)]),
        row(2, b"CARD", &[text(b"a   "), loc(1)]),
        select,
        node(SEQUENTIAL, END).body(2).template(&[formal(1)]),
        card(INSERT).tuple(&[plus(1, 1)]),
        delete,
        card(AGGREGATE).function(SUM, 0).template(&[formal(0)]).tuple(&[formal(1)]),
        card(CREATE).columns(&[INT]),
        start(0, 0),
    ];
    let (mut net, _) = load(&file(&records)).expect("a good net");
    for row in [0, 1] {
        step(&mut net, Pick { thread: 0, row }).expect("a select and a round");
    }
    net
}

fn refuses(what: &str, spoil: impl Fn(&mut Net)) {
    let mut net = net();
    assert!(sound(&net), "before {what}");
    spoil(&mut net);
    let spoilt = net.clone();
    assert!(!sound(&net), "{what}");
    assert_eq!(step(&mut net, Pick { thread: 0, row: 0 }), Err(10), "{what}");
    assert_eq!(step(&mut net, Pick { thread: 99, row: 0 }), Err(10), "{what}");
    assert_eq!(engine::run(&mut net, &[Pick { thread: 0, row: 0 }; 2]), [Err(10); 2], "{what}");
    let mut buffer = [7; 3];
    assert_eq!(write(&net, &mut buffer), Err(10), "{what}");
    assert_eq!(page(&net, Site(1), Text(*b"CARD"), &mut buffer), Err(10), "{what}");
    assert_eq!(buffer, [7; 3], "{what}");
    assert_eq!(net, spoilt, "{what}");
}

fn ints(count: usize) -> Row {
    (0..count).map(|_| Value::Int(0)).collect()
}

#[test]
fn tables_and_aliases() {
    refuses("a ninth table", |net| {
        for letter in b'a'..b'h' {
            let mut table = net.tables[0].clone();
            table.name = Text([letter; 4]);
            net.tables.push(table);
        }
    });
    refuses("two tables of one name", |net| net.tables[1].site = Site(1));
    refuses("a table's site", |net| net.tables[0].site = Site(8));
    refuses("a name", |net| net.tables[0].name = Text(*b"CAR\x7F"));
    refuses("no columns", |net| net.tables[0].relation = Relation::new(Columns::default()));
    refuses("a long row", |net| net.tables[0].relation.rows[0] = ints(2));
    refuses("a row of no values", |net| net.tables[0].relation.rows[0] = ints(0));
    refuses("a row of another kind", |net| net.tables[0].relation.columns[0] = Kind::Text);
    refuses("a Text out of range", |net| {
        net.tables[1].relation.rows[0][0] = Value::Text(Text([0x1F; 4]));
    });
    refuses("a Loc out of range", |net| {
        net.tables[1].relation.rows[0][1] = Value::Loc(Locality(8));
    });
    refuses("an alias of locality 0", |net| net.aliases.0[3][0] = Some(Site(3)));
    refuses("an alias's meaning", |net| net.aliases.0[0][1] = Some(Site(8)));
}

#[test]
fn threads() {
    refuses("a ninth thread", |net| net.threads = vec![net.threads[0].clone(); 9]);
    refuses("a thread's site", |net| net.threads[0].site = Site(8));
    refuses("a variable", |net| net.threads[0].variables[9] = Some(Value::Loc(Locality(9))));
    refuses("an empty stack", |net| net.threads[0].stack = List::default());
    refuses("an entry that names no node", |net| net.threads[0].stack[1] = Entry::Run(6));
    refuses("a table variable's row", |net| {
        let relation = net.threads[0].tables[0].as_mut().expect("it is bound");
        relation.rows[0] = ints(3);
    });
    refuses("a table variable without columns", |net| {
        net.threads[0].tables[1] = Some(Relation::default());
    });
    refuses("a loop over an unbound table variable", |net| net.threads[0].tables[0] = None);
    refuses("a loop entry of no loop", |net| {
        net.threads[0].stack[0] = Entry::Loop { node: 2, left: Places(0) };
    });
    refuses("a place without a row", |net| {
        net.threads[0].stack[0] = Entry::Loop { node: 1, left: Places(0b100) };
    });
}

#[test]
fn nodes() {
    refuses("129 nodes", |net| {
        let last = net.nodes[5].clone();
        net.nodes.resize(129, last);
    });
    refuses("a next that goes back", |net| net.nodes[2].next = Some(2));
    refuses("a next that is no node", |net| net.nodes[2].next = Some(6));
    refuses("a node's name", |net| spoil_insert(net, Text([0; 4]), None));
    refuses("a variable number", |net| {
        spoil_insert(net, Text(*b"CARD"), Some(Operand::Plus(16, 1)))
    });
    refuses("a formal in t", |net| spoil_insert(net, Text(*b"CARD"), Some(Operand::Formal(1))));
}

#[test]
fn operands_and_fields_of_nodes() {
    refuses("a body that goes back", |net| {
        if let Act::Loop(looping) = &mut net.nodes[1].act {
            looping.body = 1;
        }
    });
    refuses("a formal twice", |net| {
        if let Act::Loop(looping) = &mut net.nodes[1].act {
            looping.template = [Operand::Formal(1); 2].into_iter().collect();
        }
    });
    refuses("a table variable number", |net| {
        if let Act::Delete { bound, .. } = &mut net.nodes[3].act {
            *bound = 2;
        }
    });
    refuses("a formal in a predicate", |net| {
        if let Act::Delete { filter, .. } = &mut net.nodes[3].act {
            filter.predicate.as_mut().expect("it has one").left = Operand::Formal(0);
        }
    });
    refuses("a sum in a select", |net| {
        if let Act::Select { tuple, .. } = &mut net.nodes[0].act {
            tuple[0] = Operand::Plus(0, 1);
        }
    });
    refuses("an aggregate's column", |net| {
        if let Act::Aggregate { function, .. } = &mut net.nodes[4].act {
            *function = Function::Largest(4);
        }
    });
    refuses("a create without columns", |net| {
        if let Act::Create { columns, .. } = &mut net.nodes[5].act {
            *columns = Columns::default();
        }
    });
    refuses("an Int as L", |net| {
        if let Act::Create { at, .. } = &mut net.nodes[5].act {
            at.locality = Operand::Constant(Value::Int(1));
        }
    });
}

/// Gives the insert another name, and another t where one is given.
fn spoil_insert(net: &mut Net, name: Text, operand: Option<Operand>) {
    let Act::Insert { into, tuple } = &mut net.nodes[2].act else {
        panic!("node 2 is the insert");
    };
    into.name = name;
    if let Some(operand) = operand {
        *tuple = Operands::from_iter([operand]);
    }
}
