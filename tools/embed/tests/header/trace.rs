//! A C program that goes by the header alone reads of a trace what this crate reads.

use crate::compiled::{compile, printed, Language};
use crate::stored::{nets, LIBRARY};
use embed::{picks, trace, Bindings, Entry, Moment, Relation, ThreadState, Variable};

/// What the C program has to print. One of the nets is refused, by 7.
fn counts(net: &[u8]) -> String {
    let Ok(own) = picks(net) else {
        return "the row's table is absent, or the row does not fit\n".to_owned();
    };
    let mut out = vec![0; 1 << 22];
    let put = trace(net, &own, 0, &mut out).expect("a net that loads");
    let moments: Vec<Moment> = Moment::all(&out[..put]).collect();
    assert_eq!(moments.len(), own.len() + 1);
    moments.iter().map(counted).collect()
}

/// Threads, bound variables, bound table variables, stack entries, bindings that these hold.
fn counted(moment: &Moment) -> String {
    let all = |count: fn(&ThreadState) -> usize| moment.threads.iter().map(count).sum::<usize>();
    let variables = all(|thread| bound(&thread.variables));
    let tables = all(|thread| bound_tables(&thread.table_variables));
    let entries = all(|thread| thread.stack.len());
    let held = all(|thread| thread.stack.iter().map(held).sum());
    format!("{} {variables} {tables} {entries} {held}\n", moment.threads.len())
}

fn bound(variables: &[Variable]) -> usize {
    variables.iter().filter(|variable| variable.is_bound()).count()
}

fn bound_tables(tables: &[Option<Relation>]) -> usize {
    tables.iter().flatten().count()
}

fn held(entry: &Entry) -> usize {
    match entry {
        Entry::Loop { held: Some(held), .. } => {
            let Bindings { variables, table_variables } = &**held;
            bound(variables) + bound_tables(table_variables)
        }
        _ => 0,
    }
}

#[test]
fn a_program_in_c_reads_a_trace() {
    let nets = nets();
    let expected: Vec<String> = nets.iter().map(|net| counts(net)).collect();
    // Three threads that hold something, one within its loop, and one between two of its rounds.
    for moment in ["\n3 4 3 3 0\n", "\n1 2 1 2 1\n", "\n1 0 1 1 1\n"] {
        assert!(expected.iter().any(|counts| counts.contains(moment)), "{expected:?}");
    }
    for language in Language::all() {
        let program = compile("trace", include_str!("trace.c"), language, &LIBRARY);
        for (net, expected) in nets.iter().zip(&expected) {
            assert_eq!(&printed(&program, net), expected);
        }
    }
}
