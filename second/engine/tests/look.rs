//! How many fields of a row a template looks at, by hand and over all short ones.

use engine::{look, Locality, Look, Operand, Operands, Row, Text, Value, Variables};

const ONE: Value = Value::Int(1);
const RIG: Value = Value::Text(Text(*b"RIG1"));
const HOP: Value = Value::Loc(Locality(2));
const MAX: Value = Value::Int(i32::MAX);

/// A row of four fields, no two of them equal.
const ROW: [Value; 4] = [ONE, RIG, HOP, MAX];

/// What the variables are in these tests; all others are unbound.
const BOUND: [(usize, Value); 4] = [(0, ONE), (1, RIG), (2, HOP), (3, MAX)];

const UNBOUND: u8 = 9;

fn looks(template: &[Operand], row: &[Value]) -> Look {
    let mut variables = Variables::default();
    for (variable, value) in BOUND {
        variables[variable] = Some(value);
    }
    let template: Operands = template.iter().copied().collect();
    look(&template, &variables, &Row::from_iter(row.iter().copied()))
}

fn matched(fields: usize) -> Look {
    Look { matches: true, fields }
}

fn failed(fields: usize) -> Look {
    Look { matches: false, fields }
}

fn same() -> [Operand; 4] {
    ROW.map(Operand::Constant)
}

fn other() -> Operand {
    Operand::Constant(Value::Int(-5))
}

fn formals() -> [Operand; 4] {
    [5, 6, 7, 8].map(Operand::Formal)
}

#[test]
fn all_fields_are_looked_at_where_the_row_matches() {
    for count in 1..=4 {
        let variables = [0, 1, 2, 3].map(Operand::Variable);
        for template in [same(), variables, formals()] {
            assert_eq!(looks(&template[..count], &ROW[..count]), matched(count));
        }
    }
}

#[test]
fn the_field_that_fails_counts_and_none_after_it() {
    for count in 1..=4 {
        for place in 0..count {
            for before in [same(), formals()] {
                let mut template = before;
                template[place] = other();
                assert_eq!(looks(&template[..count], &ROW[..count]), failed(place + 1));
                // The first one decides.
                template[place..].fill(other());
                assert_eq!(looks(&template[..count], &ROW[..count]), failed(place + 1));
            }
        }
    }
}

#[test]
fn formals_count_where_they_stand() {
    let [any, next, third, _] = formals();
    let [one, rig, ..] = same();
    assert_eq!(looks(&[any, other()], &ROW[..2]), failed(2));
    assert_eq!(looks(&[other(), any], &ROW[..2]), failed(1));
    assert_eq!(looks(&[any, next, third, other()], &ROW), failed(4));
    assert_eq!(looks(&[any, rig, other(), next], &ROW), failed(3));
    assert_eq!(looks(&[one, any, next, third], &ROW), matched(4));
}

#[test]
fn a_formal_matches_whatever_its_variable_holds() {
    assert_eq!(looks(&[Operand::Formal(3), Operand::Formal(0)], &ROW[..2]), matched(2));
}

#[test]
fn texts_match_by_letters_of_either_case() {
    let rig = |text: &[u8; 4]| Operand::Constant(Value::Text(Text(*text)));
    let [one, ..] = same();
    assert_eq!(looks(&[one, rig(b"rIg1")], &ROW[..2]), matched(2));
    assert_eq!(looks(&[one, rig(b"rig2")], &ROW[..2]), failed(2));
}

#[test]
fn an_operand_with_no_value_fails_and_counts() {
    let sums = [Operand::Plus(UNBOUND, 0), Operand::Plus(1, 0), Operand::Plus(3, 1)];
    for none in [&sums[..], &[Operand::Variable(UNBOUND)]].concat() {
        for place in 0..4 {
            let mut template = same();
            template[place] = none;
            assert_eq!(looks(&template, &ROW), failed(place + 1), "{none:?}");
        }
        // Later ones are not looked at.
        assert_eq!(looks(&[other(), none], &ROW[..2]), failed(1));
    }
    assert_eq!(looks(&[Operand::Plus(3, i32::MIN + 2)], &ROW[..1]), matched(1));
}

#[test]
fn a_template_shorter_than_the_row_never_matches() {
    for count in 0..4 {
        for template in [same(), formals()] {
            assert_eq!(looks(&template[..count], &ROW), failed(count));
        }
    }
    let [one, rig, ..] = same();
    assert_eq!(looks(&[other()], &ROW), failed(1));
    assert_eq!(looks(&[one, other(), rig], &ROW), failed(2));
    assert_eq!(looks(&[one, rig, other()], &ROW), failed(3));
}

#[test]
fn a_template_longer_than_the_row_never_matches() {
    for count in 0..4 {
        for template in [same(), formals()] {
            assert_eq!(looks(&template, &ROW[..count]), failed(count));
        }
    }
    let [one, rig, ..] = same();
    assert_eq!(looks(&[other(), rig], &ROW[..1]), failed(1));
    assert_eq!(looks(&[one, other(), one], &ROW[..2]), failed(2));
    // The field that would fail is not there.
    assert_eq!(looks(&[one, rig, other()], &ROW[..2]), failed(2));
}

#[test]
fn without_fields_there_is_nothing_to_fail() {
    assert_eq!(looks(&[], &[]), matched(0));
    assert_eq!(looks(&[], &ROW[..1]), failed(0));
    assert_eq!(looks(&[other()], &[]), failed(0));
}

/// Every row of up to four fields under every T of as many operands that match or fail.
#[test]
fn short_templates_and_rows_of_all_lengths() {
    let good = [same(), formals()];
    let bad = [other(), Operand::Variable(UNBOUND)];
    for (length, fields) in (0..5).flat_map(|length| (0..5).map(move |fields| (length, fields))) {
        for code in 0..4_usize.pow(length) {
            let sort = |place: usize| code >> (2 * place) & 3;
            let length = length as usize;
            let template: Vec<Operand> = (0..length)
                .map(|place| match sort(place) {
                    sort @ 0..2 => good[sort][place],
                    sort => bad[sort - 2],
                })
                .collect();
            let shared = length.min(fields);
            let wanted = match (0..shared).find(|place| sort(*place) >= 2) {
                Some(place) => failed(place + 1),
                None => Look { matches: length == fields, fields: shared },
            };
            assert_eq!(looks(&template, &ROW[..fields]), wanted, "{template:?} of {fields}");
        }
    }
}
