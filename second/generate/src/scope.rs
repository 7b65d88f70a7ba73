//! What the writer of a program believes to be bound, and operands that fit the belief.

use crate::random::Random;
use crate::record::{formal, plus, text, var, Operand, INT, TEXT};
use crate::world::{edge, value};

/// The kinds of the variables bound.
pub type Kinds = [Option<u8>; 16];

#[derive(Clone, Default)]
pub struct Scope {
    pub variables: Kinds,
    /// The columns of the table variables bound.
    pub tables: [Option<Vec<u8>>; 2],
    /// The table variables that loops of the thread hold.
    pub held: [bool; 2],
}

/// A template, with the variables as they are under a row's match.
pub struct Template {
    pub operands: Vec<Operand>,
    pub inner: Kinds,
}

impl Scope {
    /// A table variable that is bound, if any.
    pub fn bound_table(&self, random: &mut Random) -> Option<u8> {
        let first = random.below(2);
        [first, 1 - first].into_iter().find(|at| self.tables[*at].is_some()).map(|at| at as u8)
    }

    /// A table variable to bind, if any; now and then one that is held.
    pub fn free_table(&self, random: &mut Random) -> Option<u8> {
        let first = random.below(2);
        let careless = random.chance(12);
        let mut choice = [first, 1 - first].into_iter();
        choice.find(|at| careless || !self.held[*at]).map(|at| at as u8)
    }

    /// A template for these columns. A sample row makes its constants match at least that row.
    pub fn template(
        &self,
        random: &mut Random,
        columns: &[u8],
        sample: Option<&Vec<Operand>>,
        formals: usize,
    ) -> Template {
        let mut inner = self.variables;
        let mut taken = [false; 16];
        let mut operands = Vec::new();
        for (place, kind) in columns.iter().enumerate() {
            let wants_formal = random.chance(formals);
            let other = variable_of(random, &self.variables, *kind).filter(|_| random.chance(45));
            operands.push(match (other, sample) {
                _ if wants_formal => {
                    let variable = fresh(random, &mut taken);
                    inner[usize::from(variable)] = Some(*kind);
                    formal(variable)
                }
                (Some(variable), _) if *kind == INT && random.chance(40) => {
                    plus(variable, amount(random))
                }
                (Some(variable), _) => var(variable),
                (None, Some(row)) => other_case(random, row[place]),
                (None, None) => value(random, *kind, 10),
            });
        }
        Template { operands, inner }
    }
}

/// A variable that the template has not used as a formal yet.
fn fresh(random: &mut Random, taken: &mut [bool; 16]) -> u8 {
    let range = if random.chance(90) { 6 } else { 16 };
    let mut variable = random.below(range);
    while taken[variable] {
        variable = (variable + 1) % 16;
    }
    taken[variable] = true;
    variable as u8
}

fn variable_of(random: &mut Random, kinds: &Kinds, kind: u8) -> Option<u8> {
    let bound: Vec<u8> = (0..16).filter(|v| kinds[usize::from(*v)] == Some(kind)).collect();
    (!bound.is_empty()).then(|| *random.choose(&bound))
}

/// The Int of a sum: small, or such that sums reach the edge of 32 bits.
pub fn amount(random: &mut Random) -> i32 {
    if random.chance(35) {
        edge(random)
    } else {
        random.below(5) as i32 - 2
    }
}

/// An operand of a kind: a variable or sum where there is one, else a constant.
pub fn operand(random: &mut Random, kinds: &Kinds, kind: u8, sums: bool) -> Operand {
    match variable_of(random, kinds, kind) {
        Some(variable) if sums && kind == INT && random.chance(35) => {
            plus(variable, amount(random))
        }
        Some(variable) if random.chance(65) => var(variable),
        _ => value(random, kind, 10),
    }
}

/// The predicate's test and operands: mostly of one kind, sometimes of unlike kinds.
pub fn predicate(random: &mut Random, kinds: &Kinds) -> (u8, Operand, Operand) {
    let known: Vec<u8> = kinds.iter().flatten().copied().collect();
    let kind = if known.is_empty() { INT } else { *random.choose(&known) };
    let other = if random.chance(12) { random.between(1, 3) as u8 } else { kind };
    let left = operand(random, kinds, kind, true);
    let right = operand(random, kinds, other, true);
    let test = random.between(1, 4) as u8;
    if random.chance(50) {
        (test, left, right)
    } else {
        (test, right, left)
    }
}

/// The same value; a Text with the case of its letters changed here and there.
fn other_case(random: &mut Random, value: Operand) -> Operand {
    if value[0] != TEXT {
        return value;
    }
    text(&[4, 5, 6, 7].map(|at| match value[at] {
        byte if byte.is_ascii_alphabetic() && random.chance(40) => byte ^ 0x20,
        byte => byte,
    }))
}
