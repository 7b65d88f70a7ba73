//! Looks at the rows of the tables that stand after a file's picks, by the templates of all its
//! nodes and under the variables of each thread that stands.

use engine::{look, Net, Operand, Operands, Row, Value, Variables};

/// T's length beside the row's.
const LENGTHS: [&str; 3] = ["look, T as long", "look, T shorter", "look, T longer"];

const SAME: usize = 0;
const SHORTER: usize = 1;
const LONGER: usize = 2;

/// How a look ends: the row matches, a field fails, or none fails and the lengths differ.
const ENDS: [&str; 3] = ["matches after", "fails at", "ends after"];

const MATCHES: usize = 0;
const FAILS: usize = 1;
const RUNS_OUT: usize = 2;

/// Why an operand has no value.
const NO_VALUE: [&str; 3] = ["unbound", "a sum of no Int", "a sum past 32 bits"];

const UNBOUND: usize = 0;
const NO_INT: usize = 1;
const PAST: usize = 2;

/// Counts of looks.
#[derive(Default)]
pub struct Looks {
    /// Nets with a look.
    pub nets: usize,
    /// By the lengths, the end and the number of fields looked at.
    counts: [[[usize; 5]; 3]; 3],
    /// Looks that fail after a formal.
    after_formal: usize,
    /// Looks that fail at an operand with no value, by the reason for it.
    no_value: [usize; 3],
}

impl Looks {
    pub fn count(&mut self, net: &Net) {
        let before = self.all();
        for thread in &net.threads {
            for template in net.nodes.iter().filter_map(|node| node.act.template()) {
                for row in net.tables.iter().flat_map(|table| table.relation.rows.iter()) {
                    self.count_look(template, &thread.variables, row);
                }
            }
        }
        self.nets += usize::from(self.all() > before);
    }

    fn count_look(&mut self, template: &Operands, variables: &Variables, row: &Row) {
        let look = look(template, variables, row);
        let end = match look.matches {
            true => MATCHES,
            false if runs_out(template, variables, row) => RUNS_OUT,
            false => FAILS,
        };
        self.counts[lengths(template, row)][end][look.fields] += 1;
        if end == FAILS {
            let (before, failing) = (&template[..look.fields - 1], template[look.fields - 1]);
            self.after_formal += usize::from(before.iter().any(|operand| operand.is_formal()));
            if let Some(reason) = lacks_value(failing, variables) {
                self.no_value[reason] += 1;
            }
        }
    }

    pub fn all(&self) -> usize {
        self.counts.as_flattened().as_flattened().iter().sum()
    }

    fn failing(&self) -> usize {
        self.counts.iter().flat_map(|ends| ends[FAILS]).sum()
    }

    /// Each sort of look with its count and the count of what it is among: a length among all, an
    /// end with its fields among looks of that length, and the last ones among those that fail.
    pub fn sorts(&self) -> Vec<(String, usize, usize)> {
        let mut sorts = Vec::new();
        for (length, ends) in self.counts.iter().enumerate() {
            let of_length = ends.as_flattened().iter().sum();
            sorts.push((LENGTHS[length].into(), of_length, self.all()));
            for (end, fields) in possible(length) {
                let name = format!("  {} field {fields}", ENDS[end]);
                sorts.push((name, ends[end][fields], of_length));
            }
        }
        sorts.push(("look fails after a formal".into(), self.after_formal, self.failing()));
        let no_value = self.no_value.iter().sum();
        sorts.push(("look fails with no value".into(), no_value, self.failing()));
        for (name, count) in NO_VALUE.iter().zip(self.no_value) {
            sorts.push((format!("  {name}"), count, self.failing()));
        }
        sorts
    }
}

/// The ends that looks can have where T is of this length beside the row, with their fields.
fn possible(length: usize) -> impl Iterator<Item = (usize, usize)> {
    let (ends, most) = if length == SAME { ([MATCHES, FAILS], 4) } else { ([FAILS, RUNS_OUT], 3) };
    ends.into_iter().flat_map(move |end| (1..=most).map(move |fields| (end, fields)))
}

fn lengths(template: &Operands, row: &Row) -> usize {
    match template.len().cmp(&row.len()) {
        std::cmp::Ordering::Equal => SAME,
        std::cmp::Ordering::Less => SHORTER,
        std::cmp::Ordering::Greater => LONGER,
    }
}

/// Whether the fields that both have match, though there are more on one side.
fn runs_out(template: &Operands, variables: &Variables, row: &Row) -> bool {
    let shared = template.len().min(row.len());
    let template = template[..shared].iter().copied().collect();
    let row = row[..shared].iter().copied().collect();
    look(&template, variables, &row).matches
}

/// Why an operand has no value, if it has none.
fn lacks_value(operand: Operand, variables: &Variables) -> Option<usize> {
    let (variable, more) = match operand {
        Operand::Variable(v) => (v, None),
        Operand::Plus(v, more) => (v, Some(more)),
        Operand::Constant(_) | Operand::Formal(_) => return None,
    };
    match (variables[usize::from(variable)], more) {
        (None, _) => Some(UNBOUND),
        (Some(_), None) => None,
        (Some(Value::Int(int)), Some(more)) => int.checked_add(more).is_none().then_some(PAST),
        (Some(_), Some(_)) => Some(NO_INT),
    }
}
