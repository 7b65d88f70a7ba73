//! The rows that a step judged, each beside what it was judged against.

use crate::fitting::fitted;
use crate::judging::judge;
use crate::rounds::ends_round;
use crate::run::Turn;
use crate::scene::Scene;
use crate::words;
use embed::Answer;
use engine::{Act, Relation, Row, Table};
use nettext::row as shown;

/// Rows that went, came, were read and stay.
const GONE: char = '-';
const NEW: char = '+';
const READ: char = '*';
const STAYS: char = ' ';

pub struct Listing {
    /// What the rows are of.
    source: String,
    /// Stands before the source in the heading.
    kind: &'static str,
    lines: Vec<Line>,
    /// How many rows matched the template and satisfied the predicate.
    pub matched: usize,
}

struct Line {
    mark: char,
    row: Row,
    note: String,
}

impl Listing {
    /// Of a step that goes by a template and is no loop; none where this would not agree with what
    /// the engine answered and left.
    pub fn new(turn: &Turn, scene: &Scene) -> Option<Listing> {
        let lists = match scene.act {
            Act::Update { .. } => Listing::update,
            Act::Delete { .. } => Listing::delete,
            Act::Select { .. } | Act::SelectVariable { .. } | Act::Aggregate { .. } => {
                Listing::reading
            }
            _ => return None,
        };
        lists(scene).filter(|listing| listing.agrees(turn, scene))
    }

    fn update(scene: &Scene) -> Option<Listing> {
        let table = scene.table()?;
        let mut listing = Listing::of("table", words::table(table));
        for row in table.relation.rows.iter() {
            let judged = judge(&scene.parts, &scene.thread.bound.variables, row);
            let bindings = scene.own().with(scene.parts.template, row);
            let new = fitted(scene.parts.tuple, bindings, &table.relation.columns);
            listing.matched += usize::from(judged.taken);
            match new {
                _ if !judged.taken => listing.add(STAYS, row, judged.tests),
                Err(misfit) => listing.add(STAYS, row, stays(&judged.tests, &misfit)),
                Ok(new) => {
                    listing.add(GONE, row, judged.tests);
                    listing.add(NEW, &new, String::new());
                }
            }
        }
        Some(listing)
    }

    fn delete(scene: &Scene) -> Option<Listing> {
        let table = scene.table()?;
        let listing = Listing::of("table", words::table(table));
        Some(listing.judging(scene, &table.relation.rows, GONE))
    }

    fn reading(scene: &Scene) -> Option<Listing> {
        let (relation, name) = scene.source()?;
        let listing = Listing::of("rows of", name);
        Some(listing.judging(scene, &relation.rows, READ))
    }

    fn of(kind: &'static str, source: String) -> Listing {
        Listing { source, kind, lines: Vec::new(), matched: 0 }
    }

    /// All rows, those with the mark that match.
    fn judging(mut self, scene: &Scene, rows: &[Row], mark: char) -> Listing {
        for row in rows {
            let judged = judge(&scene.parts, &scene.thread.bound.variables, row);
            self.matched += usize::from(judged.taken);
            self.add(if judged.taken { mark } else { STAYS }, row, judged.tests);
        }
        self
    }

    fn add(&mut self, mark: char, row: &Row, note: String) {
        self.lines.push(Line { mark, row: *row, note });
    }

    fn count(&self, mark: char) -> u64 {
        self.lines.iter().filter(|line| line.mark == mark).count() as u64
    }

    /// The counts are those answered, and the rows left and bound are those that the engine has.
    fn agrees(&self, turn: &Turn, scene: &Scene) -> bool {
        let counted = Answer::Done { added: self.count(NEW), taken: self.count(GONE) };
        turn.answer == counted
            && scene.table().is_none_or(|table| self.leaves(turn, table))
            && self.binds(turn, scene).is_none_or(|bound| bound.rows.len() == self.matched)
    }

    fn leaves(&self, turn: &Turn, before: &Table) -> bool {
        let key = |table: &Table| (table.site, table.name);
        let after = turn.after.tables.iter().find(|table| key(table) == key(before));
        let left = self.lines.iter().filter(|line| line.mark != GONE).map(|line| &line.row);
        after.is_some_and(|after| left.eq(after.relation.rows.iter()))
    }

    /// What the step bound, unless its thread or a round of it has ended.
    fn binds<'a>(&self, turn: &Turn<'a>, scene: &Scene) -> Option<&'a Relation> {
        let stands = turn.before.threads.len() == turn.after.threads.len();
        let thread = turn.after.threads.get(usize::from(turn.pick.thread)).filter(|_| stands)?;
        let bound = (!ends_round(scene.thread, thread)).then_some(&thread.bound)?;
        bound.tables.get(usize::from(scene.parts.bound?))?.as_ref()
    }

    /// A step that reads every row of its source has judged none of them.
    pub fn is_worth_telling(&self) -> bool {
        let judged = |line: &Line| line.mark != READ || !line.note.is_empty();
        self.lines.is_empty() || self.lines.iter().any(judged)
    }

    pub fn lines(&self) -> Vec<String> {
        if self.lines.is_empty() {
            return vec![format!("{} has no rows", self.source)];
        }
        let rows: Vec<String> = self.lines.iter().map(|line| shown(&line.row)).collect();
        let width = rows.iter().map(|row| row.chars().count()).max().unwrap_or(0);
        let lines = self.lines.iter().zip(&rows).map(|(line, row)| {
            let line = format!("    {} {row:width$}    {}", line.mark, line.note);
            line.trim_end().to_owned()
        });
        let heading = format!("{} {}", self.kind, self.source);
        [heading].into_iter().chain(lines).collect()
    }
}

/// What is told of a row that matches, but whose new row does not fit.
fn stays(tests: &str, misfit: &str) -> String {
    match tests {
        "" => format!("stays: {misfit}"),
        _ => format!("{tests}, stays: {misfit}"),
    }
}
