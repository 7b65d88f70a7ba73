//! How often each number, each kind done, each sort of round end, each sort of page and each sort of
//! look at a row occurs in generated files.

use crate::ended::{Before, Ended};
use crate::looks::Looks;
use crate::standing::Standing;
use crate::{file, Class};
use engine::{accounts, load, step_sound, Answer, Entry, Net, Pick};
use std::fmt;

#[derive(Default)]
pub struct Stats {
    files: usize,
    accepted: usize,
    picks: usize,
    faults: [usize; 10],
    refusals: [usize; 21],
    done: [usize; 27],
    /// Loop rounds: sequential first, sequential later, parallel first, parallel later.
    rounds: [usize; 4],
    /// Picks on nets at a limit: rows of a table, tables, threads, entries of the stack picked.
    limits: [usize; 4],
    /// Rounds of sequential loops that end, and what comes back by it.
    ended: Ended,
    /// The tables that the picks left.
    standing: Standing,
    /// Looks at the rows of these tables.
    looks: Looks,
    /// The first files on which demand 3 is broken.
    broken: Vec<String>,
}

const ROUNDS: [&str; 4] =
    ["sequential, first", "sequential, later", "parallel, first", "parallel, later"];
const LIMITS: [&str; 4] = ["a full table", "8 tables", "8 threads", "8 stack entries"];
const KINDS: [&str; 11] = [
    "insert",
    "insert-table",
    "delete",
    "select",
    "select from variable",
    "update",
    "aggregate",
    "create",
    "drop",
    "sequential loop",
    "parallel loop",
];

impl Stats {
    /// Counts the files of these seeds and holds the engine to demand 3 on the accepted ones.
    pub fn of(class: Class, seeds: impl Iterator<Item = u64>) -> Stats {
        let mut stats = Stats::default();
        for seed in seeds {
            stats.count(seed, &file(class, seed));
        }
        stats
    }

    fn count(&mut self, seed: u64, file: &[u8]) {
        self.files += 1;
        match load(file) {
            Ok((net, picks)) => {
                self.accepted += 1;
                self.count_picks(net, &picks);
                self.check_accounts(seed, file, &picks);
            }
            Err(fault) => self.faults[usize::from(fault.number)] += 1,
        }
    }

    /// The file's own picks, and the same ones backwards.
    fn check_accounts(&mut self, seed: u64, file: &[u8], picks: &[Pick]) {
        let backwards: Vec<Pick> = picks.iter().rev().copied().collect();
        for list in [picks, &backwards] {
            if let Err(broken) = accounts::check(file, list) {
                self.broken.push(format!("seed {seed}: {broken}"));
            }
        }
    }

    fn count_picks(&mut self, mut net: Net, picks: &[Pick]) {
        self.picks += picks.len();
        self.ended.start(&net);
        for pick in picks {
            let thread = net.threads.get(usize::from(pick.thread));
            let top = thread.and_then(|thread| thread.stack.last().copied());
            let before = Before::new(&net, *pick);
            let kind = top.map(|top| net.nodes[usize::from(top.node())].act.kind());
            let (threads, depth) = extent(&net, *pick);
            self.count_limits(&net, depth);
            let answer = step_sound(&mut net, *pick);
            self.count_answer(answer, kind);
            self.ended.count(usize::from(pick.thread), before, answer, &net);
            let later = usize::from(matches!(top, Some(Entry::Loop { .. })));
            match extent(&net, *pick) {
                (after, _) if after > threads => self.rounds[2 + later] += 1,
                (after, deeper) if after == threads && deeper > depth => self.rounds[later] += 1,
                _ => {}
            }
        }
        self.standing.count(&net);
        self.looks.count(&net);
    }

    fn count_limits(&mut self, net: &Net, depth: usize) {
        let full = net.tables.iter().any(|table| table.relation.rows.is_full());
        let reached = [full, net.tables.len() == 8, net.threads.len() == 8, depth == 8];
        for (count, reached) in self.limits.iter_mut().zip(reached) {
            *count += usize::from(reached);
        }
    }

    fn count_answer(&mut self, answer: Answer, kind: Option<u8>) {
        match (answer, kind) {
            (Err(number), _) => self.refusals[usize::from(number)] += 1,
            (Ok(_), Some(kind)) => self.done[usize::from(kind)] += 1,
            (Ok(_), None) => unreachable!("a done step has a node"),
        }
    }

    /// Whether demand 3 held on all accepted files.
    pub fn balanced(&self) -> bool {
        self.broken.is_empty()
    }

    /// The share of a load number among the files, in percent.
    pub fn fault_share(&self, number: usize) -> f64 {
        share(self.faults[number], self.files)
    }

    /// The share of a refusal among the picks, in percent.
    pub fn refusal_share(&self, number: usize) -> f64 {
        share(self.refusals[number], self.picks)
    }

    /// The share of a node kind done among the picks, in percent.
    pub fn done_share(&self, kind: usize) -> f64 {
        share(self.done[kind], self.picks)
    }

    /// The share of each sort of pick around the end of rounds among its own, in percent.
    pub fn ended_shares(&self) -> impl Iterator<Item = f64> + '_ {
        self.ended.sorts().map(|(_, count, of)| share(count, of))
    }

    /// The share of each sort of page among the tables standing after the picks, in percent.
    pub fn page_shares(&self) -> impl Iterator<Item = f64> + '_ {
        self.standing.sorts().map(|(_, count)| share(count, self.standing.tables))
    }

    /// The share of each sort of look among its own, in percent.
    pub fn look_shares(&self) -> impl Iterator<Item = f64> + '_ {
        self.looks.sorts().into_iter().map(|(_, count, of)| share(count, of))
    }
}

/// The threads of the net and the stack entries of the one picked.
fn extent(net: &Net, pick: Pick) -> (usize, usize) {
    let thread = net.threads.get(usize::from(pick.thread));
    (net.threads.len(), thread.map_or(0, |thread| thread.stack.len()))
}

pub fn share(count: usize, of: usize) -> f64 {
    100.0 * count as f64 / of.max(1) as f64
}

impl fmt::Display for Stats {
    fn fmt(&self, f: &mut fmt::Formatter<'_>) -> fmt::Result {
        let mut line = |label: String, count: usize, of: usize| {
            writeln!(f, "{label:<28}{count:>10}{:>8.2} %", share(count, of))
        };
        line("files".into(), self.files, self.files)?;
        line("accepted".into(), self.accepted, self.files)?;
        for number in 1..=9 {
            line(format!("load {number}"), self.faults[number], self.files)?;
        }
        line("picks".into(), self.picks, self.picks)?;
        for number in 11..=20 {
            line(format!("no {number}"), self.refusals[number], self.picks)?;
        }
        for (kind, name) in KINDS.iter().enumerate() {
            line(format!("done {} {name}", kind + 16), self.done[kind + 16], self.picks)?;
        }
        for (name, count) in ROUNDS.iter().zip(self.rounds) {
            line(format!("round {name}"), count, self.picks)?;
        }
        for (name, count, of) in self.ended.sorts() {
            line(name.into(), count, of)?;
        }
        for (name, count) in LIMITS.iter().zip(self.limits) {
            line(format!("pick at {name}"), count, self.picks)?;
        }
        line("tables standing".into(), self.standing.tables, self.standing.tables)?;
        for (name, count) in self.standing.sorts() {
            line(format!("page with {name}"), count, self.standing.tables)?;
        }
        line("accepted with looks".into(), self.looks.nets, self.accepted)?;
        line("looks at rows".into(), self.looks.all(), self.looks.all())?;
        for (name, count, of) in self.looks.sorts() {
            line(name, count, of)?;
        }
        self.broken.iter().take(10).try_for_each(|broken| writeln!(f, "broken: {broken}"))?;
        writeln!(f, "demand 3 broken {} times", self.broken.len())
    }
}
