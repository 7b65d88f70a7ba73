//! Rounds of sequential loops: what comes back when they end, and who reads it afterwards.

use crate::reads;
use engine::{
    look, step_sound, Act, Answer, Bindings, Entry, Loop, Net, Node, Operand, Pick, Places, Thread,
};

/// What the sorts are counted among.
#[derive(Clone, Copy)]
enum Among {
    Picks,
    /// Picks that end a round of a sequential loop.
    Ended,
    /// Picks that open a round of a sequential loop after its first one.
    Later,
    /// Picks refused for something unbound.
    Unbound,
    /// Picks done by a node that reads a table variable.
    TableRead,
}

/// Sorts of picks, in the order of the table below.
#[derive(Clone, Copy)]
enum Sort {
    Ended,
    Variable,
    NoFormal,
    Table,
    SequentialOver,
    ParallelOver,
    BindsInVain,
    Nested,
    InFork,
    OtherRows,
    ForkedInRound,
    UnboundAgain,
    OldValue,
    OldTable,
    TemplateRead,
}

const SORTS: [(Among, &str); 15] = [
    (Among::Picks, "round ends"),
    (Among::Picks, "  a variable back"),
    (Among::Picks, "  one that is no formal"),
    (Among::Picks, "  a table variable back"),
    (Among::Ended, "  by a sequential loop"),
    (Among::Ended, "  by a parallel loop"),
    (Among::Ended, "  by a step that binds"),
    (Among::Ended, "  in a round of another"),
    (Among::Ended, "  in a fork"),
    (Among::Ended, "  T would see other rows"),
    (Among::Picks, "fork out of a round"),
    (Among::Unbound, "no 12 for what went back"),
    (Among::Picks, "done, old value read"),
    (Among::TableRead, "done, old table read"),
    (Among::Later, "later round, T reads such"),
];

/// Counts of picks.
#[derive(Default)]
pub struct Ended {
    picks: usize,
    later: usize,
    unbound: usize,
    table_reads: usize,
    sorts: [usize; SORTS.len()],
    threads: Vec<Traces>,
}

/// What of a thread's bindings came back and was not bound since.
#[derive(Clone, Default)]
struct Traces {
    variables: [bool; 16],
    tables: [bool; 2],
    forked: bool,
}

impl Ended {
    /// A new file.
    pub fn start(&mut self, net: &Net) {
        self.threads = vec![Traces::default(); net.threads.len()];
    }

    /// A pick with what was before it, its answer and the net after it.
    pub fn count(&mut self, place: usize, before: Option<Before>, answer: Answer, net: &Net) {
        self.picks += 1;
        self.unbound += usize::from(answer == Err(12));
        let Some(before) = before else {
            return;
        };
        self.count_read(&self.threads[place].clone(), &before, answer, net);
        if answer.is_err() {
            return;
        }
        match net.threads.len() {
            threads if threads < self.threads.len() => {
                self.threads.remove(place);
            }
            threads if threads > self.threads.len() => self.count_fork(place, &before),
            _ => self.count_stay(place, &before, net),
        }
    }

    fn add(&mut self, sort: Sort, is_of_sort: bool) {
        self.sorts[sort as usize] += usize::from(is_of_sort);
    }

    /// A node that reads what came back gets an old binding or none.
    fn count_read(&mut self, traces: &Traces, before: &Before, answer: Answer, net: &Net) {
        let act = act(before.top, net);
        let thread = &before.thread;
        let mut variables = reads::variables(act);
        variables.retain(|v| traces.variables[usize::from(*v)]);
        let table = reads::table(act);
        self.table_reads += usize::from(answer.is_ok() && table.is_some());
        let table = table.filter(|table| traces.tables[usize::from(*table)]);
        let unbound = variables.iter().any(|v| thread.variables[usize::from(*v)].is_none())
            || table.is_some_and(|table| thread.tables[usize::from(table)].is_none());
        self.add(Sort::UnboundAgain, answer == Err(12) && unbound);
        self.add(Sort::OldValue, answer.is_ok() && !variables.is_empty());
        self.add(Sort::OldTable, answer.is_ok() && table.is_some());
    }

    fn count_fork(&mut self, place: usize, before: &Before) {
        self.add(Sort::ForkedInRound, !before.thread.kept.is_empty());
        self.threads.push(Traces { forked: true, ..self.threads[place].clone() });
    }

    /// A step after which the thread stands.
    fn count_stay(&mut self, place: usize, before: &Before, net: &Net) {
        let after = &net.threads[place];
        if let Some(bound) = &before.in_round {
            let changes = Changes::new(bound, &after.bindings());
            self.count_end(place, before, bound, &changes, net);
            return self.threads[place].take(&changes, true);
        }
        let opened = after.stack.len() > before.thread.stack.len();
        if opened && matches!(before.top, Entry::Loop { .. }) {
            self.later += 1;
            let read = reads::variables(act(before.top, net));
            let back = |v: &u8| self.threads[place].variables[usize::from(*v)];
            self.add(Sort::TemplateRead, read.iter().any(back));
        }
        let changes = Changes::new(&before.thread.bindings(), &after.bindings());
        self.threads[place].take(&changes, false);
    }

    /// The end of a round that had these bindings, of which some changes bring back the old ones.
    fn count_end(
        &mut self,
        place: usize,
        before: &Before,
        bound: &Bindings,
        changes: &Changes,
        net: &Net,
    ) {
        let after = &net.threads[place];
        let Some((looping, left)) = sequential(after.stack.last(), &net.nodes) else {
            return;
        };
        let formal = |v: usize| looping.template.contains(&Operand::Formal(v as u8));
        let over = before.top.looping(&net.nodes).filter(|_| changes.any());
        let rows = |bindings: &Bindings| ready(bindings, looping, left);
        self.add(Sort::Ended, true);
        self.add(Sort::Variable, changes.variables.contains(&true));
        self.add(Sort::NoFormal, (0..16).any(|v| changes.variables[v] && !formal(v)));
        self.add(Sort::Table, changes.tables.contains(&true));
        self.add(Sort::SequentialOver, over.is_some_and(|over| !over.parallel));
        self.add(Sort::ParallelOver, over.is_some_and(|over| over.parallel));
        self.add(Sort::BindsInVain, *bound != before.thread.bindings());
        self.add(Sort::Nested, after.kept.len() > 1);
        self.add(Sort::InFork, self.threads[place].forked);
        self.add(Sort::OtherRows, rows(bound) != rows(&after.bindings()));
    }

    /// Each sort with its count and the count of what it is among.
    pub fn sorts(&self) -> impl Iterator<Item = (&'static str, usize, usize)> + '_ {
        SORTS.into_iter().zip(self.sorts).map(|((among, name), count)| {
            let of = match among {
                Among::Picks => self.picks,
                Among::Ended => self.sorts[Sort::Ended as usize],
                Among::Later => self.later,
                Among::Unbound => self.unbound,
                Among::TableRead => self.table_reads,
            };
            (name, count, of)
        })
    }
}

/// The thread that a pick names, before the pick.
pub struct Before {
    thread: Thread,
    top: Entry,
    /// Where the step ends a round of a sequential loop: what is bound just before it ends.
    in_round: Option<Bindings>,
}

impl Before {
    pub fn new(net: &Net, pick: Pick) -> Option<Before> {
        let thread = net.threads.get(usize::from(pick.thread))?.clone();
        let top = *thread.stack.last()?;
        let in_round = bound_in_round(&thread, top, net, pick);
        Some(Before { thread, top, in_round })
    }
}

/// The step is tried as if its node had a next, so that the round does not end.
fn bound_in_round(thread: &Thread, top: Entry, net: &Net, pick: Pick) -> Option<Bindings> {
    let below = thread.stack.len().checked_sub(2).map(|below| &thread.stack[below]);
    sequential(below, &net.nodes)?;
    if net.nodes[usize::from(top.node())].next.is_some() {
        return None;
    }
    let mut net = net.clone();
    net.nodes[usize::from(top.node())].next = Some(top.node());
    step_sound(&mut net, pick).ok()?;
    let after = net.threads.swap_remove(usize::from(pick.thread));
    // A loop that opens a round is not over, and its own round goes on.
    (after.stack.last() == Some(&Entry::Run(top.node()))).then(|| after.bindings())
}

/// Which bindings differ.
struct Changes {
    variables: [bool; 16],
    tables: [bool; 2],
}

impl Changes {
    fn new(before: &Bindings, after: &Bindings) -> Changes {
        Changes {
            variables: std::array::from_fn(|v| before.variables[v] != after.variables[v]),
            tables: std::array::from_fn(|table| before.tables[table] != after.tables[table]),
        }
    }

    fn any(&self) -> bool {
        self.variables.contains(&true) || self.tables.contains(&true)
    }
}

impl Traces {
    /// What changed came back, or was bound anew.
    fn take(&mut self, changes: &Changes, back: bool) {
        for (trace, changed) in self.variables.iter_mut().zip(changes.variables) {
            *trace = if changed { back } else { *trace };
        }
        for (trace, changed) in self.tables.iter_mut().zip(changes.tables) {
            *trace = if changed { back } else { *trace };
        }
    }
}

fn act(top: Entry, net: &Net) -> &Act {
    &net.nodes[usize::from(top.node())].act
}

/// The sequential loop that an entry is a loop entry of, and the rows left to it.
fn sequential<'net>(entry: Option<&Entry>, nodes: &'net [Node]) -> Option<(&'net Loop, Places)> {
    let Entry::Loop { left, .. } = *entry? else {
        return None;
    };
    let looping = entry?.looping(nodes).filter(|looping| !looping.parallel)?;
    Some((looping, left))
}

/// The rows left that T matches with these bindings.
fn ready(bindings: &Bindings, looping: &Loop, left: Places) -> Vec<u8> {
    let Some(source) = &bindings.tables[usize::from(looping.read)] else {
        return Vec::new();
    };
    let matches = |place: &u8| {
        look(&looping.template, &bindings.variables, &source.rows[usize::from(*place)]).matches
    };
    left.iter().filter(matches).collect()
}
