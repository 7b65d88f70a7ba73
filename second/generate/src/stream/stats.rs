//! How often each sort of stream, of refusal and of answer occurs in generated streams.

use super::sorts::{column, width, Group, Taken, RECORDS, STREAMS};
use super::{stream, Stream};
use crate::record::SIZE;
use crate::stats::share;
use engine::load;
use engine::window::begin;
use std::fmt;

/// Counts of things of one type: all, and for each group its own and those of its finer sorts.
struct Tally<T: 'static> {
    groups: &'static [Group<T>],
    all: usize,
    counts: Vec<(usize, Vec<usize>)>,
}

impl<T> Tally<T> {
    fn new(groups: &'static [Group<T>]) -> Tally<T> {
        let counts = groups.iter().map(|(_, finer)| (0, vec![0; finer.len()])).collect();
        Tally { groups, all: 0, counts }
    }

    fn count(&mut self, thing: &T) {
        self.all += 1;
        for (((_, is_of_group), finer), (count, counts)) in self.groups.iter().zip(&mut self.counts)
        {
            if is_of_group(thing) {
                *count += 1;
                for ((_, is_of_sort), count) in finer.iter().zip(counts) {
                    *count += usize::from(is_of_sort(thing));
                }
            }
        }
    }

    /// Each sort with its count and the count of what it is among: a group among all, a finer sort
    /// among its group.
    fn sorts(&self) -> Vec<(String, usize, usize)> {
        let mut sorts = Vec::new();
        for (((name, _), finer), (group, counts)) in self.groups.iter().zip(&self.counts) {
            sorts.push((name.to_string(), *group, self.all));
            let finer = finer.iter().zip(counts);
            sorts.extend(finer.map(|((name, _), count)| (format!("  {name}"), *count, *group)));
        }
        sorts
    }
}

/// Counts of streams, and of the records in those of a good width.
pub struct Stats {
    streams: Tally<Stream>,
    records: Tally<Taken>,
}

impl Stats {
    pub fn of(seeds: impl Iterator<Item = u64>) -> Stats {
        let mut stats = Stats { streams: Tally::new(&STREAMS), records: Tally::new(&RECORDS) };
        seeds.for_each(|seed| stats.count(&stream(seed)));
        stats
    }

    fn count(&mut self, stream: &Stream) {
        self.streams.count(stream);
        let Ok(mut window) = begin(width(stream), column(stream)) else {
            return;
        };
        let mut before = None;
        for record in stream.bytes.chunks(SIZE) {
            let met = window;
            let answer = window.take(record);
            let fault = load(record).err().map_or(0, |fault| fault.number);
            let record = record.to_vec();
            self.records.count(&Taken { record, fault, window: met, before, answer });
            before = answer.ok().or(before);
        }
    }

    fn sorts(&self) -> impl Iterator<Item = (String, usize, usize)> {
        self.streams.sorts().into_iter().chain(self.records.sorts())
    }

    /// The share of each sort among its own, in percent.
    pub fn shares(&self) -> impl Iterator<Item = f64> {
        self.sorts().map(|(_, count, of)| share(count, of))
    }
}

impl fmt::Display for Stats {
    fn fmt(&self, f: &mut fmt::Formatter<'_>) -> fmt::Result {
        let all = [("streams", self.streams.all), ("records", self.records.all)];
        let all = all.map(|(name, count)| (name.to_string(), count, count));
        for (name, count, of) in all.into_iter().chain(self.sorts()) {
            writeln!(f, "{name:<28}{count:>10}{:>8.2} %", share(count, of))?;
        }
        Ok(())
    }
}
