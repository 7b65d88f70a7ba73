//! The threads that stand, by names that they keep, and what became of them in a pick.

/// The threads' names by place. Those that the net starts with are A, B and on; the forks of A are
/// A.1, A.2 and on.
#[derive(Clone)]
pub struct Names(Vec<Named>);

#[derive(Clone)]
struct Named {
    name: String,
    /// How many forks it has had.
    forks: usize,
}

#[derive(Clone, Copy, PartialEq, Eq, Debug)]
pub enum ThreadChange {
    /// As many threads stand as before.
    Stays,
    /// The thread picked ended, and those after it close up.
    Ended,
    /// A new thread stands last, a fork of the one picked.
    Forked,
}

impl ThreadChange {
    /// By how many threads stand before and after a pick.
    pub fn new(before: usize, after: usize) -> ThreadChange {
        match after {
            _ if after < before => ThreadChange::Ended,
            _ if after > before => ThreadChange::Forked,
            _ => ThreadChange::Stays,
        }
    }
}

impl Names {
    pub fn new(count: usize) -> Names {
        let letter = |letter: char| Named { name: letter.to_string(), forks: 0 };
        Names(('A'..).take(count).map(letter).collect())
    }

    pub fn thread(&self, place: usize) -> String {
        format!("thread {}", self.both(place))
    }

    /// The place and the name of a thread.
    fn both(&self, place: usize) -> String {
        format!("{place} ({})", self.name(place))
    }

    fn name(&self, place: usize) -> &str {
        self.0.get(place).map_or("?", |named| &named.name)
    }

    /// All threads that stand.
    pub fn all(&self) -> Vec<String> {
        (0..self.0.len()).map(|place| self.both(place)).collect()
    }

    /// Who has the places from this one on.
    pub fn places_from(&self, place: usize) -> Vec<String> {
        let named = |place| format!("thread {place} is {}", self.name(place));
        (place..self.0.len()).map(named).collect()
    }

    /// The names after a pick of the thread at `place`.
    pub fn follow(&mut self, change: ThreadChange, place: usize) {
        match change {
            ThreadChange::Stays => {}
            ThreadChange::Ended => self.end(place),
            ThreadChange::Forked => self.fork(place),
        }
    }

    fn end(&mut self, place: usize) {
        if place < self.0.len() {
            self.0.remove(place);
        }
    }

    fn fork(&mut self, place: usize) {
        if let Some(parent) = self.0.get_mut(place) {
            parent.forks += 1;
            let name = format!("{}.{}", parent.name, parent.forks);
            self.0.push(Named { name, forks: 0 });
        }
    }
}

#[cfg(test)]
mod tests {
    use super::*;

    fn names(names: &Names) -> Vec<&str> {
        names.0.iter().map(|named| named.name.as_str()).collect()
    }

    #[test]
    fn a_thread_keeps_its_name() {
        let mut threads = Names::new(3);
        assert_eq!(names(&threads), ["A", "B", "C"]);
        threads.follow(ThreadChange::Forked, 1);
        threads.follow(ThreadChange::Forked, 1);
        assert_eq!(names(&threads), ["A", "B", "C", "B.1", "B.2"]);
        threads.follow(ThreadChange::Ended, 1);
        assert_eq!(names(&threads), ["A", "C", "B.1", "B.2"]);
        threads.follow(ThreadChange::Forked, 3);
        threads.follow(ThreadChange::Stays, 0);
        assert_eq!(names(&threads), ["A", "C", "B.1", "B.2", "B.2.1"]);
        assert_eq!(threads.thread(2), "thread 2 (B.1)");
    }

    /// A name is not given twice, though its thread has ended.
    #[test]
    fn a_fork_gets_a_new_name() {
        let mut threads = Names::new(1);
        threads.follow(ThreadChange::Forked, 0);
        threads.follow(ThreadChange::Ended, 1);
        threads.follow(ThreadChange::Forked, 0);
        assert_eq!(names(&threads), ["A", "A.2"]);
    }

    #[test]
    fn changes_by_count() {
        assert_eq!(ThreadChange::new(2, 1), ThreadChange::Ended);
        assert_eq!(ThreadChange::new(2, 2), ThreadChange::Stays);
        assert_eq!(ThreadChange::new(2, 3), ThreadChange::Forked);
    }
}
