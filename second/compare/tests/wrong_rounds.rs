//! Wrong engines whose rounds look right in every text: they are told apart net by net, on
//! generated files and on sound nets changed by hand, which no file and picks lead to.

use engine::quirk::Quirk;
use engine::{load, sound, step, Entry, Loop, Net, Pick, Thread, Value};
use generate::{file, Class};

const FILES: u64 = 500;

/// The right engine and one gone wrong, each with its own net.
#[derive(Clone)]
struct Pair {
    quirk: Quirk,
    right: Net,
    wrong: Net,
}

impl Pair {
    fn step(&mut self, pick: Pick) {
        let answer = step(&mut self.right, pick);
        let other = self.quirk.during(|| step(&mut self.wrong, pick));
        assert_ne!((answer, other), (Err(10), Err(10)), "an unsound net shows nothing");
    }

    /// What a thread kept is no matter until it comes back.
    fn differs(&self) -> bool {
        let bound =
            |net: &Net| -> Vec<_> { net.threads.iter().map(|thread| thread.bindings()).collect() };
        self.right.tables != self.wrong.tables || bound(&self.right) != bound(&self.wrong)
    }

    /// Changes both nets by hand and runs that thread alone: whether the engines part.
    fn parts_by_hand(mut self, place: u8, change: fn(&mut Thread, &Loop)) -> bool {
        let thread = &self.right.threads[usize::from(place)];
        let top = thread.stack[thread.stack.len() - 1];
        let Some(looping) = top.looping(&self.right.nodes).cloned() else {
            return false;
        };
        change(&mut self.right.threads[usize::from(place)], &looping);
        change(&mut self.wrong.threads[usize::from(place)], &looping);
        assert!(sound(&self.right));
        (0..40).any(|turn| {
            self.step(Pick { thread: place, row: turn % 16 });
            self.differs()
        })
    }
}

/// Whether a test holds of the two engines after some pick of a generated file.
fn somewhere(quirk: Quirk, test: impl Fn(&Pair, Pick) -> bool) -> bool {
    (0..FILES).any(|seed| {
        let Ok((net, picks)) = load(&file(Class::Valid, seed)) else {
            return false;
        };
        let mut pair = Pair { quirk, right: net.clone(), wrong: net };
        picks.into_iter().any(|pick| {
            pair.step(pick);
            test(&pair, pick)
        })
    })
}

#[test]
fn nets_tell_when_bindings_come_back() {
    for quirk in Quirk::OF_NETS {
        assert!(somewhere(quirk, |pair, _| pair.differs()), "{quirk:?} looks right");
    }
}

/// Binds a variable under a sequential loop's entry; puts the body above a parallel loop's.
fn unreached(thread: &mut Thread, looping: &Loop) {
    if !looping.parallel {
        thread.variables[15] = Some(Value::Int(77));
    } else if !thread.stack.is_full() {
        thread.stack.push(Entry::Run(looping.body));
    }
}

#[test]
fn nets_changed_by_hand_tell_what_is_kept_and_where() {
    for quirk in Quirk::OF_NETS_BY_HAND {
        assert!(!somewhere(quirk, |pair, _| pair.differs()), "{quirk:?} needs no hand");
        let parts = |pair: &Pair, pick: Pick| {
            usize::from(pick.thread) < pair.right.threads.len()
                && pair.clone().parts_by_hand(pick.thread, unreached)
        };
        assert!(somewhere(quirk, parts), "{quirk:?} looks right");
    }
}
