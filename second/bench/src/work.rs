//! Calls to be measured beside each other.

use crate::clock::timed;
use std::array::from_fn;
use std::hint::black_box;
use std::time::Duration;

/// A call, the sum that it must give, and what of its time does not count.
pub struct Work<'a> {
    name: &'static str,
    /// How many picks, loads or updates share the time.
    units: f64,
    expected: u64,
    whole: Call<'a>,
    off: Option<Call<'a>>,
}

/// A call that gives a sum, and the best of its times.
struct Call<'a> {
    call: Box<dyn FnMut() -> u64 + 'a>,
    best: Duration,
}

impl<'a> Call<'a> {
    fn new(call: impl FnMut() -> u64 + 'a) -> Self {
        Call { call: Box::new(call), best: Duration::MAX }
    }

    fn measure(&mut self) -> u64 {
        let (sum, time) = timed(&mut self.call);
        self.best = self.best.min(time);
        black_box(sum)
    }
}

impl<'a> Work<'a> {
    pub fn new(
        name: &'static str,
        units: u64,
        expected: u64,
        whole: impl FnMut() -> u64 + 'a,
    ) -> Self {
        Work { name, units: units as f64, expected, whole: Call::new(whole), off: None }
    }

    /// Another call, which does all but what is to be measured: its time is taken off.
    pub fn without(self, off: impl FnMut() -> u64 + 'a) -> Self {
        Work { off: Some(Call::new(off)), ..self }
    }

    fn measure(&mut self) {
        let sum = self.whole.measure();
        assert_eq!(sum, self.expected, "{} gives another sum than the second engine", self.name);
        self.off.as_mut().map(Call::measure);
    }

    /// Nanoseconds a unit.
    fn each(&self) -> f64 {
        let off = self.off.as_ref().map_or(Duration::ZERO, |off| off.best);
        let time = self.whole.best.checked_sub(off);
        let time = time.unwrap_or_else(|| panic!("{}: too much noise, measure again", self.name));
        time.as_nanos() as f64 / self.units
    }
}

/// The best times of a number of rounds, in nanoseconds a unit. The works take turns, so that
/// whatever slows the machine for a while slows all of them.
pub fn best<const N: usize>(rounds: usize, mut works: [Option<Work<'_>>; N]) -> [Option<f64>; N] {
    for _ in 0..rounds {
        works.iter_mut().flatten().for_each(Work::measure);
    }
    from_fn(|place| works[place].as_ref().map(Work::each))
}
