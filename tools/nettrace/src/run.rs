//! A run as the engine gives it: the answers, and the net before and after each pick. The nets come
//! in pieces, so that a long list of picks takes no more memory than a short one.

use crate::calls::Calls;
use crate::moment::Moment;
use embed::{Answer, Pick, Refused};

/// Room for a piece: some 80 of the largest nets, or 10,000 of a small one.
const ROOM: usize = 1 << 25;
/// Picks of a piece at most.
const PICKS: usize = 1 << 14;

/// A pick with its answer and the moments before and after it.
pub struct Turn<'a> {
    pub place: usize,
    pub pick: Pick,
    pub answer: Answer,
    pub before: &'a Moment,
    pub after: &'a Moment,
}

pub struct Run<'a, C> {
    calls: &'a C,
    file: &'a [u8],
    picks: &'a [Pick],
    pub answers: Vec<Answer>,
    buffer: Vec<u8>,
    /// Bytes of the piece in the buffer, and how many of them are read.
    put: usize,
    read: usize,
    /// How many moments are read.
    count: usize,
    /// The picks before the next moment that were done.
    done: Vec<Pick>,
}

impl<'a, C: Calls> Run<'a, C> {
    pub fn new(calls: &'a C, file: &'a [u8], picks: &'a [Pick]) -> Result<Run<'a, C>, Refused> {
        let answers = calls.answers(file, picks)?;
        let buffer = vec![0; ROOM];
        let done = Vec::new();
        Ok(Run { calls, file, picks, answers, buffer, put: 0, read: 0, count: 0, done })
    }

    /// The net before the first pick, then after each; asked once more than there are picks.
    pub fn moment(&mut self) -> Result<Moment, Refused> {
        self.pass_pick();
        if self.read == self.put {
            self.put = self.piece()?;
            self.read = 0;
        }
        let piece = &self.buffer[self.read..self.put];
        let (moment, length) = embed::Moment::first(piece).expect("a call puts whole moments");
        self.read += length;
        self.count += 1;
        Ok(Moment::from(&moment))
    }

    /// The pick that leads to the next moment; none leads to the first.
    fn pass_pick(&mut self) {
        let Some(place) = self.count.checked_sub(1) else {
            return;
        };
        if let Answer::Done { .. } = self.answers[place] {
            self.done.push(self.picks[place]);
        }
    }

    /// Puts the next moments into the buffer. A call begins with the file, so the picks before them
    /// are run once more; refused ones changed nothing and are left out.
    fn piece(&mut self) -> Result<usize, Refused> {
        let later = &self.picks[self.count..];
        let picks = [&self.done, &later[..later.len().min(PICKS)]].concat();
        self.calls.trace(self.file, &picks, self.done.len(), &mut self.buffer)
    }
}
