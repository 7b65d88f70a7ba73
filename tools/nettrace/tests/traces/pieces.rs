//! Long lists of picks: the nets come in pieces, and each pick is written before the next piece.

use crate::double::{stand_in, told};
use embed::{Answer, Pick, Refused};
use nettrace::{trace, Calls, Source};
use std::cell::RefCell;
use std::io::{self, Write};

/// What was asked and written, in order.
#[derive(Default)]
struct Log(RefCell<Vec<Event>>);

#[derive(Clone, Copy, PartialEq, Eq, Debug)]
enum Event {
    Answers,
    Trace { from: usize },
    Written,
    Flushed,
}

/// The stand-in with so little room that a piece has few moments.
struct Narrow<'a> {
    room: usize,
    log: &'a Log,
}

impl Calls for Narrow<'_> {
    fn picks(&self, file: &[u8]) -> Result<Vec<Pick>, Refused> {
        stand_in::picks(file)
    }

    fn answers(&self, file: &[u8], picks: &[Pick]) -> Result<Vec<Answer>, Refused> {
        self.log.0.borrow_mut().push(Event::Answers);
        stand_in::answers(file, picks)
    }

    fn trace(
        &self,
        file: &[u8],
        picks: &[Pick],
        from: usize,
        out: &mut [u8],
    ) -> Result<usize, Refused> {
        self.log.0.borrow_mut().push(Event::Trace { from });
        let room = self.room.min(out.len());
        stand_in::trace(file, picks, from, &mut out[..room])
    }
}

struct Output<'a> {
    text: Vec<u8>,
    log: &'a Log,
}

impl Write for Output<'_> {
    fn write(&mut self, bytes: &[u8]) -> io::Result<usize> {
        self.log.0.borrow_mut().push(Event::Written);
        self.text.extend_from_slice(bytes);
        Ok(bytes.len())
    }

    fn flush(&mut self) -> io::Result<()> {
        self.log.0.borrow_mut().push(Event::Flushed);
        Ok(())
    }
}

const NET: &str = "\
table CARD at site 0 (Int)
row (7) in CARD at site 0
process p:
    insert (1) into CARD @self
    delete (1) from CARD @self into T0
start p at site 0
";

fn source() -> Source {
    Source::of_text("net.nettext", NET.as_bytes()).expect("a text")
}

fn events(room: usize, count: usize) -> (Vec<Event>, Vec<u8>) {
    let log = Log::default();
    let mut output = Output { text: Vec::new(), log: &log };
    let picks = vec![Pick { thread: 0, row: 0 }; count];
    let traced = trace(&Narrow { room, log: &log }, &source(), Some(picks), &mut output);
    assert!(traced.is_ok());
    let text = output.text;
    (log.0.into_inner(), text)
}

/// The calls do not grow with the picks, but with the bytes of the nets.
#[test]
fn a_long_list_takes_few_calls() {
    let (events, _) = events(usize::MAX, 10_000);
    let asked = |event: &&Event| !matches!(event, Event::Written | Event::Flushed);
    let calls = events.iter().filter(asked).count();
    assert!(calls <= 10, "{calls} calls");
}

/// The picks that each call ran before its piece.
fn run_again(events: &[Event]) -> Vec<usize> {
    let from = |event: &Event| match event {
        Event::Trace { from } => Some(*from),
        _ => None,
    };
    events.iter().filter_map(from).collect()
}

/// The text is that of one piece.
#[test]
fn pieces_join() {
    let (events, text) = events(3_000, 40);
    assert!(run_again(&events).len() > 5);
    let whole = told(&source(), Some(vec![Pick { thread: 0, row: 0 }; 40]));
    assert_eq!(whole.as_deref(), Ok(String::from_utf8_lossy(&text).as_ref()));
}

/// Two of these picks are done. All others are refused, and no call runs them again.
#[test]
fn refused_picks_are_run_once() {
    let again = run_again(&events(3_000, 40).0);
    assert_eq!(again[..3], [0, 1, 2]);
    assert!(again[3..].iter().all(|from| *from == 2), "{again:?}");
}

/// What is known of a piece is written and flushed before the next one is asked.
#[test]
fn picks_are_written_as_soon_as_they_are_known() {
    let (events, _) = events(3_000, 40);
    let pieces: Vec<&[Event]> =
        events.split(|event| matches!(event, Event::Trace { .. } | Event::Answers)).collect();
    assert!(pieces.len() > 5);
    for piece in &pieces[2..] {
        assert!(piece.contains(&Event::Written));
        let unflushed = piece.windows(2).any(|two| two == [Event::Written, Event::Written]);
        assert!(!unflushed && piece.last() == Some(&Event::Flushed), "{piece:?}");
    }
}
