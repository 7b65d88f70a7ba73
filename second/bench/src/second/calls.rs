//! What the calls of `include/tivgeral.h` give, by the second engine: from the same bytes to the
//! same bytes. Both give how many bytes they put out.

use engine::{load, step_sound, write, Answer, Net, Pick};

const ANSWER: usize = 24;

pub fn answers(file: &[u8], picks: &[u8], out: &mut [u8]) -> usize {
    let mut net = loaded(file);
    let (picks, _) = picks.as_chunks::<2>();
    let (answers, _) = out.as_chunks_mut::<ANSWER>();
    for (pick, answer) in picks.iter().zip(answers) {
        put(stepped(&mut net, pick), answer);
    }
    picks.len() * ANSWER
}

pub fn tables(file: &[u8], picks: &[u8], out: &mut [u8]) -> usize {
    let mut net = loaded(file);
    let (picks, _) = picks.as_chunks::<2>();
    for pick in picks {
        _ = stepped(&mut net, pick);
    }
    write(&net, out).expect("a buffer with room")
}

fn loaded(file: &[u8]) -> Net {
    load(file).expect("a file that loads").0
}

/// What loading gives is sound, so soundness is not tested.
fn stepped(net: &mut Net, [thread, row]: &[u8; 2]) -> Answer {
    step_sound(net, Pick { thread: *thread, row: *row })
}

/// Number, rows added and rows taken, eight bytes each.
fn put(answer: Answer, bytes: &mut [u8; ANSWER]) {
    let numbers = match answer {
        Ok(done) => [0, done.added as u64, done.taken as u64],
        Err(number) => [u64::from(number), 0, 0],
    };
    for (field, number) in bytes.as_chunks_mut::<8>().0.iter_mut().zip(numbers) {
        *field = number.to_le_bytes();
    }
}
