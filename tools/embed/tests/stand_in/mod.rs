//! A test double of the proved engine: the calls on top of the second engine. Tests alone use it,
//! to run without the library and to hold the library against it.

mod moment;

use embed::{Answer, Pick, Refused, Thread, Top, PAGE_BYTES};
use engine::{Entry, Net, Site, Text};

pub fn picks(file: &[u8]) -> Result<Vec<Pick>, Refused> {
    let (_, picks) = loaded(file)?;
    Ok(picks.iter().map(|pick| Pick { thread: pick.thread, row: pick.row }).collect())
}

pub fn answers(file: &[u8], picks: &[Pick]) -> Result<Vec<Answer>, Refused> {
    run(file, picks).map(|(_, answers)| answers.into_iter().map(answer).collect())
}

pub fn tables(file: &[u8], picks: &[Pick]) -> Result<Vec<u8>, Refused> {
    run(file, picks).map(|(net, _)| written(&net))
}

pub fn threads(file: &[u8], picks: &[Pick]) -> Result<Vec<Thread>, Refused> {
    run(file, picks).map(|(net, _)| net.threads.iter().map(thread).collect())
}

pub fn trace(file: &[u8], picks: &[Pick], from: usize, out: &mut [u8]) -> Result<usize, Refused> {
    let from = from.min(picks.len());
    let (mut net, _) = run(file, &picks[..from])?;
    let mut put = 0;
    for place in from..=picks.len() {
        let bytes = moment::bytes(&net);
        match out.get_mut(put..put + bytes.len()) {
            Some(room) => room.copy_from_slice(&bytes),
            None if put == 0 => return Err(Refused { number: 21, place: bytes.len() }),
            None => break,
        }
        put += bytes.len();
        if let Some(pick) = picks.get(place) {
            engine::run(&mut net, &[own(pick)]);
        }
    }
    Ok(put)
}

pub fn page_into(
    file: &[u8],
    picks: &[Pick],
    site: u8,
    name: [u8; 4],
    out: &mut [u8],
) -> Result<usize, Refused> {
    let (net, _) = run(file, picks)?;
    let page = |out: &mut [u8]| engine::page(&net, Site(site), Text(name), out);
    let needed = |number| match number {
        22 => page(&mut [0; PAGE_BYTES]).expect("room for any page"),
        _ => 0,
    };
    page(out).map_err(|number| Refused { number, place: needed(number) })
}

fn run(file: &[u8], picks: &[Pick]) -> Result<(Net, Vec<engine::Answer>), Refused> {
    let (mut net, _) = loaded(file)?;
    let picks: Vec<engine::Pick> = picks.iter().map(own).collect();
    let answers = engine::run(&mut net, &picks);
    Ok((net, answers))
}

fn loaded(file: &[u8]) -> Result<(Net, Vec<engine::Pick>), Refused> {
    engine::load(file).map_err(|fault| Refused { number: fault.number, place: fault.place })
}

fn own(pick: &Pick) -> engine::Pick {
    engine::Pick { thread: pick.thread, row: pick.row }
}

fn answer(answer: engine::Answer) -> Answer {
    match answer {
        Ok(done) => Answer::Done { added: done.added as u64, taken: done.taken as u64 },
        Err(number) => Answer::Refused(number),
    }
}

fn written(net: &Net) -> Vec<u8> {
    let mut out = vec![0; 1 << 14];
    let length = engine::write(net, &mut out).expect("a sound net");
    out.truncate(length);
    out
}

fn thread(thread: &engine::Thread) -> Thread {
    let entry = thread.stack.last().expect("a stack with an entry");
    let top = match entry {
        Entry::Run(_) => Top::Run,
        Entry::Loop { left, .. } => Top::Loop { left: left.iter().collect() },
    };
    Thread { site: thread.site.0, depth: thread.stack.len() as u8, node: entry.node(), top }
}
