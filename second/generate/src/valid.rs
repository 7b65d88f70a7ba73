//! Files that load, with picks that find something to do.

use crate::late::late;
use crate::program::Theme;
use crate::random::Random;
use crate::record::{file, pick, start, Record, END};
use crate::scope::Scope;
use crate::statement::Writer;
use crate::world::{Size, World};
use engine::{step_sound, Net, Pick};

const RECORDS: usize = 256;

const START: u8 = 32;

/// A file of at most 256 records with at most this many picks.
pub fn valid(random: &mut Random, picks: usize) -> Vec<u8> {
    let mut records = net(random);
    let count = picks.min(RECORDS - records.len());
    let (mut net, _) = engine::load(&file(&records)).expect("a net written to load");
    let chosen = match random.chance(95) {
        true => guided(random, &mut net, count),
        false => blind(random, &mut net, count),
    };
    let late = late(random, &net, RECORDS - records.len() - chosen.len());
    let starts = records.iter().position(|record| record.kind() == START);
    let end = starts.unwrap_or(records.len());
    records.splice(end..end, late);
    records.extend(chosen);
    file(&records)
}

/// All records but the picks.
pub fn net(random: &mut Random) -> Vec<Record> {
    let theme = random.weighted(&[
        (10, Theme::Mixed),
        (3, Theme::Deep),
        (4, Theme::Forks),
        (4, Theme::Full),
        (3, Theme::Crowded),
        (3, Theme::Sums),
        (12, Theme::Anew),
        (4, Theme::Traps),
    ]);
    let world = World::new(random, size(theme));
    let mut records = world.records(random);
    let (nodes, starts) = programs(random, &world, theme);
    records.extend(nodes);
    records.extend(starts);
    records
}

fn size(theme: Theme) -> Size {
    let (edges, heavy) = (10, 0);
    match theme {
        Theme::Mixed => Size { tables: (1, 5), rows: (0, 6), edges, heavy },
        Theme::Deep | Theme::Forks => Size { tables: (1, 3), rows: (2, 6), edges, heavy },
        Theme::Full => Size { tables: (1, 3), rows: (6, 22), edges, heavy: 60 },
        Theme::Traps => Size { tables: (1, 4), rows: (0, 20), edges, heavy },
        Theme::Crowded => Size { tables: (4, 8), rows: (0, 5), edges, heavy },
        Theme::Anew => Size { tables: (1, 3), rows: (2, 7), edges, heavy: 50 },
        Theme::Sums => Size { tables: (2, 4), rows: (2, 7), edges: 55, heavy },
    }
}

fn programs(random: &mut Random, world: &World, theme: Theme) -> (Vec<Record>, Vec<Record>) {
    let count = match theme {
        Theme::Traps => 8,
        // Few, so that the picks lead far.
        Theme::Anew => random.between(1, 2),
        _ => random.between(2, 6),
    };
    let homes = &world.homes;
    let mut writer = Writer {
        random,
        world,
        theme,
        known: world.tables.clone(),
        home: homes[0],
        scope: Scope::default(),
        nodes: Vec::new(),
    };
    let mut starts = Vec::new();
    for _ in 0..count {
        if !writer.has_room() {
            break;
        }
        writer.home = *writer.random.choose(homes);
        writer.known.clone_from(&world.tables);
        let first = writer.program();
        for _ in 0..writer.random.weighted(&[(8, 1), (2, 2), (1, 4)]) {
            let stray = writer.random.chance(10);
            let site = if stray { *writer.random.choose(homes) } else { writer.home };
            starts.push(start(site, first));
        }
    }
    starts.truncate(8);
    let nodes = rewired(writer.random, writer.nodes);
    (nodes, starts)
}

/// Lets a few nodes go on elsewhere, so that nodes are shared by several nexts.
fn rewired(random: &mut Random, mut nodes: Vec<Record>) -> Vec<Record> {
    let count = nodes.len();
    for (number, node) in nodes.iter_mut().enumerate() {
        if random.chance(97) {
            continue;
        }
        let next = random.between(number + 1, count);
        *node = node.next(if next == count { END } else { next as u8 });
    }
    nodes
}

/// Picks tried out on the net. A refused pick leaves the net as it was, so that of those only some
/// need be kept.
fn guided(random: &mut Random, net: &mut Net, count: usize) -> Vec<Record> {
    let mut picks = Vec::new();
    let mut idle = 0;
    while picks.len() < count && idle < 40 {
        let choice = choice(random, net.threads.len());
        let answer = step_sound(net, choice);
        idle = if answer.is_ok() { 0 } else { idle + 1 };
        // Chosen so that each number has a fair share of the picks.
        let share = match answer {
            Ok(_) => 100,
            Err(13 | 16) => 30,
            Err(17) => 95,
            Err(18 | 12) => 20,
            Err(_) => 10,
        };
        if random.chance(share) {
            picks.push(pick(choice.thread, choice.row));
        }
    }
    picks
}

/// Picks of any threads and rows.
fn blind(random: &mut Random, net: &mut Net, count: usize) -> Vec<Record> {
    let any = |_| {
        let choice = Pick { thread: random.below(5) as u8, row: random.byte() & 0x1F };
        // Refused or not, it is one of the picks.
        let _ = step_sound(net, choice);
        pick(choice.thread, choice.row)
    };
    (0..count).map(any).collect()
}

fn choice(random: &mut Random, threads: usize) -> Pick {
    let thread = match random.below(100) {
        0..12 => threads as u8,
        12..14 => random.byte(),
        _ => random.below(threads.max(1)) as u8,
    };
    let row = match random.below(100) {
        0..3 => random.byte(),
        3..60 => random.below(4) as u8,
        _ => random.below(16) as u8,
    };
    Pick { thread, row }
}
