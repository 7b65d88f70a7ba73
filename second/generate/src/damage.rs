//! Files with one fault or two, for each number 1 to 9, and files exactly at a limit.

use crate::random::Random;
use crate::record::{
    file, formal, int, loc, node, pick, plus, row, start, table, text, var, Operand, Record,
    AGGREGATE, DROP, END, INT, SEQUENTIAL, SIZE,
};
use crate::valid::net;
use crate::world::name;

/// The records of a file and what follows the last whole one.
struct Draft {
    records: Vec<Record>,
    tail: Vec<u8>,
    /// The record that the last fault is in.
    touched: Option<usize>,
}

const ALIAS: u8 = 1;
const TABLE: u8 = 2;
const ROW: u8 = 3;
const START: u8 = 32;
const PICK: u8 = 33;

/// How often to go for each number; 0 is a file exactly at a limit.
const FAULTS: [(usize, u8); 10] =
    [(2, 0), (2, 1), (2, 2), (2, 3), (8, 4), (4, 5), (3, 6), (3, 7), (4, 8), (5, 9)];

pub fn damaged(random: &mut Random) -> Vec<u8> {
    if random.chance(1) {
        return Vec::new();
    }
    let mut draft = Draft { records: net(random), tail: Vec::new(), touched: None };
    for _ in 0..random.below(6) {
        draft.records.push(pick(random.below(3) as u8, random.below(3) as u8));
    }
    for _ in 0..random.weighted(&[(6, 1), (5, 2)]) {
        let number = random.weighted(&FAULTS);
        draft.break_for(random, number);
    }
    let mut bytes = file(&draft.records);
    bytes.extend(draft.tail);
    bytes
}

impl Draft {
    fn break_for(&mut self, random: &mut Random, number: u8) {
        match number {
            0 => self.reach_a_limit(random, 0),
            1 => self.cut(random),
            2 => self.lengthen(random),
            3 => self.change(random, any, |random, record| record.byte(0, unknown_kind(random))),
            4 => self.change(random, any, break_fields),
            5 => self.misplace(random),
            6 => self.repeat(random),
            7 => self.misfit(random),
            8 => self.reach_a_limit(random, 1),
            _ => self.misdirect(random),
        }
    }

    /// The places of the records of some kinds.
    fn places(&self, kinds: impl Fn(u8) -> bool) -> Vec<usize> {
        let places = self.records.iter().enumerate();
        places.filter(|(_, record)| kinds(record.kind())).map(|(place, _)| place).collect()
    }

    /// A record of one of these kinds, all kinds alike; often the one touched before, so that a
    /// record has two faults.
    fn place(&mut self, random: &mut Random, kinds: impl Fn(u8) -> bool) -> Option<usize> {
        let places = self.places(&kinds);
        if places.is_empty() {
            return None;
        }
        let again = self.touched.filter(|touched| places.contains(touched));
        if again.is_none() || random.chance(30) {
            let mut present: Vec<u8> = self.records.iter().map(Record::kind).collect();
            present.retain(|kind| kinds(*kind));
            present.sort_unstable();
            present.dedup();
            let chosen = *random.choose(&present);
            self.touched = Some(*random.choose(&self.places(|kind| kind == chosen)));
        }
        self.touched
    }

    fn change(
        &mut self,
        random: &mut Random,
        kinds: impl Fn(u8) -> bool,
        change: impl Fn(&mut Random, Record) -> Record,
    ) {
        if let Some(place) = self.place(random, kinds) {
            self.records[place] = change(random, self.records[place]);
        }
    }

    /// Puts a record where it belongs: after the last of its group.
    fn add(&mut self, record: Record) {
        let before = self.places(|other| group(other) <= group(record.kind()));
        let place = before.last().map_or(0, |place| place + 1);
        self.records.insert(place, record);
        self.touched = Some(place);
    }

    fn cut(&mut self, random: &mut Random) {
        let length = random.between(1, SIZE - 1);
        self.tail =
            (0..length).map(|_| if random.chance(50) { 0 } else { random.byte() }).collect();
    }

    /// More than 256 records, good ones or not.
    fn lengthen(&mut self, random: &mut Random) {
        let count = random.weighted(&[(6, 257), (3, 258), (3, 300), (1, 2000)]);
        let filler = match random.chance(50) {
            true => pick(0, 0),
            false => Record([random.byte(); SIZE]),
        };
        self.records.resize(count.max(self.records.len()), filler);
        if random.chance(20) {
            self.cut(random);
        }
    }

    fn misplace(&mut self, random: &mut Random) {
        if let Some(from) = self.place(random, any) {
            let record = self.records.remove(from);
            // At the end most records come too late.
            let end = self.records.len();
            let to = if random.chance(50) { end } else { random.below(end + 1) };
            self.records.insert(to, record);
            self.touched = Some(to);
        }
    }

    /// An alias or table that came before, perhaps with other contents.
    fn repeat(&mut self, random: &mut Random) {
        let wanted = *random.choose(&[ALIAS, TABLE]);
        let places = self.places(|kind| kind == wanted);
        if places.is_empty() {
            return;
        }
        let record = self.records[*random.choose(&places)];
        self.add(match wanted {
            _ if random.chance(30) => record,
            ALIAS => record.byte(3, random.below(8) as u8),
            _ => record.columns(&[random.between(1, 3) as u8, 0, 0, 0]),
        });
    }

    fn misfit(&mut self, random: &mut Random) {
        if self.places(|kind| kind == ROW).is_empty() {
            self.add(row(random.below(8) as u8, &name(random), &[int(1)]));
        }
        self.change(
            random,
            |kind| kind == ROW,
            |random, record| match random.below(4) {
                0 => record.byte(1, random.below(8) as u8),
                1 => record.name(&name(random)),
                2 => record.tuple(&[*random.choose(&[int(7), loc(7)])]),
                _ => record.tuple(&vec![int(1); random.between(1, 4)]),
            },
        );
    }

    /// Goes up to a limit, or so many past it.
    fn reach_a_limit(&mut self, random: &mut Random, past: usize) {
        match random.below(5) {
            0 => self.add_tables(random, 8 + past),
            1 => self.add_rows(random, 16 + past),
            2 => self.add_up_to(128 + past, node(DROP, END).name(b"none").at(loc(0)), is_node),
            3 => self.add_up_to(8 + past, start(0, 0), |kind| kind == START),
            _ => self.records.resize((256 + past).max(self.records.len()), pick(0, 0)),
        }
    }

    fn add_up_to(&mut self, count: usize, record: Record, kinds: impl Fn(u8) -> bool) {
        while self.places(&kinds).len() < count {
            self.add(record);
        }
    }

    /// New tables; one past the limit may be a repeated one.
    fn add_tables(&mut self, random: &mut Random, count: usize) {
        let present = self.places(|kind| kind == TABLE).len();
        for number in present..count {
            let letter = if number >= 8 && random.chance(40) { b'g' } else { b'a' + number as u8 };
            self.add(table(5, &[b'@', letter, b' ', b' '], &[INT]));
        }
    }

    /// Fills one table; a row past the limit may be one that doesn't fit.
    fn add_rows(&mut self, random: &mut Random, count: usize) {
        let name = b"rows";
        self.add(table(6, name, &[INT]));
        for number in 0..count {
            let unfit = number >= 16 && random.chance(40);
            let value = if unfit { loc(1) } else { int(random.below(3) as i32) };
            self.add(row(6, name, &[value]));
        }
    }

    /// A next, body or start that names no node, or one that is not above.
    fn misdirect(&mut self, random: &mut Random) {
        let nodes = self.places(is_node);
        let Some(place) = self.place(random, |kind| is_node(kind) || kind == START) else {
            return;
        };
        let own = nodes.iter().filter(|node| **node < place).count();
        let missing = match random.chance(50) {
            true => nodes.len() as u8,
            false => random.between(nodes.len().min(254), 254) as u8,
        };
        let back = if random.chance(50) { own } else { random.below(own + 1) } as u8;
        let target = if random.chance(50) { missing } else { back };
        let record = self.records[place];
        self.records[place] = match record.kind() {
            START => record.byte(2, *random.choose(&[missing, 255])),
            SEQUENTIAL.. if random.chance(50) => record.body(*random.choose(&[target, 255])),
            _ => record.next(target),
        };
    }
}

fn any(_: u8) -> bool {
    true
}

fn is_node(kind: u8) -> bool {
    (16..=26).contains(&kind)
}

fn group(kind: u8) -> u8 {
    if is_node(kind) {
        16
    } else {
        kind
    }
}

pub fn unknown_kind(random: &mut Random) -> u8 {
    if random.chance(50) {
        return *random.choose(&[0, 4, 15, 27, 31, 34, 255]);
    }
    random.between(usize::from(PICK) + 1, 255) as u8
}

/// Breaks a field, an operand, or any byte but the kind.
pub fn break_fields(random: &mut Random, record: Record) -> Record {
    match random.below(3) {
        0 => {
            let at = *random.choose(small_fields(record.kind()));
            record.byte(at, *random.choose(&[0, 1, 2, 3, 4, 5, 8, 255]))
        }
        1 => {
            let at = 8 * random.between(2, 12);
            let operand = any_operand(random);
            (0..8).fold(record, |record, offset| record.byte(at + offset, operand[offset]))
        }
        _ => break_a_byte(random, record),
    }
}

/// The bytes of a kind of record that hold small numbers.
fn small_fields(kind: u8) -> &'static [usize] {
    match kind {
        ALIAS => &[1, 2, 3],
        TABLE => &[1, 8, 9, 10, 11],
        AGGREGATE => &[3, 10, 11],
        kind if is_node(kind) => &[2, 3, 8, 9, 10, 11],
        _ => &[1, 3],
    }
}

/// An operand of any tag; where it stands it may not be allowed.
fn any_operand(random: &mut Random) -> Operand {
    let variable = random.below(17) as u8;
    *random.choose(&[
        [0; 8],
        int(-1),
        text(b"aZ~ "),
        text(b"aZ\x7F "),
        loc(7),
        loc(8),
        var(variable),
        plus(variable, 1),
        formal(variable),
        [7, 0, 0, 0, 0, 0, 0, 0],
    ])
}

fn break_a_byte(random: &mut Random, record: Record) -> Record {
    let at = random.between(1, SIZE - 1);
    let old = record.0[at];
    let new = match random.below(4) {
        0 => old ^ (1 << random.below(8)),
        1 => old.wrapping_add(1),
        2 => *random.choose(&[5, 6, 7, 8, 0x1F, 0x20, 0x7E, 0x7F, 0x80]),
        _ => random.byte(),
    };
    record.byte(at, new)
}
