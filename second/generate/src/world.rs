//! The still part of a net: sites, aliases, tables and rows, and the values they are made of.

use crate::random::Random;
use crate::record::{alias, int, loc, row, table, text, Name, Operand, Record, INT, LOC, TEXT};

/// Names alike but for case, and at the edges of the bytes allowed.
const NAMES: [&Name; 9] =
    [b"CARD", b"card", b"Card", b"NUMS", b"nums", b"HOPS", b"    ", b"~~~~", b"a[_z"];

/// Texts alike but for case, and around the letters in byte order.
const TEXTS: [&Name; 16] = [
    b"RIG1", b"rig1", b"Rig1", b"teal", b"TEAL", b"tEa ", b"A   ", b"a   ", b"Z   ", b"z   ",
    b"[   ", b"_   ", b"`   ", b"~~~~", b"    ", b"A_  ",
];

const EDGES: [i32; 8] =
    [i32::MAX, i32::MIN, i32::MAX - 1, i32::MIN + 1, 1 << 30, -(1 << 30), i32::MAX - 2, 1 << 24];

#[derive(Clone)]
pub struct TablePlan {
    pub site: u8,
    pub name: Name,
    pub columns: Vec<u8>,
    pub rows: Vec<Vec<Operand>>,
}

pub struct World {
    /// The sites that threads start at.
    pub homes: Vec<u8>,
    pub aliases: Vec<[u8; 3]>,
    pub tables: Vec<TablePlan>,
}

/// How large a world to make.
#[derive(Clone, Copy)]
pub struct Size {
    pub tables: (usize, usize),
    pub rows: (usize, usize),
    /// The share of Ints at the edges of 32 bits, in percent.
    pub edges: usize,
    /// The share of tables that hold one Int alone, the least or the largest, in percent. Their
    /// sums need all the places of a page's cell.
    pub heavy: usize,
}

pub fn name(random: &mut Random) -> Name {
    **random.choose(&NAMES)
}

pub fn kind(random: &mut Random) -> u8 {
    random.weighted(&[(5, INT), (3, TEXT), (2, LOC)])
}

pub fn columns(random: &mut Random) -> Vec<u8> {
    let count = random.weighted(&[(4, 1), (6, 2), (3, 3), (2, 4)]);
    (0..count).map(|_| kind(random)).collect()
}

pub fn edge(random: &mut Random) -> i32 {
    *random.choose(&EDGES)
}

pub fn value(random: &mut Random, kind: u8, edges: usize) -> Operand {
    match kind {
        INT if random.chance(edges) => int(edge(random)),
        INT => int(random.below(7) as i32 - 2),
        TEXT if random.chance(8) => text(&[(); 4].map(|()| random.between(0x20, 0x7E) as u8)),
        TEXT => text(random.choose::<&Name>(&TEXTS)),
        _ => loc(random.below(8) as u8),
    }
}

fn rows(random: &mut Random, columns: &[u8], size: Size) -> Vec<Vec<Operand>> {
    let count = random.between(size.rows.0, size.rows.1).min(16);
    let extreme = random.chance(size.heavy).then(|| *random.choose(&[i32::MIN, i32::MAX]));
    let mut rows: Vec<Vec<Operand>> = Vec::new();
    while rows.len() < count {
        if !rows.is_empty() && random.chance(15) {
            rows.push(random.choose(&rows).clone());
            continue;
        }
        let values = columns.iter().map(|kind| match (*kind, extreme) {
            (INT, Some(extreme)) => int(extreme),
            (kind, _) => value(random, kind, size.edges),
        });
        rows.push(values.collect());
    }
    rows
}

impl World {
    pub fn new(random: &mut Random, size: Size) -> World {
        let homes: Vec<u8> = (0..random.between(1, 3)).map(|_| random.below(8) as u8).collect();
        let mut sites = homes.clone();
        sites.push(random.below(8) as u8);
        let mut world = World { homes, aliases: Vec::new(), tables: Vec::new() };
        for _ in 0..random.between(size.tables.0, size.tables.1) {
            world.add_table(random, &sites, size);
        }
        world.add_aliases(random, &sites);
        world
    }

    fn add_table(&mut self, random: &mut Random, sites: &[u8], size: Size) {
        let (site, name) = (*random.choose(sites), name(random));
        if self.tables.iter().any(|table| table.site == site && table.name == name) {
            return;
        }
        // Tables of like columns can be inserted into each other.
        let columns = match self.tables.last() {
            Some(table) if random.chance(40) => table.columns.clone(),
            _ => columns(random),
        };
        let rows = rows(random, &columns, size);
        self.tables.push(TablePlan { site, name, columns, rows });
    }

    fn add_aliases(&mut self, random: &mut Random, sites: &[u8]) {
        let mut homes = self.homes.clone();
        homes.sort_unstable();
        homes.dedup();
        for site in homes {
            for locality in 1..8 {
                if random.chance(60) {
                    let meant = *random.choose(sites);
                    self.aliases.push([site, locality, meant]);
                }
            }
        }
    }

    /// The site that a locality means at a site.
    pub fn meant(&self, site: u8, locality: u8) -> Option<u8> {
        let alias = self.aliases.iter().find(|alias| alias[..2] == [site, locality]);
        if locality == 0 {
            Some(site)
        } else {
            alias.map(|alias| alias[2])
        }
    }

    pub fn records(&self, random: &mut Random) -> Vec<Record> {
        let aliases =
            self.aliases.iter().map(|[site, locality, meant]| alias(*site, *locality, *meant));
        let tables = self.tables.iter().map(|plan| table(plan.site, &plan.name, &plan.columns));
        let mut records: Vec<Record> = aliases.chain(tables).collect();
        let mut left: Vec<_> = self.tables.iter().map(|plan| (plan, plan.rows.iter())).collect();
        // Rows of several tables may come in turns.
        let in_turns = random.chance(30);
        while !left.is_empty() {
            let chosen = if in_turns { random.below(left.len()) } else { 0 };
            let (plan, rows) = &mut left[chosen];
            match rows.next() {
                Some(values) => records.push(row(plan.site, &plan.name, values)),
                None => drop(left.remove(chosen)),
            }
        }
        records
    }
}
