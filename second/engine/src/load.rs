//! Loading a file: record by record, the first fault ends it.

use crate::net::{Net, Node, Pick, Table, Thread, NODES, TABLES, THREADS};
use crate::number;
use crate::quirk::{wrong, Quirk};
use crate::record::{decode, group, Record, KIND, SIZE};
use crate::relation::{fits, Columns, Relation, Row};
use crate::sound::targets_exist;
use crate::value::{Locality, Site, Text};

const RECORDS: usize = 256;

/// Why a file is refused, and at which record.
#[derive(Clone, Copy, PartialEq, Eq, Debug)]
pub struct Fault {
    pub number: u8,
    pub place: usize,
}

pub fn load(file: &[u8]) -> Result<(Net, Vec<Pick>), Fault> {
    let (records, rest) = file.as_chunks::<SIZE>();
    if !rest.is_empty() {
        return Err(Fault { number: number::LENGTH, place: records.len() });
    }
    if records.len() > RECORDS {
        return Err(Fault { number: number::RECORDS, place: RECORDS });
    }
    let mut loading = Loading::new(records.len());
    for (place, record) in records.iter().enumerate() {
        loading.take(record).map_err(|number| Fault { number, place })?;
    }
    loading.check_targets()?;
    Ok((loading.net, loading.picks))
}

/// The net and picks so far.
struct Loading {
    net: Net,
    picks: Vec<Pick>,
    group: u8,
    before_nodes: usize,
}

impl Loading {
    fn new(records: usize) -> Loading {
        let mut net = Net::default();
        net.nodes.reserve_exact(records.min(NODES));
        // Room for all that steps may add.
        net.tables.reserve_exact(TABLES);
        net.threads.reserve_exact(THREADS);
        Loading { net, picks: Vec::new(), group: 0, before_nodes: 0 }
    }

    /// Checks 3 to 8 on one record.
    fn take(&mut self, bytes: &[u8; SIZE]) -> Result<(), u8> {
        let group = group(bytes[KIND]).ok_or(number::KIND)?;
        let record = decode(bytes).ok_or(number::FIELD)?;
        if group < self.group {
            return Err(number::ORDER);
        }
        self.group = group;
        match record {
            Record::Alias { site, locality, meant } => self.alias(site, locality, meant)?,
            Record::Table { site, name, columns } => self.table(site, name, columns)?,
            Record::Row { site, name, row } => self.row(site, name, row)?,
            Record::Node(node) => return self.node(node),
            Record::Start { site, node } => return self.start(site, node),
            Record::Pick(pick) => {
                self.picks.push(pick);
                return Ok(());
            }
        }
        self.before_nodes += 1;
        Ok(())
    }

    fn alias(&mut self, site: Site, locality: Locality, meant: Site) -> Result<(), u8> {
        let alias = &mut self.net.aliases.0[usize::from(site.0)][usize::from(locality.0)];
        if alias.is_some() {
            return Err(number::REPEATED);
        }
        *alias = Some(meant);
        Ok(())
    }

    fn find(&mut self, site: Site, name: Text) -> Option<&mut Table> {
        self.net.tables.iter_mut().find(|table| table.site == site && table.name == name)
    }

    fn table(&mut self, site: Site, name: Text, columns: Columns) -> Result<(), u8> {
        if self.find(site, name).is_some() {
            return Err(number::REPEATED);
        }
        if self.net.tables.len() >= TABLES {
            return Err(number::TOO_MANY);
        }
        self.net.tables.push(Table { site, name, relation: Relation::new(columns) });
        Ok(())
    }

    fn row(&mut self, site: Site, name: Text, row: Row) -> Result<(), u8> {
        let table = self.find(site, name).ok_or(number::MISFIT_ROW)?;
        let relation = &mut table.relation;
        if relation.rows.is_full() && wrong(Quirk::RowLimitFirst) {
            return Err(number::TOO_MANY);
        }
        if !fits(&relation.columns, &row) {
            return Err(number::MISFIT_ROW);
        }
        if relation.rows.is_full() {
            return Err(number::TOO_MANY);
        }
        relation.rows.push(row);
        Ok(())
    }

    fn node(&mut self, node: Node) -> Result<(), u8> {
        let number = self.net.nodes.len();
        if number >= NODES {
            return Err(number::TOO_MANY);
        }
        if wrong(Quirk::EagerNext) && node.next.is_some_and(|next| usize::from(next) <= number) {
            return Err(number::NO_NODE);
        }
        self.net.nodes.push(node);
        Ok(())
    }

    fn start(&mut self, site: Site, node: u8) -> Result<(), u8> {
        if self.net.threads.len() >= THREADS {
            return Err(number::TOO_MANY);
        }
        self.net.threads.push(Thread::new(site, node));
        Ok(())
    }

    /// Check 9. Nodes and then starts follow each other in the file, so their places are known.
    fn check_targets(&self) -> Result<(), Fault> {
        let count = self.net.nodes.len();
        let nodes = self.net.nodes.iter().enumerate();
        let starts = self.net.threads.iter();
        let faulty = nodes.map(|(number, node)| !targets_exist(node, number, count)).chain(
            starts.map(|thread| thread.stack.iter().any(|top| usize::from(top.node()) >= count)),
        );
        match faulty.enumerate().find(|(_, faulty)| *faulty) {
            Some((offset, _)) => {
                Err(Fault { number: number::NO_NODE, place: self.before_nodes + offset })
            }
            None => Ok(()),
        }
    }
}
