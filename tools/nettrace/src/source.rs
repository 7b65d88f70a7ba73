//! The net that is traced: its records and, where it came as text, its lines and labels.

use embed::Refused;
use engine::{decode, Aliases, Node, Record};
use nettext::{assemble, no_record, read_text, refused_file, step, text_for_records};
use nettext::{Assembled, Error, Names};

/// What to do where a text was taken for records.
const TEXTS: &str = "nettrace reads a text from a file NAME.nettext, or from any file with --text";

pub struct Source {
    name: String,
    origin: Origin,
}

enum Origin {
    Records(Vec<u8>),
    Text(String, Assembled),
}

/// A step of the net: what it does, how it is written and where.
pub struct Step {
    pub node: Node,
    pub text: String,
    pub place: String,
}

impl Source {
    pub fn of_records(name: &str, file: Vec<u8>) -> Source {
        Source { name: name.to_owned(), origin: Origin::Records(file) }
    }

    /// Fails with the report on records, on what is no text, and on a text that breaks the grammar.
    pub fn of_text(name: &str, bytes: &[u8]) -> Result<Source, String> {
        let text = String::from_utf8_lossy(bytes).into_owned();
        match read_text(bytes).and_then(assemble) {
            Ok(assembled) => {
                Ok(Source { name: name.to_owned(), origin: Origin::Text(text, assembled) })
            }
            Err(errors) => Err(errors.shown(name, &text)),
        }
    }

    pub fn file(&self) -> &[u8] {
        match &self.origin {
            Origin::Records(file) => file,
            Origin::Text(_, assembled) => &assembled.file,
        }
    }

    fn records(&self) -> impl Iterator<Item = (usize, Record)> + '_ {
        let records = self.file().as_chunks().0.iter().enumerate();
        records.filter_map(|(place, record)| Some((place, decode(record)?)))
    }

    /// The steps of a file that loads, by the numbers of their nodes.
    pub fn steps(&self) -> Vec<Step> {
        let nodes = self.records().filter_map(|(place, record)| match record {
            Record::Node(node) => Some((place, node)),
            _ => None,
        });
        nodes.enumerate().map(|(number, (place, node))| self.step(number, place, node)).collect()
    }

    /// As the text has it, else as a dump would.
    fn step(&self, number: usize, record: usize, node: Node) -> Step {
        match &self.origin {
            Origin::Records(_) => {
                let text = step(&node.act, &Names::Numbered);
                Step { node, text, place: format!("node {number}") }
            }
            Origin::Text(source, assembled) => {
                let text = assembled.written(source, record).unwrap_or_default();
                Step { node, text, place: place(assembled, number, record) }
            }
        }
    }

    /// What each locality means at each site, by the file.
    pub fn aliases(&self) -> Aliases {
        let mut aliases = Aliases::default();
        for (_, record) in self.records() {
            if let Record::Alias { site, locality, meant } = record {
                aliases.0[usize::from(site.0)][usize::from(locality.0)] = Some(meant);
            }
        }
        aliases
    }

    /// What loads and is hardly meant, as netasm says it; nothing of a text that loading refuses.
    pub fn warnings(&self) -> String {
        match &self.origin {
            Origin::Text(text, assembled) if assembled.check().is_ok() => {
                assembled.warnings().shown(&self.name, text)
            }
            Origin::Records(file) if file.is_empty() => no_record().shown(&self.name, ""),
            _ => String::new(),
        }
    }

    /// The report on a file that the engine refuses, in the words of the text if there is one.
    pub fn refusal(&self, refused: Refused) -> String {
        let Refused { number, place } = refused;
        match &self.origin {
            Origin::Text(text, assembled) => {
                assembled.refused(number, place).shown(&self.name, text)
            }
            Origin::Records(file) => match text_for_records(file) {
                Some(error) => Error::of_file(&error.message, TEXTS).shown(&self.name, ""),
                None => refused_file(&self.name, number, place),
            },
        }
    }
}

/// The line of a step with its process, and with its own label where that is another.
fn place(assembled: &Assembled, number: usize, record: usize) -> String {
    let line = assembled.place(record).map_or(0, |place| place.line);
    let Names::Labels(labels) = assembled.names() else {
        return format!("line {line}");
    };
    let process = assembled.process(number).and_then(|first| labels.get(&first));
    let process = process.map_or(String::new(), |process| format!(" of {process}"));
    let own = labels.get(&number).filter(|_| assembled.process(number) != Some(number));
    let own = own.map_or(String::new(), |label| format!(" ({label})"));
    format!("line {line}{process}{own}")
}
