//! The call for a page gives what the second engine gives, at every site and for every name: the
//! number, the place and every byte of the buffer.

use crate::{picks_for, stand_in};
use embed::{page, page_into, tables, Call, Pick, Refused, LINE_BYTES, PAGE_BYTES, RECORD_BYTES};
use generate::{examples, file, Class};
use std::collections::BTreeSet;

const FILES: u64 = 400;

/// A byte that no page has, to show which bytes were left.
const LEFT: u8 = 7;

type Name = [u8; 4];

/// A call for a page, and what it comes to with a buffer of so many bytes.
type Paging = fn(&[u8], &[Pick], u8, Name, &mut [u8]) -> Result<usize, Refused>;
type Paged = (Result<usize, Refused>, Vec<u8>);

/// A table to ask for, which may not be there, after some picks of a file.
struct Asked<'a> {
    file: &'a [u8],
    picks: &'a [Pick],
    site: u8,
    name: Name,
}

impl Asked<'_> {
    fn paged(&self, call: Paging, room: usize) -> Paged {
        let mut out = vec![LEFT; room];
        (call(self.file, self.picks, self.site, self.name, &mut out), out)
    }

    /// Both engines agree, whatever the buffer. Gives back whether there is a page.
    fn agrees(&self, label: &str) -> bool {
        let (given, out) = self.paged(stand_in::page_into, PAGE_BYTES);
        let whole = given.map(|length| out[..length].to_vec());
        assert_eq!(page(self.file, self.picks, self.site, self.name), whole, "{label}");
        let rooms = match given {
            Ok(length) => vec![0, length - 1, length, length + 1, PAGE_BYTES + LINE_BYTES],
            Err(_) => vec![0, PAGE_BYTES],
        };
        for room in rooms {
            let expected = self.paged(stand_in::page_into, room);
            assert_eq!(self.paged(page_into, room), expected, "{label} with room for {room}");
        }
        given.is_ok()
    }
}

/// The names in a file, each also in the other case, and some that no table can have.
fn names(file: &[u8]) -> BTreeSet<Name> {
    let records: &[[u8; RECORD_BYTES]] = file.as_chunks().0;
    let named = records.iter().map(|record| [record[4], record[5], record[6], record[7]]);
    let other_case = |byte: u8| if byte.is_ascii_alphabetic() { byte ^ 0x20 } else { byte };
    let cases = named.flat_map(|name| [name, name.map(other_case)]);
    cases.chain([[0; 4], [255; 4], *b"\0CAR"]).collect()
}

/// Both engines agree on every name at every site, and at two that no net has, before the first
/// pick and after the last. Gives back how many pages there are.
fn agree(file: &[u8], label: &str) -> usize {
    let (names, picks) = (names(file), picks_for(file));
    let sites = (0..=8).chain([255]);
    let asked = sites.flat_map(|site| names.iter().map(move |name| (site, *name)));
    let asked = asked.flat_map(|(site, name)| [&[][..], &picks].map(|picks| (site, name, picks)));
    let pages = asked.filter(|(site, name, picks)| {
        let label = format!("{label}, {} at {site}, {} picks", name.escape_ascii(), picks.len());
        Asked { file, picks, site: *site, name: *name }.agrees(&label)
    });
    pages.count()
}

#[test]
fn pages_of_examples() {
    let pages = |example: &examples::Example| agree(&example.file, example.name);
    assert!(examples::all().iter().map(pages).sum::<usize>() > 200);
}

#[test]
fn pages_of_generated_files() {
    let pages = |seed| agree(&file(Class::Mixed, seed), &format!("seed {seed}"));
    assert!((0..FILES).map(pages).sum::<usize>() > 1_000);
}

/// One after another, each below netrun's line of its table, the pages are what netpage prints.
#[test]
fn pages_are_those_that_netpage_prints() {
    let examples = examples::all();
    let stored = examples.iter().filter_map(|example| Some((example, example.page.as_ref()?)));
    for (example, expected) in stored {
        let picks = picks_for(&example.file);
        let printed = match tables(&example.file, &picks) {
            Ok(records) => printed(&example.file, &picks, &records),
            Err(Refused { number, place }) => format!("load {number} at {place}\n"),
        };
        assert_eq!(&printed, expected, "{}", example.name);
    }
}

/// The lines and pages of the tables among these records.
fn printed(file: &[u8], picks: &[Pick], records: &[u8]) -> String {
    let records: &[[u8; RECORD_BYTES]] = records.as_chunks().0;
    let tables = records.iter().filter(|record| record[0] == 2);
    let shown = tables.map(|&[_, site, _, _, a, b, c, d, ..]| {
        let name = [a, b, c, d];
        let page = page(file, picks, site, name).expect("a table that stands");
        let (rows, text) = (page.len() / LINE_BYTES - 1, String::from_utf8_lossy);
        format!("table {site} {} {rows}\n{}", text(&name), text(&page))
    });
    shown.collect()
}

fn year() -> Vec<u8> {
    let path = concat!(env!("CARGO_MANIFEST_DIR"), "/../../examples/page.net");
    std::fs::read(path).expect("a stored example")
}

/// Twelve rows and their sums, whatever the length of the buffer.
#[test]
fn a_buffer_of_every_length() {
    let (file, length) = (year(), 13 * LINE_BYTES);
    let asked = Asked { file: &file, picks: &picks_for(&file), site: 1, name: *b"CARD" };
    let whole = page(&file, asked.picks, 1, *b"CARD").expect("a table that stands");
    for room in 0..length {
        let short = Err(Refused { number: 22, place: length });
        assert_eq!(asked.paged(page_into, room), (short, vec![LEFT; room]));
    }
    for room in length..length + 60 {
        let (put, out) = asked.paged(page_into, room);
        assert_eq!((put, &out[..length]), (Ok(length), &whole[..]));
        assert!(out[length..].iter().all(|byte| *byte == LEFT), "a byte after the page");
    }
}

/// The earlier number is given, where a later one would do too, and the buffer stays as it was.
#[test]
fn refusals_come_in_their_order() {
    let file = year();
    let records = file.len() / RECORD_BYTES;
    let (there, absent) =
        (Call::Page { site: 1, name: *b"CARD" }, Call::Page { site: 9, name: [0; 4] });
    let refused = |call: Call, file: &[u8], picks: &[u8], room: usize| {
        let mut out = vec![LEFT; room];
        let given = call.on(file, picks, &mut out);
        assert_eq!(out, vec![LEFT; room]);
        given
    };
    for room in [0, 52, 583] {
        assert_eq!(refused(absent, &file[1..], &[0], room), (100, 0));
        assert_eq!(refused(absent, &file[1..], &[], room), (1, records - 1));
        assert_eq!(refused(absent, &file, &[], room), (14, 0));
        assert_eq!(refused(there, &file, &[], room), (22, 12 * LINE_BYTES));
    }
}
