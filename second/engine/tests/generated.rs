//! What holds on any generated file: soundness stays, refusals change nothing, accounts balance,
//! what is written loads again, and pages read back as the tables.

use engine::{accounts, load, page, sound, step, step_sound, write, Kind, Net, Pick, Table, Value};
use generate::{file, Class};

const FILES: u64 = 2_500;

fn accepted() -> impl Iterator<Item = (Vec<u8>, Net, Vec<Pick>)> {
    (0..FILES).map(|seed| file(Class::Mixed, seed)).filter_map(|file| {
        let (net, picks) = load(&file).ok()?;
        Some((file, net, picks))
    })
}

#[test]
fn steps_keep_nets_sound_and_refusals_change_nothing() {
    for (_, mut net, picks) in accepted() {
        assert!(sound(&net));
        for pick in picks {
            let before = net.clone();
            let answer = step(&mut net, pick);
            assert!(sound(&net));
            let mut other = before.clone();
            assert_eq!(step_sound(&mut other, pick), answer);
            assert_eq!(other, net);
            assert!(answer.is_ok() || net == before);
        }
    }
}

#[test]
fn accounts_balance_on_any_list_of_picks() {
    let scattered: Vec<Pick> =
        (0..60).map(|i: u8| Pick { thread: i % 3, row: i.wrapping_mul(7) % 5 }).collect();
    for (file, _, picks) in accepted() {
        let backwards: Vec<Pick> = picks.iter().rev().copied().collect();
        for list in [&picks[..], &picks[..picks.len() / 2], &backwards, &scattered, &[]] {
            assert_eq!(accounts::check(&file, list), Ok(()));
        }
    }
}

#[test]
fn written_tables_load_again() {
    let mut buffer = vec![0; 200 * engine::RECORD_SIZE];
    for (_, mut net, picks) in accepted() {
        engine::run(&mut net, &picks);
        let length = write(&net, &mut buffer).expect("room for all tables and rows");
        let (again, picks) = load(&buffer[..length]).expect("what was written");
        assert_eq!(again.tables, net.tables);
        assert!(picks.is_empty() && again.threads.is_empty() && again.nodes.is_empty());
    }
}

#[test]
fn pages_read_back_as_the_tables() {
    let mut buffer = [0; 17 * 53];
    for (_, mut net, picks) in accepted() {
        engine::run(&mut net, &picks);
        for table in &net.tables {
            let length =
                page(&net, table.site, table.name, &mut buffer).expect("room for any page");
            reads_back(table, &buffer[..length]);
        }
    }
}

/// Reads a page cell by cell: the rows are the table's, and the last line has their sums.
fn reads_back(table: &Table, page: &[u8]) {
    let (lines, rest) = page.as_chunks::<53>();
    assert!(rest.is_empty() && lines.iter().all(|line| line[52] == b'\n'));
    let (last, lines) = lines.split_last().expect("a last line");
    let relation = &table.relation;
    assert_eq!(lines.len(), relation.rows.len());
    for place in 0..4 {
        let cell = |line: &[u8; 53]| line[13 * place..13 * place + 13].to_vec();
        let mut sum = 0;
        for (line, row) in lines.iter().zip(relation.rows.iter()) {
            match row.get(place) {
                Some(Value::Int(int)) => {
                    assert_eq!(number(&cell(line)), i64::from(*int));
                    sum += i64::from(*int);
                }
                Some(Value::Text(text)) => assert_eq!(cell(line), left(&text.0)),
                Some(Value::Loc(locality)) => {
                    assert_eq!(cell(line), left(&[b'@', b'0' + locality.0]))
                }
                None => assert_eq!(cell(line), left(b"")),
            }
        }
        match relation.columns.get(place) {
            Some(Kind::Int) => assert_eq!(number(&cell(last)), sum),
            _ => assert_eq!(cell(last), left(b"")),
        }
    }
}

/// The cell of these bytes, left-aligned.
fn left(bytes: &[u8]) -> Vec<u8> {
    [bytes, &vec![b' '; 13 - bytes.len()]].concat()
}

/// The number of a cell: at least one blank, and then its decimal up to the end of the cell.
fn number(cell: &[u8]) -> i64 {
    let cell = String::from_utf8_lossy(cell);
    assert!(cell.starts_with(' '), "{cell}");
    let decimal = cell.trim_start_matches(' ');
    let number: i64 = decimal.parse().expect("a decimal");
    assert_eq!(number.to_string(), decimal);
    number
}
