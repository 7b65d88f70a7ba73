//! The text of files that loading refuses: what reads is a statement, the rest a comment.

use engine::{decode, load, RECORD_SIZE};
use generate::{examples, file, sweep, Class};
use nettext::{assemble, dump, dump_unchecked, refused_file};

fn text(file: &[u8]) -> String {
    let mut text = Vec::new();
    dump_unchecked(file, &mut text).expect("room in memory");
    String::from_utf8(text).expect("a text")
}

fn every_record_reads(file: &[u8]) -> bool {
    let (records, rest) = file.as_chunks::<RECORD_SIZE>();
    rest.is_empty() && records.iter().all(|record| decode(record).is_some())
}

/// The refusal as comments, with all that loading says.
fn mark(file: &[u8]) -> String {
    let fault = load(file).expect_err("a refused file");
    let report = refused_file("", fault.number, fault.place);
    report.trim_start_matches(": ").lines().map(|line| format!("# {line}\n")).collect()
}

/// Whether the file is refused; its text is as it should be.
fn shown(file: &[u8]) -> bool {
    let text = text(file);
    if let Ok(dumped) = dump(file) {
        assert_eq!(text, dumped);
        return false;
    }
    let plain = text.replace("    # ", "# ");
    assert_eq!(plain.matches(&mark(file)).count(), 1, "{text}");
    match assemble(&text) {
        Ok(assembled) if every_record_reads(file) => assert!(assembled.file == file, "{text}"),
        Ok(_) => {}
        Err(errors) => panic!("{}{text}", errors.shown("dump", &text)),
    }
    true
}

#[test]
fn damaged_files() {
    let refused = (0..500).filter(|seed| shown(&file(Class::Damaged, *seed))).count();
    assert!(refused > 300, "{refused}");
}

#[test]
fn files_with_one_byte_changed() {
    let refused = (0..sweep::round() as u64).filter(|index| shown(&file(Class::Sweep, *index)));
    assert!(refused.count() > 500);
}

#[test]
fn examples_computed_by_hand() {
    let refused = examples::all().iter().filter(|example| shown(&example.file)).count();
    assert!(refused > 40, "{refused}");
}

/// netasm refuses the text of a refused file by the same number, at the same record.
#[test]
fn the_text_is_refused_alike() {
    let mut seen = [0; 10];
    for seed in 0..5_000 {
        let file = file(Class::Damaged, seed);
        let Err(fault) = load(&file) else {
            continue;
        };
        if !every_record_reads(&file) {
            continue;
        }
        let assembled = assemble(&text(&file)).expect("a text that is well formed");
        let errors = assembled.check().expect_err("a net that is refused");
        let first = &errors.told()[0].message;
        let number = format!("load {} at {}: ", fault.number, fault.place);
        assert!(first.starts_with(&number), "{number} and not {first}");
        // In the words of the text, and not those of the table of numbers.
        assert!(!refused_file("", fault.number, fault.place).contains(first.as_str()), "{first}");
        seen[usize::from(fault.number)] += 1;
    }
    assert!([2, 5, 6, 7, 8, 9].iter().all(|number| seen[*number] > 50), "{seen:?}");
}

const PICK: [u8; RECORD_SIZE] = {
    let mut bytes = [0; RECORD_SIZE];
    bytes[0] = 33;
    bytes
};

#[test]
fn records_that_do_not_read() {
    let mut unknown = PICK;
    unknown[0] = 9;
    let mut unused = PICK;
    unused[12] = 5;
    let zeros = |count: usize| " 0000000000000000".repeat(count);
    let expected = format!(
        "\
# Loading refuses this file: load 1 at 3, marked below.

pick thread 0 row 0
# record 1: the kind 9 is unknown: 0900000000000000{}
# record 2: a field, tag or unused byte breaks its rule (byte 12): 2100000000000000 \
         0000000005000000{}
{}# record 3: 3 of 104 bytes: 210000
",
        zeros(12),
        zeros(11),
        mark(&[&PICK[..], &unknown, &unused, &PICK[..3]].concat()),
    );
    assert_eq!(text(&[&PICK[..], &unknown, &unused, &PICK[..3]].concat()), expected);
}

#[test]
fn more_than_256_records() {
    let text = text(&PICK.repeat(258));
    let (before, after) = text.split_once("# load 2 at 256: ").expect("the mark");
    assert_eq!(before.matches("pick thread 0 row 0\n").count(), 256);
    assert_eq!(after.matches("pick thread 0 row 0\n").count(), 2);
}

/// Nodes that are not there, and steps parted from their process.
#[test]
fn steps_that_loading_refuses() {
    let net = "\
process n0:
    foreach (!x0) in T0 do node 9 then n1

alias @1 at site 0 is site 1

process n1:
    drop A @self then n0
n2:
    drop B @self then node 3

start n2 at site 0
start node 255 at site 0
";
    let net = net.replace("n2:\n", "\nprocess n2:\n");
    let file = assemble(&net).expect("a text that is well formed").file;
    let text = text(&file);
    let statements: Vec<&str> = text.lines().filter(|line| !line.contains("# ")).collect();
    assert_eq!(statements[1..].join("\n"), net.trim_end(), "{text}");
}
