//! The header's names stand for the numbers that README and crate know.

use crate::compiled::{compile, printed, Language};
use crate::header;
use embed::{Answer, Thread};
use embed::{CELL_BYTES, LINE_BYTES, MOMENT_BYTES, PAGE_BYTES};
use embed::{PICKS_BYTES, RECORD_BYTES, TABLES_BYTES, THREADS_BYTES};

/// All names of the header's enums, in its order.
const NAMES: [(&str, usize); 41] = [
    ("RECORD_BYTES", RECORD_BYTES),
    ("ANSWER_BYTES", Answer::SIZE),
    ("THREAD_BYTES", Thread::SIZE),
    ("CELL_BYTES", CELL_BYTES),
    ("LINE_BYTES", LINE_BYTES),
    ("TABLES_BYTES", TABLES_BYTES),
    ("THREADS_BYTES", THREADS_BYTES),
    ("MOMENT_BYTES", MOMENT_BYTES),
    ("PAGE_BYTES", PAGE_BYTES),
    ("PICKS_BYTES", PICKS_BYTES),
    ("DONE", 0),
    ("LENGTH", 1),
    ("RECORDS", 2),
    ("UNKNOWN_KIND", 3),
    ("FIELD", 4),
    ("ORDER", 5),
    ("TWICE", 6),
    ("ROW", 7),
    ("FILE_LIMIT", 8),
    ("LINK", 9),
    ("NO_THREAD", 11),
    ("UNBOUND", 12),
    ("NO_SITE", 13),
    ("NO_TABLE", 14),
    ("TABLE_THERE", 15),
    ("MISFIT", 16),
    ("HELD", 17),
    ("AGGREGATE", 18),
    ("ROW_PLACE", 19),
    ("LIMIT", 20),
    ("SHORT", 21),
    ("SHORT_FOR_PAGE", 22),
    ("ODD_PICKS", 100),
    ("KIND_TABLE", 2),
    ("KIND_ROW", 3),
    ("KIND_MOMENT", 64),
    ("KIND_THREAD", 65),
    ("KIND_VARIABLE", 66),
    ("KIND_TABLE_VARIABLE", 67),
    ("KIND_TABLE_VARIABLE_ROW", 68),
    ("KIND_ENTRY", 69),
];

/// The names that the header gives a number.
fn declared(header: &str) -> Vec<&str> {
    let names = header.lines().filter_map(|line| line.trim_start().strip_prefix("TIVGERAL_"));
    names.filter_map(|line| Some(line.split_once(" = ")?.0)).collect()
}

#[test]
fn every_name_stands_for_its_number() {
    let names: Vec<&str> = NAMES.iter().map(|(name, _)| *name).collect();
    assert_eq!(declared(&header()), names);
    let print = |name: &str| format!("    printf(\"%d\\n\", (int)TIVGERAL_{name});\n");
    let prints: String = names.iter().map(|name| print(name)).collect();
    let start = "#include <stdio.h>\n#include \"tivgeral.h\"\nint main(void) {\n";
    let source = format!("{start}{prints}    return 0;\n}}\n");
    let printed = printed(&compile("names", &source, Language::C, &[]), b"");
    let values: Vec<usize> = printed.lines().filter_map(|line| line.parse().ok()).collect();
    assert_eq!(names.into_iter().zip(values).collect::<Vec<_>>(), NAMES);
}
