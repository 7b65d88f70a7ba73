//! The numbers of faults and refusals, with what is wrong and what to do: the one table of the
//! tools, in the words of the README.

use crate::error::Error;

/// What a number says.
pub struct Number {
    pub number: u8,
    pub wrong: &'static str,
    pub advice: &'static str,
}

/// The entry of a number; None for one that no engine gives.
pub fn number(number: u8) -> Option<&'static Number> {
    NUMBERS.iter().find(|entry| entry.number == number)
}

/// The report on a file that loading refuses.
pub fn refused_file(name: &str, number: u8, place: usize) -> String {
    Error::refused_file(number, place).shown(name, "")
}

/// What to do about a number, as a line of its own.
pub fn advice(number: u8) -> String {
    self::number(number).map_or_else(String::new, |entry| format!("what to do: {}\n", entry.advice))
}

/// A refusal as netrun prints it, with what is wrong.
pub fn refusal(number: u8, place: usize) -> String {
    let wrong = self::number(number).map_or("this number is unknown", |entry| entry.wrong);
    refusal_that(number, place, wrong)
}

/// The same with other words on what is wrong.
pub fn refusal_that(number: u8, place: usize, wrong: &str) -> String {
    format!("load {number} at {place}: {wrong}")
}

const fn entry(number: u8, wrong: &'static str, advice: &'static str) -> Number {
    Number { number, wrong, advice }
}

static NUMBERS: &[Number] = &[
    entry(
        1,
        "the length is no multiple of 104; the place counts the whole records",
        "look for a cut or padded file: the last record is incomplete",
    ),
    entry(
        2,
        "over 256 records; the place is 256",
        "split the script: fewer rows or picks in one file",
    ),
    entry(3, "the kind is unknown", "correct byte 0 of the record at that place"),
    entry(
        4,
        "a field, tag or unused byte breaks its rule",
        "compare the record with the table of kinds under Files; zero what its kind does \
         not use; names and texts are bytes 0x20..0x7E",
    ),
    entry(
        5,
        "its group comes before that of an earlier record",
        "order the file: aliases, tables, rows, nodes, starts, picks",
    ),
    entry(
        6,
        "this alias (site and locality) or table (site and name) came before",
        "remove one of the two, or rename it",
    ),
    entry(
        7,
        "the row's table is absent, or the row does not fit",
        "put its table among the table records, before all rows; give as many values as \
         columns, of their kinds",
    ),
    entry(
        8,
        "the 9th table or start, 129th node, or 17th row of its table",
        "stay within the limits: merge scripts, or spread rows over tables",
    ),
    entry(
        9,
        "next (unless 255) or a loop's body is not above its own node's number, or one of \
         these or a start names no node of the file",
        "give next and body a higher number than their own node's, below the number of \
         nodes; end with next 255",
    ),
    entry(
        10,
        "the net is not sound",
        "it was not made by `load` and `step` alone: build it from a file",
    ),
    entry(
        11,
        "no thread has that place",
        "the thread has ended or never was; threads close up when one ends",
    ),
    entry(
        12,
        "a variable read in the predicate or in t is unbound and no formal of T, one read \
         in L, T or T' is unbound, or the table variable read is",
        "make it a formal of T, or bind it first: variables by a loop or an aggregate, \
         table variables by a select or a delete; what a round of a loop binds ends with that \
         round",
    ),
    entry(
        13,
        "L is no Loc, or its locality has no alias at the thread's site",
        "add the alias, or correct the locality",
    ),
    entry(
        14,
        "no such table at the site that L means (not for create); paging: no such table at \
         the site given",
        "create it first, or correct name, locality or site; names are compared exactly",
    ),
    entry(15, "create: the table is there", "drop it first, or leave the create out"),
    entry(
        16,
        "T is not as long as the columns, a row or table to insert does not fit, or the \
         column of functions 2 to 4 is absent or no Int",
        "match T, t or the inserted table variable to the columns of the table, or of the \
         table variable read; a sum outside 32 bits in t gives no value, so it fits \
         nothing",
    ),
    entry(
        17,
        "a loop entry of this thread holds the table variable to be bound, also with no \
         row left",
        "bind the other table variable, or let the loop go to its next",
    ),
    entry(
        18,
        "the aggregate is a least or largest of no rows, leaves 32 bits, or fails T'",
        "make sure that rows match; sum fewer rows; take a formal as T'",
    ),
    entry(
        19,
        "a matching row is left to visit, but the pick's row place is not one",
        "pick a row place that is still to visit and matches T",
    ),
    entry(
        20,
        "a limit on rows, tables, threads or stack entries would be passed",
        "delete or drop first, or let threads and loops end",
    ),
    entry(
        21,
        "writing: the buffer is too short",
        "lend a longer one: 104 bytes for each table and each row",
    ),
    entry(
        22,
        "paging: the buffer is shorter than the page",
        "lend a longer one: 53 bytes for each row and 53 more",
    ),
];

#[cfg(test)]
mod tests {
    use super::*;

    /// The rows of the README's table of numbers.
    fn rows_of_readme() -> Vec<[&'static str; 3]> {
        let readme = include_str!("../../../README.md");
        let (_, section) = readme.split_once("## The numbers\n").expect("the section");
        let table = section.split("\n## ").next().expect("its end").lines();
        let rows = table.filter_map(|line| line.strip_prefix("| ")?.strip_suffix(" |"));
        rows.skip(1).map(|row| cells(row)).collect()
    }

    fn cells(row: &'static str) -> [&'static str; 3] {
        let cells: Vec<&str> = row.split(" | ").collect();
        cells.try_into().expect("number, what is wrong, what to do")
    }

    #[test]
    fn the_table_is_that_of_the_readme() {
        let shown: Vec<[String; 3]> = NUMBERS
            .iter()
            .map(|entry| [&entry.number.to_string(), entry.wrong, entry.advice].map(str::to_owned))
            .collect();
        assert_eq!(rows_of_readme(), shown);
    }

    #[test]
    fn a_report_says_what_is_wrong_and_what_to_do() {
        let report =
            "net: load 6 at 3: this alias (site and locality) or table (site and name) came \
                      before\nwhat to do: remove one of the two, or rename it\n";
        assert_eq!(refused_file("net", 6, 3), report);
        assert_eq!(refused_file("net", 99, 0), "net: load 99 at 0: this number is unknown\n");
    }
}
