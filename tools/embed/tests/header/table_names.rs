//! The header's `tivgeral_name` makes the number of a table's name, filled up as netasm does.

use crate::compiled::{compile, printed, Language};

/// Prints the number of each name.
const NUMBERS: &str = r#"
#include <stdio.h>
#include "tivgeral.h"

int main(void) {
    const char *names[] = {"CARD", "LOG", "a b", "", "    ", "~", "CARDS", "CARD ", "\377\200"};
    for (size_t place = 0; place < sizeof names / sizeof *names; place++)
        printf("%lu\n", (unsigned long)tivgeral_name(names[place]));
    return 0;
}
"#;

/// The bytes that stand for the names: no table has four zeros, nor a byte above 0x7E.
const NAMES: [&[u8; 4]; 9] =
    [b"CARD", b"LOG ", b"a b ", b"    ", b"    ", b"~   ", &[0; 4], &[0; 4], b"\xff\x80  "];

#[test]
fn names_have_their_numbers() {
    let numbers = NAMES.map(|name| format!("{}\n", u32::from_be_bytes(*name))).concat();
    for language in Language::all() {
        assert_eq!(printed(&compile("table-names", NUMBERS, language, &[]), b""), numbers);
    }
}
