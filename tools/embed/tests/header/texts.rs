//! What the header's `tivgeral_text` says is what the README says.

use crate::compiled::{compile, printed, root, Language};
use std::fs;

/// The net is not sound. Nets that calls run come from files, so none of them gives this number.
const UNSOUND: &str = "10";

/// Prints each number that has a text, with it.
const TEXTS: &str = "\
#include <limits.h>
#include <stdio.h>
#include \"tivgeral.h\"

static void print(unsigned number) {
    if (tivgeral_text(number) != NULL)
        printf(\"%u: %s\\n\", number, tivgeral_text(number));
}

int main(void) {
    for (unsigned number = 0; number < 1000; number++)
        print(number);
    print(UINT_MAX);
    return 0;
}
";

/// Number and meaning of each row of the README's table.
fn rows(readme: &str) -> Vec<(&str, &str)> {
    let (_, section) = readme.split_once("## The numbers\n").expect("the section");
    let rows = section.lines().filter_map(|line| line.strip_prefix("| ")?.split_once(" | "));
    let rows = rows.filter_map(|(number, rest)| Some((number, rest.split_once(" | ")?.0)));
    rows.skip(1).collect()
}

/// All other numbers have no text.
#[test]
fn numbers_say_what_the_readme_says() {
    let readme = fs::read_to_string(root().join("README.md")).expect("the README");
    let rows = rows(&readme);
    assert_eq!(rows.len(), 22);
    let (_, rest) = readme.split_once("one number more, 100: ").expect("the calls' own number");
    let (odd, _) = rest.split_once(';').expect("what is wrong");
    let shown = rows.into_iter().filter(|(number, _)| *number != UNSOUND);
    let shown = [("0", "done")].into_iter().chain(shown).chain([("100", odd)]);
    let shown: String = shown.map(|(number, wrong)| format!("{number}: {wrong}\n")).collect();
    for language in Language::all() {
        assert_eq!(printed(&compile("texts", TEXTS, language, &[]), b""), shown);
    }
}
