//! What `include/tivgeral.h` says is so: its version, its names and their numbers, its texts, the
//! numbers of tables' names, and the pages and traces that C programs read by them.

mod compiled;
mod names;
#[cfg(feature = "proved")]
mod page;
#[cfg(feature = "proved")]
mod stored;
mod table_names;
mod texts;
#[cfg(feature = "proved")]
mod trace;

use compiled::{compile, root, Language};
use std::fs;

fn header() -> String {
    fs::read_to_string(root().join("include/tivgeral.h")).expect("the header")
}

#[test]
fn the_version_is_that_of_the_workspace() {
    let header = header();
    let (_, rest) = header.split_once("#define TIVGERAL_VERSION \"").expect("the version");
    let (version, _) = rest.split_once('"').expect("its end");
    assert_eq!(version, embed::VERSION);
    let workspace = fs::read_to_string(root().join("Cargo.toml")).expect("the workspace");
    let (_, rest) = workspace.split_once("[workspace.package]\n").expect("what packages share");
    assert!(rest.starts_with(&format!("version = \"{version}\"\n")), "{rest}");
}

/// Without a warning, also where it comes in twice.
#[test]
fn the_header_compiles() {
    let program =
        "#include \"tivgeral.h\"\n#include \"tivgeral.h\"\nint main(void) { return 0; }\n";
    for language in Language::all() {
        compile("alone", program, language, &[]);
    }
}
