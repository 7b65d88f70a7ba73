//! Errors in the text: where they are, what was found and what was expected.

mod several;
mod shown;
mod statements;
mod steps;

use nettext::assemble;

const TUPLE: &str = "a tuple \"(..)\"";

/// The text's error is this line.
fn fails(text: &str, line: &str) {
    let error = assemble(text).err().unwrap_or_else(|| panic!("no error in {text}"));
    let shown = error.shown("net", text);
    assert_eq!(shown.lines().next(), Some(format!("net:{line}").as_str()), "{text}");
}

/// The step's error is this line; the step is in line 2, from column 1.
fn step_fails(step: &str, line: &str) {
    fails(&format!("process p:\n{step}\nstart p at site 0\n"), &format!("2:{line}"));
}
