//! The words that the text form keeps for itself.

/// Words that begin a statement.
pub const STATEMENTS: [&str; 14] = [
    "alias",
    "table",
    "row",
    "process",
    "insert",
    "delete",
    "select",
    "update",
    "aggregate",
    "create",
    "drop",
    "foreach",
    "start",
    "pick",
];

/// Those of them that begin a step of a process.
pub const STEPS: [&str; 8] =
    ["insert", "delete", "select", "update", "aggregate", "create", "drop", "foreach"];

/// Words that go on with a statement; a line that begins with one belongs to the line before.
const GOING_ON: [&str; 13] = [
    "at", "is", "in", "into", "from", "matching", "where", "to", "giving", "of", "over", "do",
    "then",
];

const OTHERS: [&str; 15] = [
    "site", "thread", "node", "end", "parallel", "column", "count", "sum", "least", "largest",
    "true", "self", "Int", "Text", "Loc",
];

pub fn begins_step(word: &str) -> bool {
    STEPS.contains(&word)
}

pub fn goes_on(word: &str) -> bool {
    GOING_ON.contains(&word)
}

/// Reserved words are no labels, and no names of tables unless in quotes.
pub fn is_reserved(word: &str) -> bool {
    STATEMENTS.contains(&word)
        || goes_on(word)
        || OTHERS.contains(&word)
        || numbered(word, 'x').is_some()
        || numbered(word, 'T').is_some()
}

/// The digits of a word such as `x3` or `T0`.
pub fn numbered(word: &str, letter: char) -> Option<&str> {
    let digits = word.strip_prefix(letter)?;
    let only_digits = digits.bytes().all(|byte| byte.is_ascii_digit());
    (only_digits && !digits.is_empty()).then_some(digits)
}

pub fn begins_word(character: char) -> bool {
    character.is_ascii_alphabetic() || character == '_'
}

pub fn is_word(word: &str) -> bool {
    word.starts_with(begins_word) && word.chars().all(in_word)
}

pub fn in_word(character: char) -> bool {
    character.is_ascii_alphanumeric() || character == '_'
}

#[cfg(test)]
mod tests {
    use super::*;
    use std::collections::BTreeSet;

    /// The words in quotes of the grammar on the page.
    fn words_of_grammar() -> BTreeSet<&'static str> {
        let page = include_str!("../../../docs/TEXT.md");
        let grammar = page.split("```ebnf").nth(1).and_then(|rest| rest.split("```").next());
        let quoted = grammar.expect("the grammar").split('"').skip(1).step_by(2);
        quoted.filter(|word| is_word(word) && word.len() > 1).collect()
    }

    #[test]
    fn the_grammar_on_the_page_has_these_words() {
        let known = STATEMENTS.into_iter().chain(GOING_ON).chain(OTHERS).collect();
        assert_eq!(words_of_grammar(), known);
        assert!(STEPS.iter().all(|step| STATEMENTS.contains(step)));
    }

    #[test]
    fn the_page_lists_the_words_that_go_on() {
        let page = include_str!("../../../docs/TEXT.md");
        assert!(page.contains(&format!("`{}`", GOING_ON.join(" "))));
    }
}
