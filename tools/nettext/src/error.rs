//! What is wrong with a text, and where.

use crate::numbers::{advice, refusal};
use crate::token::Place;
use std::iter;

/// Of a line so much is shown at most, up to the place if that is farther right.
const SHOWN: usize = 120;

/// What an editor may put before a text; it is no part of it.
pub const BYTE_ORDER_MARK: char = '\u{feff}';

#[derive(Clone, PartialEq, Eq, Debug)]
pub struct Error {
    /// None where the whole file is at fault.
    pub place: Option<Place>,
    pub message: String,
    /// A line on what to do, or nothing.
    pub advice: String,
}

impl Error {
    /// The form of all errors about the text itself.
    pub fn unexpected(place: Place, found: &str, expected: &str) -> Error {
        let message = format!("found {found}, expected {expected}");
        Error { place: Some(place), message, advice: String::new() }
    }

    /// Loading refuses the net by this number, at this record, in the words of the number.
    pub fn refused(place: Place, number: u8, record: usize) -> Error {
        Error { place: Some(place), message: refusal(number, record), advice: advice(number) }
    }

    /// The same of a file that is not there as text, or past its last statement.
    pub fn refused_file(number: u8, record: usize) -> Error {
        Error { place: None, message: refusal(number, record), advice: advice(number) }
    }

    /// What is wrong with the file as a whole, and what to do.
    pub fn of_file(wrong: &str, to_do: &str) -> Error {
        Error { place: None, message: wrong.to_owned(), advice: what_to_do(to_do) }
    }

    /// What is wrong at a place, and what to do.
    pub fn at(place: Place, wrong: String, to_do: &str) -> Error {
        Error { place: Some(place), message: wrong, advice: what_to_do(to_do) }
    }

    /// The error in one line, then the line of the text with a caret below the place, then the
    /// advice.
    pub fn shown(&self, name: &str, text: &str) -> String {
        let Error { place, message, advice } = self;
        let Some(Place { line, column }) = *place else {
            return format!("{name}: {message}\n{advice}");
        };
        let text = text.strip_prefix(BYTE_ORDER_MARK).unwrap_or(text);
        let source = text.lines().nth(line - 1).unwrap_or_default();
        let left_out = column.saturating_sub(SHOWN);
        let part: String = source.chars().skip(left_out).take(SHOWN).map(visible).collect();
        let before = part.chars().chain(iter::repeat(' ')).take(column - 1 - left_out);
        let below: String = before.map(blank).collect();
        format!("{name}:{line}:{column}: {message}\n    {part}\n    {below}^\n{advice}")
    }
}

fn what_to_do(advice: &str) -> String {
    format!("what to do: {advice}\n")
}

/// Characters that would upset a terminal are shown as `?`.
fn visible(character: char) -> char {
    if character.is_control() && character != '\t' {
        return '?';
    }
    character
}

/// Tabs stay, so that the caret is below its place however wide they are.
fn blank(character: char) -> char {
    if character == '\t' {
        return '\t';
    }
    ' '
}
