//! What kind of file this is: a text, or the records of a net.

use crate::error::{Error, BYTE_ORDER_MARK};
use crate::errors::Errors;
use crate::token::Place;
use crate::TEXT_LIMIT;
use engine::RECORD_SIZE;

/// What Notepad and others put before a text in UTF-16.
const UTF_16_MARKS: [&[u8]; 2] = [&[0xff, 0xfe], &[0xfe, 0xff]];

/// The bytes as text; fails for records, for other encodings and at the first byte that is none.
pub fn read_text(bytes: &[u8]) -> Result<&str, Errors> {
    let not_text = if bytes.len() > TEXT_LIMIT {
        too_long()
    } else if is_utf_16(bytes) {
        utf_16()
    } else if are_records(bytes) {
        let to_do = "netdump shows records as text, and netrun runs them";
        Error::of_file("these are records, and a text is expected", to_do)
    } else {
        let text = std::str::from_utf8(bytes);
        let text = text.map_err(|error| no_text(bytes, error.valid_up_to()))?;
        return lone_return(text).map_or(Ok(text), |error| Err(error.into()));
    };
    Err(not_text.into())
}

fn too_long() -> Error {
    let wrong = format!(
        "a text of over {TEXT_LIMIT} bytes, and no net needs so much: it has at most 256 records"
    );
    Error::of_file(&wrong, "look whether this is the file that was meant")
}

fn utf_16() -> Error {
    let to_do = "save it as UTF-8 (in Notepad: Save as, Encoding UTF-8), \
                 or turn it by: iconv -f UTF-16 -t UTF-8";
    Error::of_file("this is text in UTF-16, and UTF-8 is expected", to_do)
}

fn no_text(bytes: &[u8], end: usize) -> Errors {
    let found = format!("the byte {:#04x}", bytes[end]);
    let place = place_after(&String::from_utf8_lossy(&bytes[..end]));
    Error::unexpected(place, &found, "text in UTF-8").into()
}

fn place_after(before: &str) -> Place {
    let line = before.split('\n').count();
    let column = before.chars().rev().take_while(|character| *character != '\n').count() + 1;
    Place { line, column }
}

/// Why a text is not read whose lines, or some of them, end in a carriage return alone: a comment
/// would hide the lines after it.
pub fn lone_return(text: &str) -> Option<Error> {
    let to_do = "save it with the line ends of Linux or Windows, or turn it by: tr '\\r' '\\n'";
    if !text.contains('\n') {
        let wrong = "lines end in carriage returns alone, and line feeds are expected";
        return inner_return(text).map(|_| Error::of_file(wrong, to_do));
    }
    let (number, column) =
        text.lines().enumerate().find_map(|(number, line)| Some((number, inner_return(line)?)))?;
    let place = Place { line: number + 1, column };
    let wrong = "this line ends in a carriage return alone, and a line feed is expected";
    Some(Error::at(place, wrong.to_owned(), to_do))
}

/// The column of a carriage return that something of the line follows.
fn inner_return(line: &str) -> Option<usize> {
    let line = line.strip_prefix(BYTE_ORDER_MARK).unwrap_or(line);
    line.trim_end_matches('\r').chars().position(|c| c == '\r').map(|before| before + 1)
}

/// With its mark, or by its zeros: nearly every character has one, always on the same side, and
/// unlike in records no two stand for one character.
fn is_utf_16(bytes: &[u8]) -> bool {
    let pairs = bytes.as_chunks().0;
    let most = |zero: usize| 2 * pairs.iter().filter(|pair| pair[zero] == 0).count() > pairs.len();
    UTF_16_MARKS.iter().any(|mark| bytes.starts_with(mark))
        || (pairs.len() > 1 && !pairs.contains(&[0, 0]) && (most(0) || most(1)))
}

/// Records begin with a kind, and are full of zeros, which no text has.
fn are_records(bytes: &[u8]) -> bool {
    let kind = bytes.first().is_some_and(|kind| matches!(kind, 1..=3 | 16..=26 | 32 | 33));
    kind && bytes.iter().take(RECORD_SIZE).any(|byte| *byte == 0)
}

/// Why a file that loading refuses is none of records at all, if it is a text.
pub fn text_for_records(bytes: &[u8]) -> Option<Error> {
    let is_letter = u8::is_ascii_alphabetic;
    let is_control = |byte: &u8| byte.is_ascii_control() && !matches!(byte, b'\t' | b'\n' | b'\r');
    let is_text = bytes.iter().any(is_letter) && !bytes.iter().any(is_control);
    let to_do = "netasm assembles a text to records";
    (is_text || is_utf_16(bytes))
        .then(|| Error::of_file("this is a text, and records are expected", to_do))
}
