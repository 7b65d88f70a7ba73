//! Streams with the text that netwindow must print for them.

use crate::cases::{bytes, with_extension, Case};
use engine::{decimal, netwindow};
use generate::stream::stream;
use std::io::{self, Error, ErrorKind};
use std::path::Path;

/// The stream of a seed with the second engine's text.
pub fn generated_stream(seed: u64) -> Case {
    let stream = stream(seed);
    let arguments = vec![stream.width, stream.column];
    let label = format!("generate --stream --seed {seed}, called with {}", arguments.join(" "));
    let text = windows(&arguments, &stream.bytes).expect("arguments that are numbers");
    Case { label, arguments, file: stream.bytes, text }
}

/// The second engine's text for a stream; none where the arguments are not W and COLUMN.
pub fn windows(arguments: &[String], stream: &[u8]) -> Option<Vec<u8>> {
    let [width, column] = arguments else {
        return None;
    };
    let (width, column) = (decimal(width.as_bytes())?, decimal(column.as_bytes())?);
    let mut text = Vec::new();
    netwindow(width, column, &mut &stream[..], &mut text).expect("reading and writing memory");
    Some(text)
}

/// The stored streams of a directory: NAME.stream with W and COLUMN in NAME.args and the text in
/// NAME.out, by name.
pub fn stored_streams(directory: &Path) -> io::Result<Vec<Case>> {
    let streams = with_extension(directory, "stream")?;
    streams.iter().map(|stream| read(stream)).collect()
}

fn read(stream: &Path) -> io::Result<Case> {
    let arguments = String::from_utf8(bytes(&stream.with_extension("args"))?)
        .map_err(|error| Error::new(ErrorKind::InvalidData, error))?;
    Ok(Case {
        label: stream.display().to_string(),
        arguments: arguments.split_whitespace().map(String::from).collect(),
        file: bytes(stream)?,
        text: bytes(&stream.with_extension("out"))?,
    })
}
