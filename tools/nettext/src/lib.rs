//! Nets as text: a form in the words of Klaim-DB for the records of document 01.
//! `docs/TEXT.md` has the grammar.
#![forbid(unsafe_code)]

mod assemble;
mod check;
pub mod cli;
mod error;
mod errors;
mod item;
mod labels;
mod lexer;
mod names;
mod near;
mod numbers;
mod parse;
mod print;
mod record;
mod shape;
mod token;
mod words;
mod written;

pub use assemble::{assemble, assemble_checked, Assembled};
pub use check::no_record;
pub use error::Error;
pub use errors::Errors;
pub use names::Names;
pub use numbers::{number, refused_file, Number};
pub use print::{columns, dump, dump_unchecked, name, operand, row, step, value};
pub use shape::{lone_return, read_text, text_for_records};
pub use token::Place;

/// Bytes of a text at most. A net has at most 256 records, so none needs more.
pub const TEXT_LIMIT: usize = 1 << 20;
/// Bytes of a file of records at most, far over what loading accepts.
pub const FILE_LIMIT: usize = 1 << 26;
