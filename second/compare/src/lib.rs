//! Holds a netrun, netsums, netpage or netwindow program, or one that prints the fields looked at,
//! and the second engine itself, to known texts.
#![forbid(unsafe_code)]

pub mod cases;
pub mod expected;
pub mod long;
mod memory;
pub mod program;
pub mod report;
pub mod streams;
mod summed;
