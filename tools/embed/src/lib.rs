//! The proved engine from Rust: a file of records and a list of picks go in, and the answers, the
//! tables or the threads that they come to go out, one table as a page for people, or the whole net
//! after each pick. The picks that a file has itself are given out, too; they are run where they are
//! handed over.
//!
//! The calls are those of `include/tivgeral.h`. They are there with the feature `proved`, which
//! links `target/staticlib/libtivgeral.a`; without it this crate has their results alone. A call
//! takes stack space: have 1 MiB free.
#![deny(unsafe_code)]

mod answer;
mod bindings;
#[cfg(feature = "proved")]
mod calls;
mod lengths;
mod moment;
mod pick;
mod thread;
mod value;
mod variable;

pub use answer::{Answer, Refused};
pub use bindings::Bindings;
#[cfg(feature = "proved")]
pub use calls::{answers, page, page_into, picks, picks_into, tables, threads, trace, Call};
pub use lengths::{
    CELL_BYTES, LINE_BYTES, MOMENT_BYTES, PAGE_BYTES, PICKS_BYTES, RECORD_BYTES, TABLES_BYTES,
    THREADS_BYTES,
};
pub use moment::{Entry, Moment, Table, ThreadState};
pub use pick::Pick;
pub use thread::{Thread, Top};
pub use value::{Kind, Relation, Row, Value};
pub use variable::Variable;

/// The version of this crate, which is that of the header.
pub const VERSION: &str = env!("CARGO_PKG_VERSION");
