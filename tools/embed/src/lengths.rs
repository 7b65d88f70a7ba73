//! Lengths in bytes, by the names of the header: of a record, of the parts of a page, and the most
//! that a call puts out.

use crate::{Pick, Thread};

/// A record of a file or of a trace.
pub const RECORD_BYTES: usize = 104;

/// A cell of a page.
pub const CELL_BYTES: usize = 13;

/// A line of a page: four cells and a line feed.
pub const LINE_BYTES: usize = 4 * CELL_BYTES + 1;

/// The most that `tivgeral_tables` puts out: a record for each of 8 tables and each of their 16
/// rows.
pub const TABLES_BYTES: usize = RECORD_BYTES * (8 + 8 * 16);

/// The most that `tivgeral_threads` puts out: 8 threads.
pub const THREADS_BYTES: usize = Thread::SIZE * 8;

/// The most that bindings take up in a moment: 16 variables, and 2 table variables of 16 rows.
const BINDINGS_BYTES: usize = RECORD_BYTES * (16 + 2 + 2 * 16);

/// The most that a thread takes up in a moment: itself, what it has bound, and 8 stack entries, each
/// with the bindings that it holds.
const THREAD_STATE_BYTES: usize =
    RECORD_BYTES + BINDINGS_BYTES + 8 * (RECORD_BYTES + BINDINGS_BYTES);

/// The most that a moment of a trace has: itself, the tables with their rows, and 8 threads.
pub const MOMENT_BYTES: usize = RECORD_BYTES + TABLES_BYTES + 8 * THREAD_STATE_BYTES;

/// The most that `tivgeral_page` puts out: a line for each of 16 rows, and one with the sums.
pub const PAGE_BYTES: usize = LINE_BYTES * (16 + 1);

/// The most that `tivgeral_picks` puts out: a file has 256 records.
pub const PICKS_BYTES: usize = Pick::SIZE * 256;
