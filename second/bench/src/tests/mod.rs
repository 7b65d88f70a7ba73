//! The nets, chains and runs are what they are said to be.

mod chains;
mod files;
mod left_early;
mod runs;
mod works;
