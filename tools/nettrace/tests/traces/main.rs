//! Traces with a test double in the engine's place: what is told of each kind of pick, and what
//! the pages show.

mod bound;
mod double;
mod doubts;
mod judged;
mod later;
mod page;
mod pages;
mod pieces;
mod refusals;
mod rounds;
mod telling;
