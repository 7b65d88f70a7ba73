//! An engine for Klaim-DB nets: loads a net, takes the scheduler's picks, writes the tables back
//! and lays them out as pages. A moving window takes streams of rows that are longer than tables.
#![forbid(unsafe_code)]

pub mod accounts;
mod acts;
mod aggregate;
mod kept;
mod list;
mod load;
mod loops;
mod net;
pub mod number;
mod operand;
mod page;
mod pattern;
mod print;
pub mod program;
pub mod quirk;
mod record;
mod relation;
mod sound;
mod step;
mod stream;
mod term;
mod value;
pub mod window;
mod write;

pub use list::List;
pub use load::{load, Fault};
pub use net::{
    Act, Address, Aliases, Bindings, Entry, Filter, Function, Loop, Net, Node, Pick, Places,
    Predicate, Table, TableVariables, Test, Thread, Variables,
};
pub use operand::{Operand, Operands};
pub use page::page;
pub use pattern::{look, Look};
pub use print::{looked, netpage, netrun};
pub use record::{decode, Record, SIZE as RECORD_SIZE};
pub use relation::{Columns, Relation, Row};
pub use sound::sound;
pub use step::{run, step, step_sound, Answer, Done};
pub use stream::{decimal, netwindow};
pub use value::{Kind, Locality, Site, Text, Value};
pub use write::write;
