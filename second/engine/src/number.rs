//! The numbers of faults and refusals, in checking order.

pub const LENGTH: u8 = 1;
pub const RECORDS: u8 = 2;
pub const KIND: u8 = 3;
pub const FIELD: u8 = 4;
pub const ORDER: u8 = 5;
pub const REPEATED: u8 = 6;
pub const MISFIT_ROW: u8 = 7;
pub const TOO_MANY: u8 = 8;
pub const NO_NODE: u8 = 9;

pub const UNSOUND: u8 = 10;
pub const NO_THREAD: u8 = 11;
pub const UNBOUND: u8 = 12;
pub const NO_SITE: u8 = 13;
pub const NO_TABLE: u8 = 14;
pub const TABLE_THERE: u8 = 15;
pub const MISFIT: u8 = 16;
pub const HELD: u8 = 17;
pub const NO_RESULT: u8 = 18;
pub const NOT_READY: u8 = 19;
pub const LIMIT: u8 = 20;
pub const SHORT_BUFFER: u8 = 21;
pub const SHORT_FOR_PAGE: u8 = 22;
pub const NO_WINDOW: u8 = 23;
pub const NO_INT: u8 = 24;
