//! Why a call is refused, by the answer numbers of the engine's table.

pub const NO_MATCH: u8 = 1;
pub const NO_SUCH_SOURCE: u8 = 2;
pub const NOT_STARTED: u8 = 3;
pub const OTHER_KIND: u8 = 4;
pub const OUT_OF_RANGE: u8 = 5;
pub const PAYLOAD_TOO_LONG: u8 = 6;
pub const TIME: u8 = 7;
pub const ITEM_TOO_LONG: u8 = 8;
pub const FILTER: u8 = 9;
pub const NO_FREE_PLACE: u8 = 10;
pub const NO_SUCH_FILTER: u8 = 11;
pub const OUTPUT_TOO_SHORT: u8 = 12;
pub const NOTHING_WAITS: u8 = 13;
pub const SETUP: u8 = 14;
pub const NO_FRAME_OUT: u8 = 17;
