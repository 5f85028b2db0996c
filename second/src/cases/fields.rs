//! The numbers of the fields in request 6.

pub const LINE: u64 = 0;
pub const COUNT: u64 = 1;
pub const TAG: u64 = 2;
pub const LIST: u64 = 4;
pub const LOOKED: u64 = 5;
pub const AIM: u64 = 6;
pub const TOGGLE: u64 = 7;
pub const FLAG: u64 = 8;
pub const KIND: u64 = 9;
pub const ARRIVALS: u64 = 12;
pub const SENSE: u64 = 13;
pub const START: u64 = 15;
pub const MOVES: u64 = 16;
pub const WAITS: u64 = 17;
pub const WORK: u64 = 18;
pub const LEFT: u64 = 19;
pub const OWN_SENSE: u64 = 20;
