//! The kind bytes that begin the lines of document 01.

pub const UNIT: u8 = 0x01;
pub const PAIR: u8 = 0x02;
pub const RECORD: u8 = 0x03;
pub const LISTED: u8 = 0x04;
pub const REFUSED: u8 = 0x05;
pub const END: u8 = 0x06;
pub const REFERENCE: u8 = 0x07;
