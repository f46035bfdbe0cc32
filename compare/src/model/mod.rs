//! The rules of paper 01, and of 02 what has landed, written down a second time from the papers alone.
//!
//! Every call answers `Ok` with what it hands back, or `Err` with the number of
//! the refusal. What a call changes is handed back as a new value, so a refusal
//! cannot have changed anything.

pub mod bridge;
pub mod frd;
pub mod holder;
pub mod identifier;
pub mod listing;
pub mod mlg;
pub mod request;
pub mod value;

/// The number of a refusal, from the table "Numbers handed back".
pub type Number = u8;

/// The types of a frame that are served (01, bits 15-17; 02, C-11: burn).
pub const CMD: u8 = 0;
pub const REQ: u8 = 1;
pub const RSP: u8 = 2;
pub const BURN: u8 = 4;
pub const XTND: u8 = 7;

/// The counter of a block in an MLG or an FRD: the number of earlier blocks, modulo 256 (01 of FRD; 02, C-12 of MLG).
pub fn counter_after(earlier: u64) -> u8 {
    (earlier % 256) as u8
}

pub fn be16(bytes: &[u8], at: usize) -> u16 {
    bytes[at] as u16 * 256 + bytes[at + 1] as u16
}

pub fn be32(bytes: &[u8], at: usize) -> u32 {
    be16(bytes, at) as u32 * 65_536 + be16(bytes, at + 2) as u32
}

/// The bytes up to the first zero, or nothing if there is no zero.
pub fn zero_ended(bytes: &[u8]) -> Option<&[u8]> {
    bytes.iter().position(|byte| *byte == 0).map(|zero| &bytes[..zero])
}
