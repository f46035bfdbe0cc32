//! The structs that cross the C ABI, as in include/honeygimlet.h.
//! The model uses the same plain structs for what it is given.

use std::fmt;
use std::mem::size_of;

#[repr(C)]
#[derive(Clone, Copy, Debug, Default, PartialEq, Eq)]
pub struct Parts {
    pub offset: u16,
    pub kind: u8,
    pub from: u8,
    pub to: u8,
    pub table: u8,
}

#[repr(C)]
#[derive(Clone, Copy, Debug, Default, PartialEq, Eq)]
pub struct Packed {
    pub id: u32,
    pub number: u8,
}

#[repr(C)]
#[derive(Clone, Copy, Debug, Default, PartialEq, Eq)]
pub struct Unpacked {
    pub parts: Parts,
    pub number: u8,
}

#[repr(C)]
#[derive(Clone, Copy, Default, PartialEq, Eq)]
pub struct Frame {
    pub id: u32,
    pub len: u8,
    pub bytes: [u8; 8],
}

impl fmt::Debug for Frame {
    fn fmt(&self, f: &mut fmt::Formatter<'_>) -> fmt::Result {
        write!(f, "Frame {{ id: {:#x}, len: {}, bytes: {:02x?} }}", self.id, self.len, self.bytes)
    }
}

#[repr(C)]
#[derive(Clone, Copy, Debug, Default, PartialEq, Eq)]
pub struct Request {
    pub table: u8,
    pub count: u8,
    pub offset: u16,
}

/// `clear` is 1 if all reserved bits were 0, else 0.
#[repr(C)]
#[derive(Clone, Copy, Debug, Default, PartialEq, Eq)]
pub struct RequestRead {
    pub request: Request,
    pub clear: u8,
}

#[repr(C)]
#[derive(Clone, Copy, Debug, Default, PartialEq, Eq)]
pub struct RequestBytes {
    pub number: u8,
    pub bytes: [u8; 3],
}

#[repr(C)]
#[derive(Clone, Copy, Debug, Default, PartialEq, Eq)]
pub struct Directory {
    pub sizes: [u16; 32],
    pub rights: [u8; 32],
    pub table_blocking: u16,
    pub write_blocking: u16,
    pub own: u8,
}

/// `has_current` is 1 where a table is current, else 0; `current` is that table, 0 where none is.
#[repr(C)]
#[derive(Clone, Copy, Debug, Default, PartialEq, Eq)]
pub struct HolderState {
    pub family: u8,
    pub has_current: u8,
    pub current: u8,
}

#[repr(C)]
#[derive(Clone, Copy, Debug, Default, PartialEq, Eq)]
pub struct FirstState {
    pub number: u8,
    pub state: HolderState,
}

/// `clear` is 1 for an answered REQ or protocol query whose reserved bits were 0, else 0.
#[repr(C)]
#[derive(Clone, Copy, Debug, Default, PartialEq, Eq)]
pub struct Served {
    pub number: u8,
    pub frames: u8,
    pub clear: u8,
    pub frame: Frame,
}

#[repr(C)]
#[derive(Clone, Copy, Debug, Default, PartialEq, Eq)]
pub struct HolderAnswer {
    pub served: Served,
    pub state: HolderState,
}

#[repr(C)]
#[derive(Clone, Copy, Debug, Default, PartialEq, Eq)]
pub struct Yielded {
    pub number: u8,
    pub frames: u8,
    pub frame: Frame,
}

pub const FREE: u8 = 0;
pub const READY: u8 = 1;
pub const WAITING: u8 = 2;
pub const DONE: u8 = 3;
pub const GAVE_UP: u8 = 4;
pub const DIFFERENT: u8 = 5;

pub const READ: u8 = 0;
pub const WRITE: u8 = 1;
/// A checked write is of kind CHECK while it sends, then of kind READ_BACK.
pub const READ_BACK: u8 = 2;
pub const CHECK: u8 = 3;

#[repr(C)]
#[derive(Clone, Copy, Debug, Default, PartialEq, Eq)]
pub struct Slot {
    pub ticket: u32,
    pub offset: u16,
    pub phase: u8,
    pub kind: u8,
    pub device: u8,
    pub table: u8,
    pub count: u8,
    pub progress: u8,
    pub sends: u8,
    pub left: u8,
}

#[repr(C)]
#[derive(Clone, Copy, Debug, Default, PartialEq, Eq)]
pub struct Bridge {
    pub slots: [Slot; 4],
    pub issued: u32,
    pub own: u8,
    pub last: u8,
    /// Each slot's turns left to rest.
    pub rests: [u8; 4],
}

#[repr(C)]
#[derive(Clone, Copy, Debug, Default, PartialEq, Eq)]
pub struct Opened {
    pub bridge: Bridge,
    pub ticket: u32,
    pub number: u8,
}

#[repr(C)]
#[derive(Clone, Copy, Debug, Default, PartialEq, Eq)]
pub struct Stepped {
    pub bridge: Bridge,
    pub answer: Yielded,
}

#[repr(C)]
#[derive(Clone, Copy, Debug, Default, PartialEq, Eq)]
pub struct Changed {
    pub bridge: Bridge,
    pub number: u8,
}

#[repr(C)]
#[derive(Clone, Copy, Debug, Default, PartialEq, Eq)]
pub struct Span {
    pub number: u8,
    pub start: usize,
    pub len: usize,
}

#[repr(C)]
#[derive(Clone, Copy, Debug, Default, PartialEq, Eq)]
pub struct MlgHeader {
    pub time: u32,
    pub info: u32,
    pub begin: u32,
    pub size: u16,
    pub count: u16,
    pub version: u16,
    pub number: u8,
}

/// `kind` of a block: 0 data, 1 mark (FRD: time), 2 end, 3 refused.
pub const BLOCK_DATA: u8 = 0;
pub const BLOCK_MARK: u8 = 1;
pub const BLOCK_TIME: u8 = 1;
pub const BLOCK_END: u8 = 2;
pub const BLOCK_REFUSED: u8 = 3;

#[repr(C)]
#[derive(Clone, Copy, Debug, Default, PartialEq, Eq)]
pub struct MlgBlock {
    pub place: usize,
    pub start: usize,
    pub len: usize,
    pub time: u16,
    pub number: u8,
    pub kind: u8,
    pub counter: u8,
    pub as_expected: u8,
}

/// `ending` is 0 at the file's end, else the number that refuses what stands at `place`.
#[repr(C)]
#[derive(Clone, Copy, Debug, Default, PartialEq, Eq)]
pub struct Tally {
    pub blocks: u64,
    pub ending: u8,
    pub place: usize,
}

#[repr(C)]
#[derive(Clone, Copy, Debug, Default, PartialEq, Eq)]
pub struct Written {
    pub len: usize,
    pub number: u8,
}

#[repr(C)]
#[derive(Clone, Copy, Debug, Default, PartialEq, Eq)]
pub struct Raw {
    pub value: i64,
    pub number: u8,
}

#[repr(C)]
#[derive(Clone, Copy, Default)]
pub struct Shown {
    pub value: f32,
    pub number: u8,
}

/// Shown values are compared bit by bit, so that 0 and -0 differ.
impl PartialEq for Shown {
    fn eq(&self, other: &Shown) -> bool {
        self.value.to_bits() == other.value.to_bits() && self.number == other.number
    }
}

impl fmt::Debug for Shown {
    fn fmt(&self, f: &mut fmt::Formatter<'_>) -> fmt::Result {
        let bits = self.value.to_bits();
        write!(f, "Shown {{ value: {:?} ({bits:#010x}), number: {} }}", self.value, self.number)
    }
}

#[repr(C)]
#[derive(Clone, Copy, Debug, Default, PartialEq, Eq)]
pub struct FrdHeader {
    pub time: u32,
    pub size: u16,
    pub number: u8,
}

#[repr(C)]
#[derive(Clone, Copy, Debug, Default, PartialEq, Eq)]
pub struct FrdBlock {
    pub place: usize,
    pub start: usize,
    pub len: usize,
    pub time: u32,
    pub number: u8,
    pub kind: u8,
    pub counter: u8,
    pub as_expected: u8,
}

const _: () = {
    assert!(size_of::<Parts>() == 6);
    assert!(size_of::<Packed>() == 8);
    assert!(size_of::<Unpacked>() == 8);
    assert!(size_of::<Frame>() == 16);
    assert!(size_of::<Request>() == 4);
    assert!(size_of::<RequestRead>() == 6);
    assert!(size_of::<RequestBytes>() == 4);
    assert!(size_of::<Directory>() == 102);
    assert!(size_of::<HolderState>() == 3);
    assert!(size_of::<FirstState>() == 4);
    assert!(size_of::<Served>() == 20);
    assert!(size_of::<HolderAnswer>() == 24);
    assert!(size_of::<Yielded>() == 20);
    assert!(size_of::<Slot>() == 16);
    assert!(size_of::<Bridge>() == 76);
    assert!(size_of::<Opened>() == 84);
    assert!(size_of::<Stepped>() == 96);
    assert!(size_of::<Changed>() == 80);
    assert!(size_of::<Span>() == 24);
    assert!(size_of::<MlgHeader>() == 20);
    assert!(size_of::<MlgBlock>() == 32);
    assert!(size_of::<Tally>() == 24);
    assert!(size_of::<Written>() == 16);
    assert!(size_of::<Raw>() == 16);
    assert!(size_of::<Shown>() == 8);
    assert!(size_of::<FrdHeader>() == 8);
    assert!(size_of::<FrdBlock>() == 32);
};
