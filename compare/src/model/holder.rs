//! 01 "Table holder"; 02, C-11: burn, and the flash; C-13: the family, the current table and its reload; C-16: the mark beside the answer
//! to a request, whether its reserved bits were clear.

use super::{identifier, request, Number, BURN, CMD, REQ, RSP, XTND};
use crate::abi::{Directory, Frame, HolderState, Parts, Request};
use std::ops::Range;

/// 02, C-16: the mark is handed back "beside its answer frame to REQ and the protocol query": whether the reserved bits were clear.
pub type Answer = (Frame, bool);

/// The two lent memories. "A second lent memory, as long as the first, is the flash."
#[derive(Clone, Debug, PartialEq, Eq)]
pub struct Memories {
    pub working: Vec<u8>,
    pub flash: Vec<u8>,
}

/// What a served frame leaves: the state, both memories, and the answering frame with its mark, if any.
#[derive(Clone, Debug, PartialEq, Eq)]
pub struct Left {
    pub state: HolderState,
    pub lent: Memories,
    pub answer: Option<Answer>,
}

/// Size 0..2,056, total at most 32,768, right 0..2, own number 0..15.
pub fn sound(directory: &Directory) -> bool {
    directory.sizes.iter().all(|size| *size <= 2056)
        && total(directory) <= 32_768
        && directory.rights.iter().all(|right| *right <= 2)
        && directory.own <= 15
}

pub fn total(directory: &Directory) -> usize {
    directory.sizes.iter().map(|size| *size as usize).sum()
}

/// Table k starts at the sum of the sizes before it.
pub fn start(directory: &Directory, table: u8) -> usize {
    directory.sizes[..table as usize].iter().map(|size| *size as usize).sum()
}

/// The bytes of a table in either memory.
pub fn place(directory: &Directory, table: u8) -> Range<usize> {
    let start = start(directory, table);
    start..start + directory.sizes[table as usize] as usize
}

/// 02, C-13: "its family (2, the older, or 3)".
const OLDER: u8 = 2;

fn known_family(family: u8) -> bool {
    family == OLDER || family == 3
}

/// 02, C-13: "remembers the current table: none at first"; "11 for an unknown family".
pub fn first_state(family: u8) -> Result<HolderState, Number> {
    if known_family(family) {
        Ok(HolderState { family, has_current: 0, current: 0 })
    } else {
        Err(11)
    }
}

/// 02, C-13: "11 for an unknown family or a current table empty or over 31". What is unused is 0.
pub fn sound_state(directory: &Directory, state: &HolderState) -> bool {
    let current = match state.has_current {
        0 => state.current == 0,
        1 => state.current <= 31 && directory.sizes[state.current as usize] > 0,
        _ => false,
    };
    known_family(state.family) && current
}

/// 02, C-13: "On the older family a served CMD, REQ or BURN for any table not current first makes its working bytes equal to its flash
/// bytes, then acts." What such a frame acts on.
fn reloaded(directory: &Directory, state: &HolderState, lent: &Memories, table: u8) -> Memories {
    let mut after = lent.clone();
    let is_current = state.has_current == 1 && state.current == table;
    if state.family == OLDER && !is_current {
        let place = place(directory, table);
        after.working[place.clone()].copy_from_slice(&lent.flash[place]);
    }
    after
}

/// A frame with zeros past its length.
pub fn frame(parts: Parts, bytes: &[u8]) -> Frame {
    let mut frame = Frame { id: identifier::pack(parts).unwrap(), len: bytes.len() as u8, bytes: [0; 8] };
    frame.bytes[..bytes.len()].copy_from_slice(bytes);
    frame
}

/// 1, 2, 3, 4: what every receiver of frames judges first.
pub fn addressed(own: u8, frame: &Frame) -> Result<Parts, Number> {
    let parts = identifier::unpack(frame.id)?;
    if frame.len > 8 {
        return Err(3);
    }
    if parts.to != own {
        return Err(4);
    }
    Ok(parts)
}

/// Order: 11, 10, 1, 2, 3, 4, 5, 6, 7, 9, 8; XTND of length 0 is 6; "10 also for a flash of the wrong length".
pub fn serve(directory: &Directory, state: &HolderState, lent: &Memories, frame: &Frame) -> Result<Left, Number> {
    if !sound(directory) || !sound_state(directory, state) {
        return Err(11);
    }
    if lent.working.len() != total(directory) || lent.flash.len() != total(directory) {
        return Err(10);
    }
    let parts = addressed(directory.own, frame)?;
    let bytes = &frame.bytes[..frame.len as usize];
    if parts.kind == XTND {
        let answer = Some(protocol_query(directory, parts, bytes)?);
        return Ok(Left { state: *state, lent: lent.clone(), answer });
    }
    let mut lent = reloaded(directory, state, lent, parts.table);
    let answer = match parts.kind {
        CMD => {
            lent.working = command(directory, &lent.working, parts, bytes)?;
            None
        }
        REQ => Some(answer_request(directory, &lent.working, parts, bytes)?),
        BURN => {
            lent.flash = burn(directory, &lent, parts, bytes)?;
            Some((acknowledgement(directory, parts), false))
        }
        _ => return Err(5),
    };
    // "then on either family that of the last served CMD, REQ or BURN"
    let state = HolderState { family: state.family, has_current: 1, current: parts.table };
    Ok(Left { state, lent, answer })
}

/// CMD, length 1..8: stores the bytes at the offset. Needs right 2.
fn command(directory: &Directory, memory: &[u8], parts: Parts, bytes: &[u8]) -> Result<Vec<u8>, Number> {
    if bytes.is_empty() {
        return Err(6);
    }
    let size = directory.sizes[parts.table as usize] as usize;
    if size == 0 || directory.rights[parts.table as usize] != 2 {
        return Err(7);
    }
    if parts.offset as usize + bytes.len() > size {
        return Err(8);
    }
    let place = start(directory, parts.table) + parts.offset as usize;
    let mut after = memory.to_vec();
    after[place..place + bytes.len()].copy_from_slice(bytes);
    Ok(after)
}

/// REQ, length 3, count 1..8, needs a right: answers RSP to the sender, with the
/// reply table and offset asked for. "6 no longer covers reserved bits".
fn answer_request(directory: &Directory, memory: &[u8], parts: Parts, bytes: &[u8]) -> Result<Answer, Number> {
    if bytes.len() != 3 {
        return Err(6);
    }
    let (asked, clear) = request::read(bytes[0], bytes[1], bytes[2]);
    let size = directory.sizes[parts.table as usize] as usize;
    if size == 0 || directory.rights[parts.table as usize] == 0 {
        return Err(7);
    }
    if asked.count < 1 || asked.count > 8 {
        return Err(9);
    }
    if parts.offset as usize + asked.count as usize > size {
        return Err(8);
    }
    let place = start(directory, parts.table) + parts.offset as usize;
    Ok((reply(directory, parts, asked, &memory[place..place + asked.count as usize]), clear))
}

/// 02, C-11: "MSG_BURN (type 4, length 0, right 2, offset not looked at)" "makes the flash bytes of that table equal to the table's
/// and touches no other flash byte". Hands back the flash.
fn burn(directory: &Directory, lent: &Memories, parts: Parts, bytes: &[u8]) -> Result<Vec<u8>, Number> {
    if !bytes.is_empty() {
        return Err(6);
    }
    let place = place(directory, parts.table);
    if place.is_empty() || directory.rights[parts.table as usize] != 2 {
        return Err(7);
    }
    let mut flash = lent.flash.to_vec();
    flash[place.clone()].copy_from_slice(&lent.working[place]);
    Ok(flash)
}

/// "The reply is XTND to the sender with offset 0, the burnt table, and bytes 0E 01."
fn acknowledgement(directory: &Directory, parts: Parts) -> Frame {
    let id = Parts { offset: 0, kind: XTND, from: directory.own, to: parts.from, table: parts.table };
    frame(id, &[0x0E, 0x01])
}

/// XTND, first byte 0x80, length 4, request bytes after it, count 1 or 5: the byte 2,
/// or 2 then the table and write blocking factors. Other first bytes: 5.
fn protocol_query(directory: &Directory, parts: Parts, bytes: &[u8]) -> Result<Answer, Number> {
    if bytes.is_empty() {
        return Err(6);
    }
    if bytes[0] != 0x80 {
        return Err(5);
    }
    if bytes.len() != 4 {
        return Err(6);
    }
    let (asked, clear) = request::read(bytes[1], bytes[2], bytes[3]);
    let [table_high, table_low] = directory.table_blocking.to_be_bytes();
    let [write_high, write_low] = directory.write_blocking.to_be_bytes();
    match asked.count {
        1 => Ok((reply(directory, parts, asked, &[2]), clear)),
        5 => Ok((reply(directory, parts, asked, &[2, table_high, table_low, write_high, write_low]), clear)),
        _ => Err(9),
    }
}

fn reply(directory: &Directory, parts: Parts, asked: Request, bytes: &[u8]) -> Frame {
    let id = Parts { offset: asked.offset, kind: RSP, from: directory.own, to: parts.from, table: asked.table };
    frame(id, bytes)
}
