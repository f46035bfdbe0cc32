//! 01 "Bridge": the state, its soundness and the seven calls; 02, C-17: the third kind of transfer; C-19: slots that rest.

use super::holder::{addressed, frame as frame_of};
use super::{request, Number, CMD, REQ, RSP};
use crate::abi::{Bridge, Frame, Parts, Request, Slot, CHECK, READ, READ_BACK, WRITE};
use crate::abi::{DIFFERENT, DONE, FREE, GAVE_UP, READY, WAITING};

pub const BUFFER: usize = 512;
pub const PART: usize = 128;

/// 02, C-19: "A slot whose last request went out fewer than 60 turns ago is not given to a new transfer."
pub const REST: u8 = 60;

/// The two lent buffers. The second has what checked writes send, to compare with what they read back.
#[derive(Clone, Copy)]
pub struct Buffers<'a> {
    pub first: &'a [u8],
    pub second: &'a [u8],
}

/// The fresh bridge: the search starts at slot 0, so slot 3 counts as last served; no slot rests.
pub fn fresh(own: u8) -> Bridge {
    Bridge { slots: [Slot::default(); 4], issued: 0, own, last: 3, rests: [0; 4] }
}

pub fn sound(bridge: &Bridge) -> bool {
    let held: Vec<&Slot> = bridge.slots.iter().filter(|slot| slot.phase != FREE).collect();
    bridge.own <= 15
        && bridge.last <= 3
        && bridge.rests.iter().all(|rest| *rest <= REST)
        && bridge.slots.iter().all(|slot| sound_slot(slot, bridge.issued))
        && (0..held.len()).all(|i| (0..i).all(|j| held[i].ticket != held[j].ticket))
}

fn sound_slot(slot: &Slot, issued: u32) -> bool {
    if slot.phase == FREE {
        return *slot == Slot::default(); // numbers that a slot doesn't use are 0
    }
    let lawful = 1 <= slot.ticket
        && slot.ticket <= issued
        && slot.kind <= CHECK
        && opening(slot.device, slot.table, slot.offset, slot.count as usize).is_ok();
    let progress = if slot.phase == DONE {
        slot.progress == slot.count
    } else {
        slot.progress % 8 == 0 && slot.progress < slot.count
    };
    let (sends, left) = (slot.sends, slot.left);
    let phase = match (slot.phase, slot.kind) {
        (READY, READ | READ_BACK) => sends <= 2 && left == 0,
        (WAITING, READ | READ_BACK) => 1 <= sends && sends <= 3 && 1 <= left && left <= 20,
        (GAVE_UP, READ | READ_BACK) => sends == 3 && left == 0,
        (DONE, READ | READ_BACK | WRITE) | (READY, WRITE | CHECK) => sends == 0 && left == 0,
        (DIFFERENT, READ_BACK) => sends == 0 && left == 0,
        _ => false, // a write never waits or gives up, a sending checked write isn't finished; no other phases
    };
    lawful && progress && phase
}

/// Device 0..15 and table 0..31 (else 7), 1..128 bytes (else 9), offset plus count at
/// most 2,048 (else 8).
fn opening(device: u8, table: u8, offset: u16, count: usize) -> Result<(), Number> {
    if device > 15 || table > 31 {
        return Err(7);
    }
    if count < 1 || count > 128 {
        return Err(9);
    }
    if offset as usize + count > 2048 {
        return Err(8);
    }
    Ok(())
}

fn judge(bridge: &Bridge) -> Result<(), Number> {
    if sound(bridge) {
        Ok(())
    } else {
        Err(11)
    }
}

fn judge_with(bridge: &Bridge, lent: &[&[u8]]) -> Result<(), Number> {
    judge(bridge)?;
    if lent.iter().all(|buffer| buffer.len() == BUFFER) {
        Ok(())
    } else {
        Err(10)
    }
}

/// The lowest free slot that does not rest: 12 without a free slot, "19 in 12's place where slots are free but all resting".
fn slot_to_take(bridge: &Bridge) -> Result<usize, Number> {
    let free: Vec<usize> = (0..4).filter(|index| bridge.slots[*index].phase == FREE).collect();
    let rested = free.iter().copied().find(|index| bridge.rests[*index] == 0);
    rested.ok_or(if free.is_empty() { 12 } else { 19 })
}

/// Order: 11, 10, 7, 9, 8, 12 or 19, 13. Hands back the bridge and the slot taken.
fn open(
    bridge: &Bridge, lent: Buffers, kind: u8, device: u8, table: u8, offset: u16, count: usize,
) -> Result<(Bridge, usize), Number> {
    judge_with(bridge, &[lent.first, lent.second])?;
    opening(device, table, offset, count)?;
    let taken = slot_to_take(bridge)?;
    let ticket = bridge.issued.checked_add(1).ok_or(13)?;
    let mut after = *bridge;
    after.issued = ticket;
    after.slots[taken] =
        Slot { ticket, offset, phase: READY, kind, device, table, count: count as u8, progress: 0, sends: 0, left: 0 };
    Ok((after, taken))
}

pub fn open_read(
    bridge: &Bridge, lent: Buffers, device: u8, table: u8, offset: u16, count: usize,
) -> Result<(Bridge, u32), Number> {
    let (after, _) = open(bridge, lent, READ, device, table, offset, count)?;
    Ok((after, after.issued))
}

/// A write's bytes are copied into its slot, and their number is the count. Hands back the first buffer.
pub fn open_write(
    bridge: &Bridge, lent: Buffers, device: u8, table: u8, offset: u16, bytes: &[u8],
) -> Result<(Bridge, Vec<u8>, u32), Number> {
    let (after, slot) = open(bridge, lent, WRITE, device, table, offset, bytes.len())?;
    Ok((after, filled(lent.first, slot * PART, bytes), after.issued))
}

/// Opening a checked write copies its bytes only into the second buffer, which is handed back.
pub fn open_check(
    bridge: &Bridge, lent: Buffers, device: u8, table: u8, offset: u16, bytes: &[u8],
) -> Result<(Bridge, Vec<u8>, u32), Number> {
    let (after, slot) = open(bridge, lent, CHECK, device, table, offset, bytes.len())?;
    Ok((after, filled(lent.second, slot * PART, bytes), after.issued))
}

/// A buffer with bytes at a place.
fn filled(buffer: &[u8], place: usize, bytes: &[u8]) -> Vec<u8> {
    let mut filled = buffer.to_vec();
    filled[place..place + bytes.len()].copy_from_slice(bytes);
    filled
}

/// Eight bytes a frame, the last shorter.
pub fn chunk(slot: &Slot) -> usize {
    (slot.count - slot.progress).min(8) as usize
}

/// The place in the buffer of the next bytes of slot `index`.
pub fn place(slot: &Slot, index: usize) -> usize {
    index * PART + slot.progress as usize
}

/// Ages a waiting read: 20 turns after a send it is ready again, or after its third
/// send has given up.
fn aged(slot: Slot) -> Slot {
    if slot.phase != WAITING {
        return slot;
    }
    let left = slot.left - 1;
    let phase = match (left, slot.sends) {
        (0, 3) => GAVE_UP,
        (0, _) => READY,
        _ => WAITING,
    };
    Slot { left, phase, ..slot }
}

/// A turn (refusals 11, 10): ages, and takes a turn off every rest; then sends for one ready slot, and the search
/// starts at the slot after the one last served. A slot that sent a request has all its turns left to rest.
pub fn turn(bridge: &Bridge, lent: Buffers) -> Result<(Bridge, Option<Frame>), Number> {
    judge_with(bridge, &[lent.first, lent.second])?;
    let mut after = *bridge;
    for slot in after.slots.iter_mut() {
        *slot = aged(*slot);
    }
    after.rests = bridge.rests.map(|rest| rest.saturating_sub(1));
    let order = (1..=4).map(|step| (bridge.last as usize + step) % 4);
    let ready = order.into_iter().find(|index| after.slots[*index].phase == READY);
    let Some(index) = ready else {
        return Ok((after, None));
    };
    after.last = index as u8;
    let slot = after.slots[index];
    let frame = sent(bridge.own, &slot, index, lent);
    after.slots[index] = match slot.kind {
        WRITE => advanced(&slot),
        CHECK => sent_to_check(&slot),
        _ => {
            after.rests[index] = REST;
            Slot { phase: WAITING, sends: slot.sends + 1, left: 20, ..slot }
        }
    };
    Ok((after, Some(frame)))
}

/// A read sends REQ with reply table 6 and reply offset its place in the buffer; a write
/// sends CMD. A checked write sends the write, then reads the same range back.
fn sent(own: u8, slot: &Slot, index: usize, lent: Buffers) -> Frame {
    let offset = slot.offset + slot.progress as u16;
    let place = place(slot, index);
    let parts = |kind| Parts { offset, kind, from: own, to: slot.device, table: slot.table };
    let part = place..place + chunk(slot);
    match slot.kind {
        WRITE => frame_of(parts(CMD), &lent.first[part]),
        CHECK => frame_of(parts(CMD), &lent.second[part]),
        _ => {
            let asked = Request { table: 6, count: chunk(slot) as u8, offset: place as u16 };
            frame_of(parts(REQ), &request::bytes_of(asked).unwrap())
        }
    }
}

/// Past its next bytes: done if those were the last, otherwise ready with no sends counted.
fn advanced(slot: &Slot) -> Slot {
    let progress = slot.progress + chunk(slot) as u8;
    let phase = if progress == slot.count { DONE } else { READY };
    Slot { phase, progress, sends: 0, left: 0, ..*slot }
}

/// A checked write after a CMD: once the last is sent, it is ready to read back from its start.
fn sent_to_check(slot: &Slot) -> Slot {
    let after = advanced(slot);
    if after.phase == DONE {
        Slot { kind: READ_BACK, phase: READY, progress: 0, ..after }
    } else {
        after
    }
}

/// An incoming frame: 11, 10, 1, 2, 3, 4, 5 (only RSP served), 17. Hands back the first buffer.
pub fn frame(bridge: &Bridge, lent: Buffers, frame: &Frame) -> Result<(Bridge, Vec<u8>), Number> {
    judge_with(bridge, &[lent.first, lent.second])?;
    let parts = addressed(bridge.own, frame)?;
    if parts.kind != RSP {
        return Err(5);
    }
    let matches = |index: &usize| {
        let slot = &bridge.slots[*index];
        slot.phase == WAITING
            && parts.table == 6
            && parts.from == slot.device
            && parts.offset as usize == place(slot, *index)
            && frame.len as usize == chunk(slot)
    };
    let index = (0..4).find(matches).ok_or(17)?;
    let slot = bridge.slots[index];
    let (place, brought) = (place(&slot, index), &frame.bytes[..chunk(&slot)]);
    let mut after = *bridge;
    if slot.kind == READ_BACK && lent.second[place..place + brought.len()] != *brought {
        // the first reply that disagrees ends it; the frame is answered 0 and not stored
        after.slots[index] = Slot { phase: DIFFERENT, sends: 0, left: 0, ..slot };
        return Ok((after, lent.first.to_vec()));
    }
    after.slots[index] = advanced(&slot);
    Ok((after, filled(lent.first, place, brought)))
}

/// The slot that holds a ticket.
fn holder_of(bridge: &Bridge, ticket: u32) -> Result<usize, Number> {
    bridge.slots.iter().position(|slot| slot.phase != FREE && slot.ticket == ticket).ok_or(14)
}

/// Status answers 11, then 0, 14, 15, 16 or 18. `Ok` carries the slot.
pub fn status(bridge: &Bridge, ticket: u32) -> Result<usize, Number> {
    judge(bridge)?;
    let index = holder_of(bridge, ticket)?;
    match bridge.slots[index].phase {
        DONE => Ok(index),
        GAVE_UP => Err(16),
        DIFFERENT => Err(18),
        _ => Err(15),
    }
}

/// The bytes call (11, 10, then status's number): start and count in the buffer for a
/// done read, an empty part otherwise; a checked write shows no bytes.
pub fn bytes(bridge: &Bridge, first: &[u8], ticket: u32) -> Result<(usize, usize), Number> {
    judge_with(bridge, &[first])?;
    let index = status(bridge, ticket)?;
    let slot = bridge.slots[index];
    Ok(if slot.kind == READ { (index * PART, slot.count as usize) } else { (0, 0) })
}

/// Closing (11, 14) frees the slot in any state; a slot that rests goes on resting.
pub fn close(bridge: &Bridge, ticket: u32) -> Result<Bridge, Number> {
    judge(bridge)?;
    let index = holder_of(bridge, ticket)?;
    let mut after = *bridge;
    after.slots[index] = Slot::default();
    Ok(after)
}

/// Reset turns any state into the fresh bridge of a given own number (11 if over 15).
pub fn reset(own: u8) -> Result<Bridge, Number> {
    if own > 15 {
        Err(11)
    } else {
        Ok(fresh(own))
    }
}
