//! Holder calls: directories sound and unsound, memory and flash right and wrong, of one content and of different, states of both
//! families that calls leave, new ones and unsound ones, frames that are served or nearly served, half of the requests and queries with
//! reserved bits set. The state handed back and both memories are compared after every call.

use super::request::with_reserved_bits;
use super::Outcome;
use crate::abi::{Directory, Frame, HolderAnswer, HolderState, Parts, Request};
use crate::judge::{Judge, Lent};
use crate::model::{holder, identifier, request, Number, BURN, CMD, REQ, RSP, XTND};
use crate::rng::Rng;
use crate::side::{Model, Side};

/// The two memories lent to a call.
#[derive(Clone, Debug)]
struct Both {
    memory: Lent,
    flash: Lent,
}

impl Both {
    fn serve(&mut self, side: &dyn Side, directory: Directory, state: HolderState, frame: Frame) -> HolderAnswer {
        side.serve(directory, state, self.memory.get_mut(), self.flash.get_mut(), frame)
    }
}

/// What a frame of a list is meant for: any table, one table with one type, or that, with nothing in the frame itself to refuse.
#[derive(Clone, Copy)]
enum Meant {
    Any,
    For(usize, u8),
    Fitting(usize, u8),
}

impl Meant {
    fn frame(self, rng: &mut Rng, directory: &Directory) -> Frame {
        match self {
            Meant::Any => random_frame(rng, directory),
            Meant::For(table, kind) => frame_to(rng, directory, table, kind),
            Meant::Fitting(table, kind) => fitting_frame(rng, directory, table, kind),
        }
    }
}

/// A first state; then a directory, and a few frames one after the other, each call with the state that the last one left, or another.
pub fn run(rng: &mut Rng, judge: &mut Judge) -> Outcome {
    first_state(rng, judge)?;
    let directory = random_directory(rng);
    let start = random_memories(rng, holder::total(&directory));
    let (mut model, mut library) = (start.clone(), start.clone());
    let (mut held, mut calls, mut burnt) = (None, Vec::new(), Vec::new());
    for meant in random_list(rng, &directory) {
        let frame = meant.frame(rng, &directory);
        let parts = identifier::unpack(frame.id);
        let (kind, table) = (parts.map(|parts| parts.kind), parts.map(|parts| parts.table));
        let state = given_state(rng, &directory, held, table.unwrap_or(0));
        calls.push((state, frame));
        let input = || format!("{directory:?}\nfirst {start:?}\nstates and frames, the last one differs: {calls:?}");
        let answers = model.serve(&Model, directory, state, frame);
        let by_library = library.serve(judge.library, directory, state, frame);
        let reloaded = state.family == 2 && state != answers.state;
        let name = call_name(kind, answers.served.clear, burnt.contains(&table), reloaded);
        let HolderAnswer { served, state: left } = judge.answer(name, answers, by_library, &input)?;
        judge.same("memory after serve", &model.memory, &library.memory, &input)?;
        judge.same("flash after serve", &model.flash, &library.flash, &input)?;
        if served.number != 11 {
            held = Some(left);
        }
        if kind == Ok(BURN) && served.number == 0 {
            burnt.push(table);
        }
    }
    Ok(())
}

/// The first state of a family, known or not.
fn first_state(rng: &mut Rng, judge: &mut Judge) -> Outcome {
    let byte = rng.byte();
    let family = rng.pick(&[2, 3, 0, 1, 4, 255, byte, byte]);
    let input = || format!("family {family}");
    judge.answer("first_state", Model.first_state(family), judge.library.first_state(family), &input)?;
    Ok(())
}

/// Under which name an answer is counted; `burnt` says whether the list has burnt the frame's table before, `reloaded` whether this call has
/// reloaded it.
fn call_name(kind: Result<u8, Number>, clear: u8, burnt: bool, reloaded: bool) -> &'static str {
    match (kind, clear) {
        (Ok(CMD), _) if reloaded => "serve CMD, table reloaded",
        (Ok(CMD), _) if burnt => "serve CMD, table burnt before",
        (Ok(CMD), _) => "serve CMD",
        (Ok(REQ), _) if reloaded => "serve REQ, table reloaded",
        (Ok(REQ), 1) => "serve REQ, clear",
        (Ok(REQ), _) => "serve REQ",
        (Ok(BURN), _) if reloaded => "serve BURN, table reloaded",
        (Ok(BURN), _) if burnt => "serve BURN, table burnt before",
        (Ok(BURN), _) => "serve BURN",
        (Ok(XTND), 1) => "serve XTND, clear",
        (Ok(XTND), _) => "serve XTND",
        _ => "serve other",
    }
}

/// What the frames of a list are meant for: any tables; one, to write it, to burn it, to write it again and to read it; two in turn; or one
/// that is written, perhaps burnt, left for another and used again.
fn random_list(rng: &mut Rng, directory: &Directory) -> Vec<Meant> {
    let (one, other) = (tuned_table(rng, directory), tuned_table(rng, directory));
    let count = rng.within(1, 8);
    match rng.below(10) {
        0..=3 => vec![Meant::Any; count],
        4..=6 => (0..count).map(|_| meant_for(rng, &[one], &[CMD, CMD, BURN, BURN, REQ])).collect(),
        7 => (0..count).map(|_| meant_for(rng, &[one, other], &[CMD, CMD, REQ, REQ, BURN, XTND])).collect(),
        _ => left_table(rng, one, other),
    }
}

/// One of these tables, with one of these types.
fn meant_for(rng: &mut Rng, tables: &[usize], kinds: &[u8]) -> Meant {
    let (table, kind) = (rng.pick(tables), rng.pick(kinds));
    if rng.one_in(3) {
        Meant::For(table, kind)
    } else {
        Meant::Fitting(table, kind)
    }
}

/// A table is written, perhaps burnt and written again; another is touched, or nearly; the first is used again, mostly read.
fn left_table(rng: &mut Rng, one: usize, other: usize) -> Vec<Meant> {
    let mut list = vec![Meant::Fitting(one, CMD)];
    if rng.percent(50) {
        list.push(Meant::Fitting(one, BURN));
        list.extend(rng.percent(50).then_some(Meant::Fitting(one, CMD)));
    }
    list.push(meant_for(rng, &[other], &[CMD, REQ, REQ, BURN, XTND]));
    list.push(Meant::Fitting(one, rng.pick(&[REQ, REQ, CMD, BURN])));
    list
}

/// The state given to a call with a frame for a table: mostly the one that the last call left, if any; at times a new one or an unsound one.
fn given_state(rng: &mut Rng, directory: &Directory, left: Option<HolderState>, table: u8) -> HolderState {
    match (rng.below(30), left) {
        (0 | 1, _) => unsound_state(rng, directory, table),
        (3.., Some(state)) => state,
        _ => sound_state(rng, directory, table),
    }
}

/// A state with no current table, with this one, or with another; none where all are empty.
pub fn sound_state(rng: &mut Rng, directory: &Directory, table: u8) -> HolderState {
    let filled: Vec<u8> = (0..32).filter(|table| directory.sizes[*table as usize] > 0).collect();
    let none = HolderState { family: rng.pick(&[2, 2, 3]), has_current: 0, current: 0 };
    match rng.below(3) {
        0 if filled.contains(&table) => HolderState { has_current: 1, current: table, ..none },
        1 if !filled.is_empty() => HolderState { has_current: 1, current: rng.pick(&filled), ..none },
        _ => none,
    }
}

/// A state with one thing wrong, or at times two.
fn unsound_state(rng: &mut Rng, directory: &Directory, table: u8) -> HolderState {
    let mut state = sound_state(rng, directory, table);
    let empty: Vec<u8> = (0..32).filter(|table| directory.sizes[*table as usize] == 0).collect();
    let byte = rng.byte();
    match rng.below(5) {
        0 => state.family = rng.pick(&[0, 1, 4, 4, 5, 255, byte]),
        1 => state.has_current = rng.pick(&[2, 2, 3, 255, byte]),
        2 => (state.has_current, state.current) = (0, rng.pick(&[1, 31, 32, 255, table.max(1), byte])),
        3 if !empty.is_empty() => (state.has_current, state.current) = (1, rng.pick(&empty)),
        _ => (state.has_current, state.current) = (1, rng.pick(&[32, 32, 33, 32 + table, 64, 255, byte])),
    }
    if rng.one_in(8) {
        state.family = rng.pick(&[0, 1, 4, byte]);
    }
    state
}

/// Memory and flash, mostly of the right length and of different content: one of the two lengths is wrong, or both, alike or not.
fn random_memories(rng: &mut Rng, total: usize) -> Both {
    let (one, other) = (wrong_length(rng, total), wrong_length(rng, total));
    let (memory_len, flash_len) = match rng.below(40) {
        0 => (one, total),
        1 => (total, one),
        2 => (one, other),
        3 => (one, one),
        _ => (total, total),
    };
    let memory = rng.bytes(memory_len);
    let mut flash = rng.bytes(flash_len);
    if rng.one_in(6) {
        // as after a burn of all tables, then perhaps a byte changed
        let common = memory_len.min(flash_len);
        flash[..common].copy_from_slice(&memory[..common]);
        if rng.percent(50) && common > 0 {
            flash[rng.below(common)] ^= 1 << rng.below(8);
        }
    }
    Both { memory: Lent::new(&memory), flash: Lent::new(&flash) }
}

fn wrong_length(rng: &mut Rng, total: usize) -> usize {
    let any = rng.below(100);
    let length = rng.pick(&[total + 1, total + 1, total.saturating_sub(1), total.saturating_sub(1), 2 * total, 0, any]);
    if length == total {
        total + 1
    } else {
        length
    }
}

/// A table that may be written and burnt, if there is one.
fn tuned_table(rng: &mut Rng, directory: &Directory) -> usize {
    let may = |table: &usize| directory.sizes[*table] > 0 && directory.rights[*table] == 2;
    let tables: Vec<usize> = (0..32).filter(may).collect();
    if tables.is_empty() {
        rng.below(32)
    } else {
        rng.pick(&tables)
    }
}

pub fn random_directory(rng: &mut Rng) -> Directory {
    let mut directory = Directory {
        table_blocking: rng.u16(),
        write_blocking: rng.u16(),
        own: rng.below(16) as u8,
        ..Directory::default()
    };
    let large = rng.one_in(20);
    for table in 0..32 {
        directory.sizes[table] = match rng.below(8) {
            0 | 1 => 0,
            _ if large => rng.below(1200) as u16,
            _ => rng.below(40) as u16,
        };
        directory.rights[table] = rng.pick(&[0, 1, 1, 2, 2, 2, 2, 2]);
    }
    match rng.below(40) {
        0 => directory.sizes[rng.below(32)] = 2056,
        1 => directory.sizes[rng.below(32)] = rng.pick(&[2057, 2058, 4112, 65_535]),
        2 => directory.rights[rng.below(32)] = rng.pick(&[3, 4, 255]),
        3 => directory.own = rng.pick(&[16, 17, 255]),
        4 => {
            // a total of exactly 32,768, or one more
            directory.sizes = [1024; 32];
            directory.sizes[rng.below(32)] += rng.pick(&[0, 1]);
        }
        5 => directory.sizes = [rng.pick(&[1023, 1025, 2056]); 32],
        6 => directory.sizes = [0; 32],
        _ => {}
    }
    directory
}

/// A frame that would be served, with nothing to a few things changed.
pub fn random_frame(rng: &mut Rng, directory: &Directory) -> Frame {
    let edge = rng.pick(&[0, 31]); // the first or the last table; 0 also stands in a state where none is current
    let any = |rng: &mut Rng| if rng.one_in(8) { edge } else { rng.below(32) };
    let table = (0..4).map(|_| any(rng)).find(|table| directory.sizes[*table] > 0).unwrap_or(0);
    let kind = rng.pick(&[CMD, REQ, REQ, BURN, XTND]);
    frame_to(rng, directory, table, kind)
}

/// A frame for a table, of a type, that is served if the table has bytes and the right.
fn fitting_frame(rng: &mut Rng, directory: &Directory, table: usize, kind: u8) -> Frame {
    let size = directory.sizes[table] as usize;
    let count = rng.within(1, size.clamp(1, 8));
    let offset = rng.below(size.max(count) - count + 1);
    let (parts, asked) = parts_and_request(rng, directory, table, kind, offset, count);
    shaped(rng, parts, asked, count)
}

/// The same, with nothing to a few things changed.
fn frame_to(rng: &mut Rng, directory: &Directory, table: usize, kind: u8) -> Frame {
    let size = directory.sizes[table] as usize;
    let count = rng.within(1, 8);
    let near_end = (size + rng.below(3)).saturating_sub(count + 1);
    let offset = if rng.percent(60) { rng.below(size + 1) } else { near_end };
    let (mut parts, mut asked) = parts_and_request(rng, directory, table, kind, offset, count);
    if rng.one_in(16) {
        asked.count = rng.below(16) as u8;
    }
    if rng.one_in(16) {
        parts.kind = rng.pick(&[RSP, 3, BURN, 5, 6, CMD, REQ, XTND]);
    }
    if rng.one_in(16) {
        parts.to = rng.below(16) as u8;
    }
    if rng.one_in(16) {
        parts.table = rng.below(32) as u8;
    }
    let mut frame = shaped(rng, parts, asked, count);
    change_shape(rng, parts.kind, count, &mut frame);
    change_frame(rng, &mut frame);
    frame
}

/// The parts of a frame for so many bytes at an offset, and what it asks if it is a REQ or a query.
fn parts_and_request(
    rng: &mut Rng, directory: &Directory, table: usize, kind: u8, offset: usize, count: usize,
) -> (Parts, Request) {
    let any = rng.below(2048);
    let offset = if kind == BURN && rng.percent(60) { any } else { offset.min(2047) }; // a burn's is not looked at
    let parts =
        Parts { offset: offset as u16, kind, from: rng.below(16) as u8, to: directory.own % 16, table: table as u8 };
    let count = if kind == XTND { rng.pick(&[1, 5]) } else { count };
    (parts, Request { table: rng.below(32) as u8, count: count as u8, offset: rng.below(2048) as u16 })
}

/// A frame of these parts, with the length and the request bytes of its type; half of the requests with reserved bits set.
fn shaped(rng: &mut Rng, parts: Parts, asked: Request, count: usize) -> Frame {
    let mut bytes = request::bytes_of(asked).unwrap();
    if rng.percent(67) {
        bytes = with_reserved_bits(rng, bytes);
    }
    let mut frame = Frame { id: identifier::pack(parts).unwrap(), len: count as u8, bytes: [0; 8] };
    frame.bytes.copy_from_slice(&rng.bytes(8));
    match parts.kind {
        XTND => {
            frame.len = 4;
            frame.bytes[0] = 0x80;
            frame.bytes[1..4].copy_from_slice(&bytes);
        }
        3..=6 => frame.len = 0, // a burn, and the types beside it
        REQ => {
            frame.len = 3;
            frame.bytes[..3].copy_from_slice(&bytes);
        }
        _ => {}
    }
    frame
}

/// At times the shape of another frame: a burn with bytes, the acknowledgement of a burn or nearly, a CMD or RSP of a request's length.
fn change_shape(rng: &mut Rng, kind: u8, count: usize, frame: &mut Frame) {
    match kind {
        3..=6 if rng.one_in(6) => frame.len = count as u8,
        XTND if rng.one_in(5) => {
            frame.len = rng.pick(&[2, 2, 4]);
            frame.bytes[..2].copy_from_slice(&[0x0E, rng.pick(&[0, 1, 1])]);
        }
        CMD | RSP if rng.one_in(4) => {
            frame.len = 3;
            frame.bytes[0] %= 32;
            frame.bytes[2] &= 0xEF;
        }
        _ => {}
    }
}

/// At times another length, byte or bit.
fn change_frame(rng: &mut Rng, frame: &mut Frame) {
    match rng.below(40) {
        0 => frame.len = rng.below(9) as u8,
        1 => frame.len = rng.pick(&[9, 10, 16, 255]),
        2 => frame.len = 0,
        3 => frame.bytes[0] = rng.byte(),
        4 => frame.bytes[rng.below(4)] ^= 1 << rng.below(8),
        5 => frame.id |= rng.below(4) as u32,
        6 => frame.id |= 1 << rng.within(29, 31),
        7 => frame.id = rng.u32(),
        8 => frame.id ^= 1 << rng.below(32),
        _ => {}
    }
}
