//! Lists of up to 400 bridge calls: all calls, all kinds of transfers, wrong buffers, unsound states, tickets near
//! their end, slots that rest, some or all of the free ones, and lists long enough that their rests run out, replies right,
//! late, doubled, foreign, damaged, and equal or other than what a checked write sent. State, both buffers and answer are
//! compared after every call; turn, frame and close also in place.

use super::Outcome;
use crate::abi::*;
use crate::judge::{Difference, Judge, Lent};
use crate::model::bridge::{chunk, fresh, place};
use crate::model::{identifier, request, CMD, REQ, RSP};
use crate::rng::Rng;
use crate::side::{Buffers, BuffersMut, Model, Side};

#[derive(Clone, Debug)]
enum Call {
    OpenRead { device: u8, table: u8, offset: u16, count: usize },
    OpenWrite { checked: bool, device: u8, table: u8, offset: u16, bytes: Vec<u8> },
    Turn,
    Frame(Frame),
    Status(u32),
    Bytes(u32),
    Close(u32),
    Reset(u8),
}

/// The two buffers lent to a call.
#[derive(Clone, Debug, PartialEq)]
struct Both {
    first: Lent,
    second: Lent,
}

impl Both {
    fn get(&self) -> Buffers<'_> {
        Buffers { first: self.first.get(), second: self.second.get() }
    }

    fn get_mut(&mut self) -> BuffersMut<'_> {
        BuffersMut { first: self.first.get_mut(), second: self.second.get_mut() }
    }
}

/// One call; with another state or buffer than the list's own, the list's stay as they are.
#[derive(Clone, Debug)]
struct Step {
    call: Call,
    state: Option<Bridge>,
    first: Option<Lent>,
    second: Option<Lent>,
}

/// How likely things are in a list.
struct Manner {
    turns: usize,
    replies: usize,
    openings: usize,
    closings: usize,
    spoiled: usize,
    /// Of a hundred frames, how many are made wrong in some way.
    wrong_frames: usize,
    /// Of a hundred replies to a checked write, how many are made to bring other bytes than it sent.
    other_bytes: usize,
}

/// What the generator remembers of a list.
#[derive(Default)]
struct Past {
    requests: Vec<Frame>,
    replies: Vec<Frame>,
    tickets: Vec<u32>,
}

fn random_manner(rng: &mut Rng) -> Manner {
    Manner {
        turns: rng.pick(&[20, 45, 70, 90]),
        replies: rng.pick(&[0, 3, 15, 40]),
        openings: rng.pick(&[2, 8, 20]),
        closings: rng.pick(&[0, 2, 6]),
        spoiled: rng.pick(&[0, 3, 15]),
        wrong_frames: rng.pick(&[2, 20, 60]),
        other_bytes: rng.pick(&[2, 10, 50]),
    }
}

pub fn run(rng: &mut Rng, judge: &mut Judge) -> Outcome {
    let first_state = if rng.percent(50) { fresh(rng.below(16) as u8) } else { random_sound(rng) };
    let first_lent = Both { first: Lent::new(&rng.bytes(512)), second: Lent::new(&rng.bytes(512)) };
    let manner = random_manner(rng);
    let mut state = first_state;
    let mut lent = first_lent.clone();
    let mut past = Past::default();
    let mut steps = Vec::new();
    let longest = rng.pick(&[1, 10, 80, 400]);
    for _ in 0..rng.within(1, longest) {
        let call = random_call(rng, &manner, &state, lent.get(), &past);
        let spoil = rng.percent(manner.spoiled);
        let step = Step {
            call,
            state: (spoil && rng.percent(60)).then(|| damaged(rng, &state)),
            first: (spoil && rng.percent(35)).then(|| wrong_buffer(rng)),
            second: (spoil && rng.percent(35)).then(|| wrong_buffer(rng)),
        };
        steps.push(step.clone());
        let input = || {
            let calls: Vec<String> = steps.iter().map(|step| format!("{step:?}")).collect();
            format!(
                "first state {first_state:?}\nfirst buffers {first_lent:?}\ncalls, the last one differs:\n{}\n\
                 state before the last call {state:?}",
                calls.join("\n")
            )
        };
        let own = step.state.is_none() && step.first.is_none() && step.second.is_none();
        let given = step.state.unwrap_or(state);
        if step.state.is_some() {
            // whatever the call, a damaged state is judged by status too
            let ticket = random_ticket(rng, &given, &past);
            judge.answer("status", Model.status(given, ticket), judge.library.status(given, ticket), &input)?;
        }
        let now = Both {
            first: step.first.unwrap_or_else(|| lent.first.clone()),
            second: step.second.unwrap_or_else(|| lent.second.clone()),
        };
        let (after, filled) = compare(judge, &step.call, given, now, &mut past, &input)?;
        if own {
            (state, lent) = (after, filled);
        }
    }
    Ok(())
}

/// One call to be made on both sides, and what each lends it.
struct Made<'a> {
    state: Bridge,
    model: Both,
    library: Both,
    input: &'a dyn Fn() -> String,
}

/// Runs one call on both sides; hands back the state and buffers afterwards.
fn compare(
    judge: &mut Judge, call: &Call, state: Bridge, lent: Both, past: &mut Past, input: &dyn Fn() -> String,
) -> Result<(Bridge, Both), Difference> {
    let side = judge.library;
    let mut made = Made { state, model: lent.clone(), library: lent, input };
    let after = match call {
        Call::OpenRead { device, table, offset, count } => {
            let one = Model.open_read(state, made.model.get(), *device, *table, *offset, *count);
            let other = side.open_read(state, made.library.get(), *device, *table, *offset, *count);
            opened(judge.answer("open_read", one, other, input)?, past)
        }
        Call::OpenWrite { checked, device, table, offset, bytes } => {
            opened(made.open_write(judge, *checked, *device, *table, *offset, bytes)?, past)
        }
        Call::Turn => made.turn(judge, past)?,
        Call::Frame(frame) => {
            past.replies.push(*frame);
            made.frame(judge, *frame)?
        }
        Call::Status(ticket) => {
            judge.answer("status", Model.status(state, *ticket), side.status(state, *ticket), input)?;
            state
        }
        Call::Bytes(ticket) => {
            let one = Model.span(state, made.model.get().first, *ticket);
            let other = side.span(state, made.library.get().first, *ticket);
            judge.answer("bytes", one, other, input)?;
            state
        }
        Call::Close(ticket) => made.close(judge, *ticket)?,
        Call::Reset(own) => judge.answer("reset", Model.reset(state, *own), side.reset(state, *own), input)?.bridge,
    };
    judge.same("buffers afterwards", &made.model, &made.library, input)?;
    Ok((after, made.model))
}

/// The bridge after an opening, whose ticket is remembered.
fn opened(answer: Opened, past: &mut Past) -> Bridge {
    past.tickets.push(answer.ticket);
    answer.bridge
}

impl Made<'_> {
    /// The opening of a write, or of a checked one.
    fn open_write(
        &mut self, judge: &mut Judge, checked: bool, device: u8, table: u8, offset: u16, bytes: &[u8],
    ) -> Result<Opened, Difference> {
        let state = self.state;
        let open = |side: &dyn Side, lent: BuffersMut, bytes: &[u8]| match checked {
            false => side.open_write(state, lent, device, table, offset, bytes),
            true => side.open_check(state, lent, device, table, offset, bytes),
        };
        let name = if checked { "open_check" } else { "open_write" };
        let written = Lent::new(bytes);
        let one = open(&Model, self.model.get_mut(), bytes);
        let other = open(judge.library, self.library.get_mut(), written.get());
        judge.same(&format!("bytes lent to {name}"), &Lent::new(bytes), &written, self.input)?;
        judge.answer(name, one, other, self.input)
    }

    fn turn(&mut self, judge: &mut Judge, past: &mut Past) -> Result<Bridge, Difference> {
        let one = Model.turn(self.state, self.model.get());
        let other = judge.library.turn(self.state, self.library.get());
        let stepped = judge.answer("turn", one, other, self.input)?;
        let (mut here, mut there) = (self.state, self.state);
        let one = Model.turn_in_place(&mut here, self.model.get());
        let other = judge.library.turn_in_place(&mut there, self.library.get());
        judge.answer("turn_in_place", one, other, self.input)?;
        judge.same("state after turn_in_place", &here, &there, self.input)?;
        if stepped.answer.frames == 1 && stepped.answer.frame.len == 3 {
            past.requests.push(stepped.answer.frame);
        }
        Ok(stepped.bridge)
    }

    fn frame(&mut self, judge: &mut Judge, frame: Frame) -> Result<Bridge, Difference> {
        let (mut here, mut there) = (self.state, self.state);
        let (mut lent_here, mut lent_there) = (self.model.clone(), self.library.clone());
        let one = Model.frame(self.state, self.model.get_mut(), frame);
        let other = judge.library.frame(self.state, self.library.get_mut(), frame);
        let stepped = judge.answer("frame", one, other, self.input)?;
        let one = Model.frame_in_place(&mut here, lent_here.get_mut(), frame);
        let other = judge.library.frame_in_place(&mut there, lent_there.get_mut(), frame);
        judge.answer("frame_in_place", one, other, self.input)?;
        judge.same("state after frame_in_place", &here, &there, self.input)?;
        judge.same("buffers after frame_in_place", &lent_here, &lent_there, self.input)?;
        Ok(stepped.bridge)
    }

    fn close(&self, judge: &mut Judge, ticket: u32) -> Result<Bridge, Difference> {
        let (one, other) = (Model.close(self.state, ticket), judge.library.close(self.state, ticket));
        let changed = judge.answer("close", one, other, self.input)?;
        let (mut here, mut there) = (self.state, self.state);
        let one = Model.close_in_place(&mut here, ticket);
        let other = judge.library.close_in_place(&mut there, ticket);
        judge.answer("close_in_place", one, other, self.input)?;
        judge.same("state after close_in_place", &here, &there, self.input)?;
        Ok(changed.bridge)
    }
}

fn random_call(rng: &mut Rng, manner: &Manner, state: &Bridge, lent: Buffers, past: &Past) -> Call {
    let weights = [manner.turns, manner.replies, manner.openings, manner.closings, 4, 4];
    let mut at = rng.below(weights.iter().sum());
    let mut choice = 0;
    while at >= weights[choice] {
        at -= weights[choice];
        choice += 1;
    }
    match choice {
        0 => Call::Turn,
        // without a waiting slot, mostly a turn, so that one may come to wait
        1 if rng.percent(70) && state.slots.iter().all(|slot| slot.phase != WAITING) => Call::Turn,
        1 if rng.percent(manner.wrong_frames / 4) && !past.replies.is_empty() => Call::Frame(rng.pick(&past.replies)),
        1 => Call::Frame(random_reply(rng, manner, state, lent, past)),
        2 => random_opening(rng),
        3 if rng.one_in(12) => Call::Reset(rng.pick(&[0, 1, 7, 15, 15, 16, 255])),
        3 => Call::Close(random_ticket(rng, state, past)),
        4 => Call::Status(random_ticket(rng, state, past)),
        _ => Call::Bytes(random_ticket(rng, state, past)),
    }
}

fn random_count(rng: &mut Rng) -> usize {
    match rng.below(3) {
        0 => rng.within(1, 128),
        1 => rng.within(1, 24),
        _ => rng.pick(&[1, 7, 8, 9, 15, 16, 17, 120, 121, 127, 128]),
    }
}

fn random_opening(rng: &mut Rng) -> Call {
    let mut device = rng.below(16) as u8;
    let mut table = rng.below(32) as u8;
    let mut count = random_count(rng);
    let mut offset = if rng.percent(50) { rng.below(2049 - count) } else { rng.pick(&[0, 2048 - count]) } as u16;
    for _ in 0..rng.pick(&[0, 0, 0, 0, 1, 1, 2]) {
        match rng.below(4) {
            0 => device = rng.pick(&[15, 16, 255]),
            1 => table = rng.pick(&[31, 32, 255]),
            2 => count = rng.pick(&[0, 129, 130, 256, 257, 300]),
            _ => offset = rng.pick(&[2047, 2048, 2049 - count.min(2049), 65_535, 65_408]) as u16,
        }
    }
    match rng.below(5) {
        0 | 1 => {
            let huge = rng.pick(&[256 + count, 1 << 32, (1 << 32) + count, usize::MAX, usize::MAX - 100]);
            Call::OpenRead { device, table, offset, count: if rng.one_in(40) { huge } else { count } }
        }
        choice => Call::OpenWrite { checked: choice > 2, device, table, offset, bytes: rng.bytes(count) },
    }
}

fn random_ticket(rng: &mut Rng, state: &Bridge, past: &Past) -> u32 {
    match rng.below(12) {
        0 => 0,
        1 => state.issued,
        2 => state.issued.wrapping_add(1),
        3 => rng.u32(),
        4 | 5 if !past.tickets.is_empty() => rng.pick(&past.tickets),
        _ => {
            let held: Vec<u32> = state.slots.iter().map(|slot| slot.ticket).filter(|ticket| *ticket != 0).collect();
            if held.is_empty() {
                1
            } else {
                rng.pick(&held)
            }
        }
    }
}

/// A frame for the bridge: the awaited reply of a waiting slot, or something near it.
fn random_reply(rng: &mut Rng, manner: &Manner, state: &Bridge, lent: Buffers, past: &Past) -> Frame {
    let waiting: Vec<usize> = (0..4).filter(|index| state.slots[*index].phase == WAITING).collect();
    let index = if waiting.is_empty() { rng.below(4) } else { rng.pick(&waiting) };
    let slot = state.slots[index];
    let mut parts = Parts { offset: place(&slot, index) as u16, kind: RSP, from: slot.device, to: state.own, table: 6 };
    let mut len = chunk(&slot) as u8;
    if rng.percent(manner.wrong_frames / 2) && !past.requests.is_empty() {
        // the device's reply to a request sent earlier, perhaps late or given already
        let sent = rng.pick(&past.requests);
        let (asked, _) = request::read(sent.bytes[0], sent.bytes[1], sent.bytes[2]);
        let to = identifier::unpack(sent.id).unwrap();
        if asked.count <= 8 {
            parts = Parts { offset: asked.offset, kind: RSP, from: to.to, to: to.from, table: asked.table };
            len = asked.count;
        }
    }
    if rng.percent(manner.wrong_frames) {
        match rng.below(9) {
            0 => parts.from = rng.below(16) as u8,
            1 => parts.to = rng.below(16) as u8,
            2 => parts.table = rng.pick(&[5, 6, 7, 22, 0]),
            3 => parts.kind = rng.pick(&[CMD, REQ, 3, 4, 5, 6, 7]),
            4 => parts.offset = (parts.offset + rng.pick(&[1, 8, 128, 2040, 512])) % 2048,
            5 => parts.offset ^= 1 << rng.below(11),
            6 => len = rng.below(9) as u8,
            7 => len = rng.pick(&[8, 9, 16, 255]),
            _ => parts.offset = rng.below(512) as u16,
        }
    }
    let mut frame = Frame { id: identifier::pack(parts).unwrap_or(0), len, bytes: [0; 8] };
    frame.bytes.copy_from_slice(&brought(rng, manner, lent, parts.offset as usize, len as usize));
    match rng.below(60) {
        0 => frame.id |= rng.within(1, 3) as u32,
        1 => frame.id |= 1 << rng.within(29, 31),
        2 => frame.id = rng.u32(),
        3 => frame.id ^= 1 << rng.below(32),
        _ => {}
    }
    frame
}

/// The bytes of a reply: mostly the second buffer's at its place, so that a checked write goes on; those past its length count for nothing.
fn brought(rng: &mut Rng, manner: &Manner, lent: Buffers, place: usize, len: usize) -> Vec<u8> {
    let at = |buffer: &[u8]| -> Vec<u8> { (0..8).map(|i| buffer.get(place + i).copied().unwrap_or(0)).collect() };
    let mut bytes = at(lent.second);
    if rng.percent(manner.other_bytes) {
        match rng.below(4) {
            0 => bytes = at(lent.first),
            1 => bytes = rng.bytes(8),
            2 => bytes[rng.below(len.clamp(1, 8))] ^= 1 << rng.below(8),
            _ => bytes[0] ^= 1 << rng.below(8),
        }
    }
    if rng.percent(50) && len < 8 {
        bytes.truncate(len);
        bytes.extend(rng.bytes(8 - len));
    }
    bytes
}

fn wrong_buffer(rng: &mut Rng) -> Lent {
    let length = rng.pick(&[0, 1, 128, 511, 513, 1024]);
    Lent::new(&rng.bytes(length))
}

/// A sound state, in no way reached by calls.
fn random_sound(rng: &mut Rng) -> Bridge {
    let issued = match rng.below(4) {
        0 => rng.within(4, 20) as u32,
        1 => rng.u32().max(4),
        2 => u32::MAX,
        _ => u32::MAX - rng.below(5) as u32,
    };
    let (own, last, rests) = (rng.below(16) as u8, rng.below(4) as u8, random_rests(rng));
    let mut state = Bridge { slots: [Slot::default(); 4], issued, own, last, rests };
    // four different tickets: the last given, less four different steps back
    let mut steps: Vec<u32> = (0..4).collect();
    for index in 0..4 {
        steps.swap(index, rng.below(4));
    }
    for index in 0..4 {
        if rng.percent(70) {
            state.slots[index] = random_slot(rng, issued - steps[index]);
        }
    }
    state
}

/// Each slot's turns left to rest: none, some or all of the slots rest, free or held.
fn random_rests(rng: &mut Rng) -> [u8; 4] {
    let some: &[u8] = match rng.below(4) {
        0 => &[0],
        1 => &[1, 2, 59, 60],
        _ => &[0, 0, 0, 1, 2, 3, 20, 59, 60],
    };
    [(); 4].map(|_| rng.pick(some))
}

fn random_slot(rng: &mut Rng, ticket: u32) -> Slot {
    let count = random_count(rng);
    let started = count.div_ceil(8);
    let progress = 8 * rng.below(started);
    let mut slot = Slot {
        ticket,
        offset: rng.below(2049 - count) as u16,
        phase: READY,
        kind: rng.pick(&[READ, WRITE, READ_BACK, READ_BACK, CHECK]),
        device: rng.below(16) as u8,
        table: rng.below(32) as u8,
        count: count as u8,
        progress: progress as u8,
        sends: 0,
        left: 0,
    };
    let phases: &[u8] = match slot.kind {
        READ => &[READY, WAITING, WAITING, DONE, GAVE_UP],
        READ_BACK => &[READY, WAITING, WAITING, WAITING, DONE, GAVE_UP, DIFFERENT],
        WRITE => &[READY, DONE],
        _ => &[READY],
    };
    slot.phase = rng.pick(phases);
    match slot.phase {
        READY if [READ, READ_BACK].contains(&slot.kind) => slot.sends = rng.below(3) as u8,
        WAITING => {
            slot.sends = rng.within(1, 3) as u8;
            slot.left = rng.within(1, 20) as u8;
        }
        GAVE_UP => slot.sends = 3,
        DONE => slot.progress = slot.count,
        _ => {}
    }
    slot
}

/// A held slot that is not sound: a checked write that is more than sending, a difference where there is none, or a kind
/// or phase that is none.
fn unsound_check(rng: &mut Rng, ticket: u32) -> Slot {
    let slot = loop {
        let slot = random_slot(rng, ticket);
        if slot.phase == READY {
            break Slot { sends: 0, ..slot };
        }
    };
    let sending = Slot { kind: CHECK, ..slot };
    let different = Slot { kind: READ_BACK, phase: DIFFERENT, ..slot };
    match rng.below(12) {
        0 => Slot { phase: DONE, progress: slot.count, ..sending },
        1 => Slot { phase: WAITING, sends: 1, left: rng.within(1, 20) as u8, ..sending },
        2 => Slot { phase: GAVE_UP, sends: 3, ..sending },
        3 => Slot { phase: DIFFERENT, ..sending },
        4 => Slot { sends: rng.within(1, 2) as u8, ..sending },
        5 => Slot { kind: rng.pick(&[READ, WRITE]), ..different },
        6 => Slot { sends: rng.within(1, 3) as u8, ..different },
        7 => Slot { left: rng.within(1, 20) as u8, ..different },
        8 => Slot { progress: slot.count, ..different },
        9 => Slot { progress: slot.progress + rng.within(1, 7) as u8, ..different },
        10 => Slot { kind: rng.within(4, 255) as u8, ..slot },
        _ => Slot { phase: rng.within(6, 255) as u8, kind: rng.below(4) as u8, ..slot },
    }
}

/// The state with a slot that is not sound for what it says of a checked write.
fn with_unsound_check(rng: &mut Rng, state: &Bridge) -> Bridge {
    let held: Vec<usize> = (0..4).filter(|index| state.slots[*index].phase != FREE).collect();
    let mut state = *state;
    let (index, ticket) = match held.is_empty() {
        true => (rng.below(4), 1),
        false => {
            let index = rng.pick(&held);
            (index, state.slots[index].ticket)
        }
    };
    state.issued = state.issued.max(1);
    state.slots[index] = unsound_check(rng, ticket);
    state
}

/// The state with one thing changed: mostly unsound, sometimes still sound.
fn damaged(rng: &mut Rng, state: &Bridge) -> Bridge {
    if rng.percent(40) {
        return with_unsound_check(rng, state);
    }
    let mut state = *state;
    let index = rng.below(4);
    let other = state.slots[(index + rng.within(1, 3)) % 4].ticket;
    let issued = state.issued;
    let (byte, word, long) = (rng.byte(), rng.u16(), rng.u32());
    let choice = rng.below(15);
    if choice == 0 {
        state.own = rng.pick(&[16, 17, 255, byte]);
    } else if choice == 1 {
        state.last = rng.pick(&[4, 5, 255, byte]);
    } else if choice == 2 {
        state.issued = rng.pick(&[0, issued.wrapping_sub(1), issued / 2, long]);
    } else if choice == 13 {
        state.rests[index] = rng.pick(&[61, 61, 62, 128, 255, byte]);
    } else if choice == 14 {
        state.rests = random_rests(rng);
    }
    let slot = &mut state.slots[index];
    match choice {
        3 => slot.phase = rng.pick(&[0, 1, 2, 3, 4, 5, 6, 255]),
        4 => slot.kind = rng.pick(&[0, 1, 2, 3, 4, 255]),
        5 => slot.ticket = rng.pick(&[0, other, issued, issued.wrapping_add(1), long]),
        6 => slot.offset = rng.pick(&[2048, 2049 - slot.count.min(200) as u16, 2048 - slot.count as u16, word]),
        7 => slot.device = rng.pick(&[15, 16, 255, byte]),
        8 => slot.table = rng.pick(&[31, 32, 255, byte]),
        9 => slot.count = rng.pick(&[0, 128, 129, 255, slot.progress, byte]),
        10 => slot.progress = rng.pick(&[0, 8, 1, slot.count, slot.count.wrapping_add(8), byte]),
        11 => slot.sends = rng.pick(&[0, 1, 2, 3, 4, 255]),
        12 => slot.left = rng.pick(&[0, 1, 20, 21, 255]),
        _ => {}
    }
    state
}
