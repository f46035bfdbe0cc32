//! Tests of the model against 01's sentences that the reckonings leave out, and against
//! the customer's demands.

use crate::abi::*;
use crate::judge::Judge;
use crate::kinds::holder::{random_directory, random_frame, run, sound_state};
use crate::model::bridge::{self, fresh, Buffers};
use crate::model::holder::{Left, Memories};
use crate::model::{be32, frd, holder, identifier, listing, mlg, request, value, zero_ended, Number};
use crate::model::{BURN, CMD, REQ, XTND};
use crate::rng::Rng;
use crate::side::{Model, Side};

#[test]
fn identifiers_pack_and_unpack() {
    let mut rng = Rng::new(1, 100, 0);
    for _ in 0..100_000 {
        let id = rng.u32() & 0x1FFF_FFFC;
        assert_eq!(identifier::pack(identifier::unpack(id).unwrap()), Ok(id));
    }
}

#[test]
fn every_request_is_written_and_read() {
    for table in 0..32 {
        for count in 0..16 {
            for offset in 0..2048 {
                let asked = Request { table, count, offset };
                let [first, second, third] = request::bytes_of(asked).unwrap();
                assert_eq!(request::read(first, second, third), (asked, true));
            }
        }
    }
}

/// 02, C-16: "Packing still writes zeros, so packing after reading returns the same bytes only for clear ones.", for all bytes.
#[test]
fn packing_after_reading() {
    for bytes in 0..1u32 << 24 {
        let [_, first, second, third] = bytes.to_be_bytes();
        let (asked, clear) = request::read(first, second, third);
        let packed = request::bytes_of(asked).unwrap();
        assert_eq!(packed == [first, second, third], clear);
        assert_eq!(packed, [first % 32, second, third - third / 16 % 2 * 16]);
    }
}

/// 02, C-16: a REQ or a protocol query is answered, or refused, as the same with its reserved bits 0; the mark says whether they were.
#[test]
fn reserved_bits_change_the_mark_alone() {
    let mut rng = Rng::new(1, 105, 0);
    let (mut marks, mut refused) = ([0; 2], [0; 12]);
    for _ in 0..20_000 {
        let directory = random_directory(&mut rng);
        let lent = random_memories(&mut rng, &directory);
        let (frame, state) = (random_frame(&mut rng, &directory), sound_state(&mut rng, &directory, 0));
        let at = match (identifier::unpack(frame.id).map(|parts| parts.kind), frame.bytes[0]) {
            (Ok(REQ), _) => 0,
            (Ok(XTND), 0x80) => 1,
            _ => {
                let answer = holder::serve(&directory, &state, &lent, &frame);
                assert!(answer.is_err() || answer.unwrap().answer.is_none_or(|(_, clear)| !clear));
                continue;
            }
        };
        let mut cleared = frame;
        cleared.bytes[at] %= 32;
        cleared.bytes[at + 2] &= 0xEF;
        let wanted = holder::serve(&directory, &state, &lent, &cleared);
        let answer = holder::serve(&directory, &state, &lent, &frame);
        match &answer {
            Ok(left) => marks[left.answer.unwrap().1 as usize] += 1,
            Err(number) => refused[*number as usize] += (frame != cleared) as u32,
        }
        let marked =
            wanted.map(|left| Left { answer: left.answer.map(|(reply, _)| (reply, frame == cleared)), ..left });
        assert_eq!(answer, marked);
    }
    assert!(marks.iter().all(|count| *count > 1000), "{marks:?}");
    assert!([3, 4, 6, 7, 8, 9, 11].iter().all(|number| refused[*number] > 10), "{refused:?}");
}

/// Both memories of a directory's total length, of different content.
fn random_memories(rng: &mut Rng, directory: &Directory) -> Memories {
    let total = holder::total(directory);
    Memories { working: rng.bytes(total), flash: rng.bytes(total) }
}

/// A device whose tables are kept one by one: what each has in working memory, and in the flash; its family, and the table of the last served
/// CMD, REQ or BURN.
struct Tables {
    working: Vec<Vec<u8>>,
    flash: Vec<Vec<u8>>,
    family: u8,
    last: Option<u8>,
}

impl Tables {
    fn new(directory: &Directory, lent: &Memories, family: u8) -> Tables {
        let split = |memory: &[u8]| -> Vec<Vec<u8>> {
            let mut rest = memory.iter().copied();
            directory.sizes.iter().map(|size| rest.by_ref().take(*size as usize).collect()).collect()
        };
        Tables { working: split(&lent.working), flash: split(&lent.flash), family, last: None }
    }

    /// What a holder is left with that has done the same.
    fn left(&self) -> (HolderState, Memories) {
        let (has_current, current) = self.last.map_or((0, 0), |table| (1, table));
        let state = HolderState { family: self.family, has_current, current };
        (state, Memories { working: self.working.concat(), flash: self.flash.concat() })
    }

    /// A frame that was served: what it reloads, writes or burns, and what is answered to a CMD, a BURN and a REQ.
    fn take(&mut self, own: u8, parts: Parts, frame: &Frame, answer: Option<holder::Answer>) {
        let (table, offset) = (parts.table as usize, parts.offset as usize);
        if parts.kind != XTND && self.last.replace(parts.table) != Some(parts.table) && self.family == 2 {
            self.working[table] = self.flash[table].clone();
        }
        match parts.kind {
            CMD => {
                let bytes = &frame.bytes[..frame.len as usize];
                self.working[table][offset..offset + bytes.len()].copy_from_slice(bytes);
                assert_eq!(answer, None);
            }
            BURN => {
                self.flash[table] = self.working[table].clone();
                let (reply, clear) = answer.unwrap();
                let to = Parts { offset: 0, kind: XTND, from: own, to: parts.from, table: parts.table };
                assert_eq!(identifier::unpack(reply.id), Ok(to));
                assert_eq!((reply.len, reply.bytes, clear), (2, [0x0E, 0x01, 0, 0, 0, 0, 0, 0], false));
            }
            REQ => {
                let (reply, _) = answer.unwrap();
                let len = (frame.bytes[2] % 16) as usize;
                assert_eq!(reply.len as usize, len);
                assert_eq!(reply.bytes[..len], self.working[table][offset..offset + len]);
            }
            _ => assert!(parts.kind == XTND && frame.bytes[0] == 0x80),
        }
    }
}

/// 02, C-11: "A burn makes the flash bytes of that table equal to the table's and touches no other flash byte; working memory doesn't
/// change." Whatever is written after it, the flash has each table as at its last burn. C-13: "remembers the current table: none at first, then
/// on either family that of the last served CMD, REQ or BURN"; "On the older family a served CMD, REQ or BURN for any table not current first
/// makes its working bytes equal to its flash bytes, then acts."
#[test]
fn holders_keep_tables() {
    let mut rng = Rng::new(1, 106, 0);
    let (mut burns, mut written_after, mut forgotten, mut refused) = (0, 0, 0, [0; 12]);
    for family in [2, 3].repeat(200) {
        let directory = random_directory(&mut rng);
        let mut lent = random_memories(&mut rng, &directory);
        let mut state = holder::first_state(family).unwrap();
        let mut tables = Tables::new(&directory, &lent, state.family);
        let mut burnt = [false; 32];
        for _ in 0..300 {
            let frame = random_frame(&mut rng, &directory);
            match holder::serve(&directory, &state, &lent, &frame) {
                Ok(left) => {
                    let parts = identifier::unpack(frame.id).unwrap();
                    let before = tables.working[parts.table as usize].clone();
                    tables.take(directory.own, parts, &frame, left.answer);
                    (state, lent) = (left.state, left.lent);
                    burns += (parts.kind == BURN) as u32;
                    written_after += (parts.kind == CMD && burnt[parts.table as usize]) as u32;
                    forgotten += (parts.kind == REQ && before != tables.working[parts.table as usize]) as u32;
                    burnt[parts.table as usize] |= parts.kind == BURN;
                }
                Err(number) => refused[number as usize] += 1,
            }
            assert_eq!((state, &lent), (tables.left().0, &tables.left().1));
        }
    }
    assert!(burns > 1000 && written_after > 1000, "{burns} burns, {written_after} writes after them");
    assert!(forgotten > 1000, "{forgotten} requests that reload other bytes");
    assert!([1, 2, 3, 4, 5, 6, 7, 8, 9, 11].iter().all(|number| refused[*number] > 10), "{refused:?}");
}

/// 02, C-13: what the families share. A frame is served on the older family as on the other with the table reloaded by hand, if it was not
/// current; and refused on both alike.
#[test]
fn families_differ_by_the_reload() {
    let mut rng = Rng::new(1, 108, 0);
    let (mut reloads, mut others, mut refused) = (0, 0, 0);
    for _ in 0..20_000 {
        let directory = random_directory(&mut rng);
        let lent = random_memories(&mut rng, &directory);
        let frame = random_frame(&mut rng, &directory);
        let parts = identifier::unpack(frame.id).unwrap_or_default();
        let older = HolderState { family: 2, ..sound_state(&mut rng, &directory, parts.table) };
        let newer = HolderState { family: 3, ..older };
        let current = older.has_current == 1 && older.current == parts.table;
        let mut found = lent.clone();
        if parts.kind != XTND && !current && holder::serve(&directory, &older, &lent, &frame).is_ok() {
            let place = holder::place(&directory, parts.table);
            found.working[place.clone()].copy_from_slice(&lent.flash[place]);
            reloads += 1;
        }
        let wanted = holder::serve(&directory, &newer, &found, &frame);
        let wanted = wanted.map(|left| Left { state: HolderState { family: 2, ..left.state }, ..left });
        let answer = holder::serve(&directory, &older, &lent, &frame);
        others += (answer.is_ok() && found == lent) as u32;
        refused += answer.is_err() as u32;
        assert_eq!(answer, wanted);
    }
    assert!(reloads > 1000 && others > 1000 && refused > 1000, "{reloads} reloads, {others} others, {refused} refused");
}

/// 02, C-13: "11 for an unknown family or a current table empty or over 31", of all states; what is unused is 0. The frame is for another
/// device, so 4 where the state is sound.
#[test]
fn soundness_of_states() {
    let mut directory = Directory { own: 9, ..Directory::default() };
    (directory.sizes[0], directory.sizes[5], directory.sizes[31]) = (1, 2056, 3);
    let lent = Memories { working: vec![1; 2060], flash: vec![2; 2060] };
    let frame = holder::frame(Parts { to: 8, ..Parts::default() }, &[1]);
    let mut sound = Vec::new();
    for bytes in 0..1u32 << 24 {
        let [_, family, has_current, current] = bytes.to_be_bytes();
        let state = HolderState { family, has_current, current };
        match holder::serve(&directory, &state, &lent, &frame) {
            Err(4) => sound.push([family, has_current, current]),
            answer => assert_eq!(answer, Err(11)),
        }
    }
    let of_family = |family| [[family, 0, 0], [family, 1, 0], [family, 1, 5], [family, 1, 31]];
    assert_eq!(sound, [of_family(2), of_family(3)].concat());
    let all_empty = Directory { sizes: [0; 32], ..directory };
    assert!([2, 3].iter().all(|family| holder::sound_state(&all_empty, &holder::first_state(*family).unwrap())));
}

/// A refusal hands back the state that it was given, sound or not, and a query too; neither memory changes. 11 comes before 10.
#[test]
fn states_that_stay() {
    let mut directory = Directory { own: 9, sizes: [8; 32], rights: [1; 32], ..Directory::default() };
    directory.sizes[31] = 0;
    let to_20 = |kind, bytes: &[u8]| holder::frame(Parts { offset: 1, kind, from: 12, to: 9, table: 20 }, bytes);
    let frames = [(to_20(CMD, &[1]), 7), (to_20(REQ, &[6, 0, 8]), 8), (to_20(XTND, &[0x80, 6, 0, 1]), 0)];
    let stays = |(family, has_current, current), len, frame, number| {
        let state = HolderState { family, has_current, current };
        let (mut memory, mut flash) = (vec![1; len], vec![2; 248]);
        let answer = Model.serve(directory, state, &mut memory, &mut flash, frame);
        assert_eq!((answer.served.number, answer.state), (number, state));
        assert_eq!((memory, flash), (vec![1; len], vec![2; 248]));
    };
    for (frame, number) in frames {
        for sound in [(2, 1, 7), (2, 0, 0), (3, 1, 20), (3, 0, 0)] {
            stays(sound, 248, frame, number);
            stays(sound, 247, frame, 10);
        }
        for unsound in [(4, 1, 7), (1, 0, 0), (2, 2, 7), (2, 0, 7), (3, 1, 32), (2, 1, 31)] {
            stays(unsound, 248, frame, 11);
            stays(unsound, 247, frame, 11);
        }
    }
}

/// The inputs of the comparison: more frames are served than refused, and among them are CMD, REQ and BURN that reload a table.
#[test]
fn most_holder_frames_are_served() {
    let mut judge = Judge::new(&Model);
    for iteration in 0..2500 {
        run(&mut Rng::new(1, 2, iteration), &mut judge).unwrap();
    }
    let calls = judge.tally.iter().filter(|((name, _), _)| name.starts_with("serve"));
    let (served, refused): (Vec<_>, Vec<_>) = calls.partition(|((_, number), _)| *number == 0);
    let sum = |counts: &[(&(&str, u8), &u64)]| counts.iter().map(|(_, count)| **count).sum::<u64>();
    assert!(sum(&served) > sum(&refused), "{served:?} {refused:?}");
    let reloaded: Vec<_> =
        served.iter().filter(|((name, _), count)| name.ends_with("reloaded") && **count > 100).collect();
    assert_eq!(reloaded.len(), 3, "{served:?}");
}

/// 02, C-11: "offset not looked at", of every table and from every sender, where the table is current.
#[test]
fn a_burns_offset_is_not_looked_at() {
    let mut rng = Rng::new(1, 107, 0);
    let mut directory = Directory { own: 9, rights: [2; 32], ..Directory::default() };
    directory.sizes = [(); 32].map(|_| rng.within(1, 5) as u16);
    let lent = random_memories(&mut rng, &directory);
    for (family, table) in [2, 3].into_iter().flat_map(|family| (0..32).map(move |table| (family, table))) {
        let state = HolderState { family, has_current: 1, current: table };
        let mut tables = Tables { last: Some(table), ..Tables::new(&directory, &lent, family) };
        for offset in 0..2048 {
            let parts = Parts { offset, kind: BURN, from: (offset % 16) as u8, to: 9, table };
            let frame = Frame { bytes: [7; 8], ..holder::frame(parts, &[]) };
            let left = holder::serve(&directory, &state, &lent, &frame).unwrap();
            tables.take(9, parts, &frame, left.answer);
            assert_eq!((left.state, left.lent), tables.left());
        }
    }
}

/// A burn's numbers in order: at first all that may be wrong is, and each is put right in its turn. 02, C-11: "10 also for a flash of
/// the wrong length".
#[test]
fn refusals_of_a_burn() {
    let parts = Parts { offset: 2047, kind: 5, from: 12, to: 8, table: 20 };
    let mut frame = Frame { id: (1 << 29) + 3 + identifier::pack(parts).unwrap(), len: 9, bytes: [1; 8] };
    let mut directory = Directory { own: 16, ..Directory::default() };
    (directory.sizes[3], directory.sizes[20]) = (4, 0);
    let mut lent = Memories { working: vec![1; 3], flash: vec![2; 11] };
    let state = holder::first_state(2).unwrap();
    let number =
        |directory: &Directory, lent: &Memories, frame: &Frame| holder::serve(directory, &state, lent, frame).err();
    assert_eq!(number(&directory, &lent, &frame), Some(11));
    directory.own = 9;
    assert_eq!(number(&directory, &lent, &frame), Some(10));
    lent.working.push(1);
    assert_eq!(number(&directory, &lent, &frame), Some(10));
    lent.flash.truncate(4);
    assert_eq!(number(&directory, &lent, &frame), Some(1));
    frame.id -= 1 << 29;
    assert_eq!(number(&directory, &lent, &frame), Some(2));
    frame.id -= 3;
    assert_eq!(number(&directory, &lent, &frame), Some(3));
    frame.len = 8;
    assert_eq!(number(&directory, &lent, &frame), Some(4));
    frame.id = identifier::pack(Parts { to: 9, ..parts }).unwrap();
    assert_eq!(number(&directory, &lent, &frame), Some(5));
    frame.id = identifier::pack(Parts { to: 9, kind: BURN, ..parts }).unwrap();
    assert_eq!(number(&directory, &lent, &frame), Some(6));
    frame.len = 0;
    assert_eq!(number(&directory, &lent, &frame), Some(7));
    directory.rights[20] = 2; // the table is empty still
    assert_eq!(number(&directory, &lent, &frame), Some(7));
    (directory.sizes[3], directory.sizes[20]) = (0, 4);
    assert_eq!(number(&directory, &lent, &frame), None);
    for right in [0, 1] {
        directory.rights[20] = right;
        assert_eq!(number(&directory, &lent, &frame), Some(7));
    }
}

/// 02, C-11: "A second lent memory, as long as the first", and so of the total length: 10 for any other, whatever the frame.
#[test]
fn lengths_of_both_memories() {
    let mut directory = Directory { own: 9, rights: [2; 32], ..Directory::default() };
    (directory.sizes[3], directory.sizes[20]) = (4, 3);
    let state = HolderState { family: 2, has_current: 1, current: 3 };
    let to_20 = |kind, bytes: &[u8]| holder::frame(Parts { offset: 1, kind, from: 12, to: 9, table: 20 }, bytes);
    let frames = [to_20(CMD, &[1]), to_20(REQ, &[6, 0, 1]), to_20(BURN, &[]), to_20(XTND, &[0x80, 6, 0, 1])];
    for (working, flash) in (0..16).flat_map(|working| (0..16).map(move |flash| (working, flash))) {
        let lent = Memories { working: vec![1; working], flash: vec![2; flash] };
        for frame in frames {
            let number = holder::serve(&directory, &state, &lent, &frame).err();
            assert_eq!(number, if (working, flash) == (7, 7) { None } else { Some(10) });
        }
    }
}

/// A burn's acknowledgement that arrives: no holder serves it (5, and at length 0 any XTND is 6), and no bridge takes it.
#[test]
fn acknowledgements_that_arrive() {
    let directory = Directory { own: 9, sizes: [8; 32], rights: [2; 32], ..Directory::default() };
    let lent = Memories { working: vec![1; 256], flash: vec![2; 256] };
    let burn = holder::frame(Parts { offset: 5, kind: BURN, from: 3, to: 9, table: 20 }, &[]);
    let state = holder::first_state(2).unwrap();
    let (reply, _) = holder::serve(&directory, &state, &lent, &burn).unwrap().answer.unwrap();
    let other = Directory { own: 3, ..directory };
    for len in 0..=8 {
        let arriving = Frame { len, ..reply };
        let number = holder::serve(&other, &state, &lent, &arriving).err();
        assert_eq!(number, Some(if len == 0 { 6 } else { 5 }));
        let buffers = Buffers { first: &[0; 512], second: &[0; 512] };
        assert_eq!(bridge::frame(&fresh(3), buffers, &arriving).err(), Some(5));
    }
}

/// XTND: length 0 is 6, another first byte is 5 at any length, then 6, then 9; the query's
/// table and offset aren't looked at.
#[test]
fn protocol_query() {
    let directory = Directory { table_blocking: 0x0102, write_blocking: 0x0304, own: 3, ..Directory::default() };
    let id = identifier::pack(Parts { offset: 2047, kind: 7, from: 9, to: 3, table: 31 }).unwrap();
    let none = Memories { working: vec![], flash: vec![] };
    let state = holder::first_state(2).unwrap();
    let answer = |len, bytes| {
        let answer = holder::serve(&directory, &state, &none, &Frame { id, len, bytes });
        answer.map(|left| (left.lent == none && left.state == state, left.answer))
    };
    assert_eq!(answer(0, [0x80, 6, 0, 1, 0, 0, 0, 0]), Err(6));
    assert_eq!(answer(1, [0x0C, 6, 0, 1, 0, 0, 0, 0]), Err(5));
    assert_eq!(answer(3, [0x80, 6, 0, 1, 0, 0, 0, 0]), Err(6));
    assert_eq!(answer(4, [0x80, 6, 0, 2, 0, 0, 0, 0]), Err(9));
    let reply = identifier::pack(Parts { offset: 0, kind: 2, from: 3, to: 9, table: 6 }).unwrap();
    let long = Frame { id: reply, len: 5, bytes: [2, 1, 2, 3, 4, 0, 0, 0] };
    assert_eq!(answer(4, [0x80, 6, 0, 5, 9, 9, 9, 9]), Ok((true, Some((long, true)))));
    let short = Frame { id: reply, len: 1, bytes: [2, 0, 0, 0, 0, 0, 0, 0] };
    assert_eq!(answer(4, [0x80, 6, 0, 1, 9, 9, 9, 9]), Ok((true, Some((short, true)))));
    assert_eq!(answer(4, [0x80, 0x26, 0, 1, 9, 9, 9, 9]), Ok((true, Some((short, false)))));
    assert_eq!(answer(4, [0x80, 6, 0, 0x11, 9, 9, 9, 9]), Ok((true, Some((short, false)))));
}

/// A device's reply to a request, with bytes.
fn reply_to(frame: &Frame, bytes: &[u8]) -> Frame {
    let to = identifier::unpack(frame.id).unwrap();
    let [a, b, c, ..] = frame.bytes;
    let (asked, _) = request::read(a, b, c);
    let parts = Parts { offset: asked.offset, kind: 2, from: to.to, to: to.from, table: asked.table };
    holder::frame(parts, &bytes[..asked.count as usize])
}

/// A bridge and its two buffers.
struct Dash {
    state: Bridge,
    first: Vec<u8>,
    second: Vec<u8>,
}

impl Dash {
    fn new(own: u8, rng: &mut Rng) -> Dash {
        Dash { state: fresh(own), first: rng.bytes(512), second: rng.bytes(512) }
    }

    fn lent(&self) -> Buffers<'_> {
        Buffers { first: &self.first, second: &self.second }
    }

    /// Opens a transfer with device 5, of a kind and as many bytes as are given; its ticket.
    fn open(&mut self, kind: u8, table: u8, offset: u16, bytes: &[u8]) -> Result<u32, Number> {
        let (state, ticket);
        match kind {
            READ => (state, ticket) = bridge::open_read(&self.state, self.lent(), 5, table, offset, bytes.len())?,
            WRITE => {
                (state, self.first, ticket) = bridge::open_write(&self.state, self.lent(), 5, table, offset, bytes)?
            }
            _ => (state, self.second, ticket) = bridge::open_check(&self.state, self.lent(), 5, table, offset, bytes)?,
        }
        self.state = state;
        Ok(ticket)
    }

    fn turn(&mut self) -> Option<Frame> {
        let (state, frame) = bridge::turn(&self.state, self.lent()).unwrap();
        self.state = state;
        frame
    }

    fn turns(&mut self, count: usize) {
        for _ in 0..count {
            self.turn();
        }
    }

    /// A frame that is taken.
    fn frame(&mut self, frame: &Frame) {
        assert_eq!(self.arrives(frame), 0);
    }

    /// A frame that may be refused; its number.
    fn arrives(&mut self, frame: &Frame) -> Number {
        match bridge::frame(&self.state, self.lent(), frame) {
            Ok(after) => {
                (self.state, self.first) = after;
                0
            }
            Err(number) => number,
        }
    }

    fn close(&mut self, ticket: u32) {
        self.state = bridge::close(&self.state, ticket).unwrap();
    }

    fn reset(&mut self, own: u8) {
        self.state = bridge::reset(own).unwrap();
    }

    fn status(&self, ticket: u32) -> Number {
        bridge::status(&self.state, ticket).err().unwrap_or(0)
    }

    /// The slot that a ticket's transfer holds.
    fn slot(&self, ticket: u32) -> usize {
        self.state.slots.iter().position(|slot| slot.phase != FREE && slot.ticket == ticket).unwrap()
    }

    /// The bytes that a done read shows.
    fn shown(&self, ticket: u32) -> &[u8] {
        let (start, length) = bridge::bytes(&self.state, &self.first, ticket).unwrap();
        &self.first[start..start + length]
    }
}

fn is_request(frame: &Frame) -> bool {
    identifier::unpack(frame.id).unwrap().kind == REQ
}

/// A turn, and a reply to what it asks in `replies` of a hundred; `equal` of a hundred bring what the second buffer has.
/// Hands back the request.
fn turn_with_replies(dash: &mut Dash, rng: &mut Rng, replies: usize, equal: usize) -> Option<Frame> {
    let asked = dash.turn().filter(is_request);
    let Some(frame) = asked.filter(|_| rng.percent(replies)) else {
        return asked;
    };
    let index = dash.state.last as usize;
    let place = bridge::place(&dash.state.slots[index], index);
    let mut bytes = rng.bytes(8);
    if rng.percent(equal) {
        bytes = dash.second[place..place + 8].to_vec();
    }
    dash.frame(&reply_to(&frame, &bytes));
    asked
}

/// Every state that lists of calls reach from a fresh bridge is sound, and every transfer
/// ends within 72 accepted turns for each started eight bytes, a checked write within 76.
#[test]
fn transfers_end_within_their_turns() {
    let mut rng = Rng::new(1, 101, 0);
    for _ in 0..300 {
        let mut dash = Dash::new(3, &mut rng);
        let mut open: Vec<(u32, usize, usize)> = Vec::new(); // ticket, bound, turns
        let (replies, equal) = (rng.pick(&[0, 10, 50]), rng.pick(&[50, 95]));
        for _ in 0..3000 {
            match rng.below(100) {
                0..=9 => {
                    let (kind, count) = (rng.pick(&[READ, WRITE, CHECK]), rng.within(1, 128));
                    if let Ok(ticket) = dash.open(kind, 7, 0, &rng.bytes(count)) {
                        let turns = if kind == CHECK { 76 } else { 72 };
                        open.push((ticket, turns * count.div_ceil(8), 0));
                    }
                }
                10 if !open.is_empty() => dash.close(open.swap_remove(rng.below(open.len())).0),
                _ => {
                    turn_with_replies(&mut dash, &mut rng, replies, equal);
                    for (ticket, bound, turns) in open.iter_mut() {
                        *turns += 1;
                        assert!(dash.status(*ticket) != 15 || *turns < *bound, "ticket {ticket} after {turns} turns");
                    }
                }
            }
            assert!(bridge::sound(&dash.state));
        }
    }
}

/// Transfers of one byte that nobody answers, each of whose sends waits for three writes: they end later than they would alone,
/// and a checked write after more than a read's 72 turns.
#[test]
fn transfers_that_wait_for_others() {
    for (kind, before, turns) in [(READ, 8, 69), (CHECK, 16, 73)] {
        let mut dash = Dash { state: fresh(3), first: vec![0; 512], second: vec![0; 512] };
        let mut writes = [(); 3].map(|_| dash.open(WRITE, 7, 0, &vec![1; before]).unwrap());
        let ticket = dash.open(kind, 7, 0, &[2]).unwrap();
        let first_sends = before / 8 * 4;
        dash.turns(first_sends);
        for _ in 0..2 {
            dash.turns(19);
            writes.iter().for_each(|write| dash.close(*write));
            writes = [(); 3].map(|_| dash.open(WRITE, 7, 0, &[1; 8]).unwrap());
            dash.turns(4);
        }
        dash.turns(19);
        assert_eq!(first_sends + 2 * (19 + 4) + 19, turns);
        assert_eq!(dash.status(ticket), 15);
        dash.turns(1);
        assert_eq!(dash.status(ticket), 16);
    }
}

/// A holder, with its state and both memories.
struct Device {
    directory: Directory,
    state: HolderState,
    lent: Memories,
}

impl Device {
    /// The answer to a frame that is served.
    fn serve(&mut self, frame: &Frame) -> Option<holder::Answer> {
        let left = holder::serve(&self.directory, &self.state, &self.lent, frame).unwrap();
        (self.state, self.lent) = (left.state, left.lent);
        left.answer
    }
}

/// Turns beside a holder until the transfer with ticket 1 has ended, how many; the holder misses the frame of one turn.
fn turns_with_holder(dash: &mut Dash, device: &mut Device, missed: Option<usize>) -> usize {
    let mut turns = 0;
    while dash.status(1) == 15 {
        let frame = dash.turn().unwrap();
        if missed != Some(turns) {
            if let Some((reply, clear)) = device.serve(&frame) {
                assert!(clear); // what a bridge asks has zeros in its reserved bits
                dash.frame(&reply);
            }
        }
        turns += 1;
    }
    turns
}

/// A read through the bridge from a holder shows the table's bytes; a write sets exactly
/// the addressed bytes, and a checked write says so; it is different where the holder missed a CMD.
#[test]
fn bridge_and_holder_together() {
    let mut rng = Rng::new(1, 102, 0);
    let directory = Directory { own: 5, sizes: [200; 32], rights: [2; 32], ..Directory::default() };
    for _ in 0..1000 {
        let lent = random_memories(&mut rng, &directory);
        let (table, count) = (rng.below(32), rng.within(1, 128));
        let state = sound_state(&mut rng, &directory, table as u8);
        let mut device = Device { directory, state, lent };
        let flash = device.lent.flash.clone();
        let offset = rng.below(201 - count);
        let place = 200 * table + offset;
        let (kind, bytes) = (rng.pick(&[READ, WRITE, CHECK]), rng.bytes(count));
        let started = count.div_ceil(8);
        let missed = (kind == CHECK && rng.percent(50)).then(|| rng.below(started));
        let mut wanted = device.lent.working.clone();
        if state.family == 2 && (state.has_current, state.current) != (1, table as u8) {
            wanted[200 * table..200 * table + 200].copy_from_slice(&flash[200 * table..200 * table + 200]);
        }
        let found = wanted.clone();
        if kind != READ {
            wanted[place..place + count].copy_from_slice(&bytes);
        }
        if let Some(turn) = missed {
            let part = place + 8 * turn..place + count.min(8 * turn + 8);
            wanted[part.clone()].copy_from_slice(&found[part]);
        }
        let different = kind == CHECK && wanted[place..place + count] != bytes;
        let mut dash = Dash::new(0, &mut rng);
        assert_eq!(dash.open(kind, table as u8, offset as u16, &bytes), Ok(1));
        let turns = turns_with_holder(&mut dash, &mut device, missed);
        let read_back = if different { missed.unwrap() + 1 } else { started };
        assert_eq!(turns, started + if kind == CHECK { read_back } else { 0 });
        assert_eq!((&device.lent.working, &device.lent.flash), (&wanted, &flash));
        assert_eq!(dash.status(1), if different { 18 } else { 0 });
        let shown = bridge::bytes(&dash.state, &dash.first, 1);
        let shown = shown.map(|(start, length)| dash.first[start..start + length].to_vec());
        let table = if kind == READ { wanted[place..place + count].to_vec() } else { vec![] };
        assert_eq!(shown, if different { Err(18) } else { Ok(table) });
    }
}

/// 02, C-13: "In demand 3 a reload after the device sent the read's first answer counts as a write." Table 7 holds an unburnt change; another
/// asker uses table 8 before or between the two answers to a read of it. The read's own first request may reload, and counts as no write.
#[test]
fn a_reload_between_two_answers() {
    let (unburnt, burnt) = ([1; 8], [2; 8]);
    let cases = [
        (2, "", [unburnt, unburnt]),
        (2, "before", [burnt, burnt]),
        (2, "between", [unburnt, burnt]), // no content that the table ever had
        (3, "before", [unburnt, unburnt]),
        (3, "between", [unburnt, unburnt]),
    ];
    let mut directory = Directory { own: 5, rights: [2; 32], ..Directory::default() };
    (directory.sizes[7], directory.sizes[8]) = (16, 1);
    let other = holder::frame(Parts { offset: 0, kind: REQ, from: 9, to: 5, table: 8 }, &[6, 0, 1]);
    for (family, used, shown) in cases {
        let lent = Memories { working: vec![1; 17], flash: vec![2; 17] };
        let mut device = Device { directory, state: HolderState { family, has_current: 1, current: 7 }, lent };
        let mut dash = Dash { state: fresh(3), first: vec![0; 512], second: vec![0; 512] };
        let ticket = dash.open(READ, 7, 0, &[0; 16]).unwrap();
        for before in ["before", "between"] {
            if used == before {
                device.serve(&other).unwrap();
            }
            let asked = dash.turn().unwrap();
            let (reply, _) = device.serve(&asked).unwrap();
            dash.frame(&reply);
        }
        assert_eq!(dash.shown(ticket), shown.concat(), "family {family}, {used}");
    }
}

/// 02, C-17: sound as an unfinished write while sending, then as a read; different, with progress a multiple of 8 below the
/// count and no sends.
#[test]
fn soundness_of_checked_writes() {
    let slot = Slot { ticket: 1, phase: READY, kind: CHECK, count: 20, progress: 8, ..Slot::default() };
    let alone = |slot: Slot| {
        let mut bridge = Bridge { issued: 1, ..fresh(0) };
        bridge.slots[2] = slot;
        bridge::sound(&bridge)
    };
    assert!(alone(slot));
    assert!(!alone(Slot { sends: 1, ..slot }));
    assert!(!alone(Slot { phase: WAITING, sends: 1, left: 1, ..slot }));
    assert!(!alone(Slot { phase: GAVE_UP, sends: 3, ..slot }));
    assert!(!alone(Slot { phase: DONE, progress: 20, ..slot }));
    assert!(!alone(Slot { phase: DIFFERENT, ..slot }));
    let back = Slot { kind: READ_BACK, ..slot };
    assert!(alone(back));
    assert!(alone(Slot { sends: 2, ..back }));
    assert!(alone(Slot { phase: WAITING, sends: 1, left: 1, ..back }));
    assert!(alone(Slot { phase: GAVE_UP, sends: 3, ..back }));
    assert!(alone(Slot { phase: DONE, progress: 20, ..back }));
    let different = Slot { phase: DIFFERENT, ..back };
    assert!(alone(different));
    assert!(!alone(Slot { sends: 1, ..different }));
    assert!(!alone(Slot { left: 1, ..different }));
    assert!(!alone(Slot { progress: 20, ..different }));
    assert!(!alone(Slot { progress: 9, ..different }));
    assert!(!alone(Slot { kind: READ, ..different }));
    assert!(!alone(Slot { kind: WRITE, ..different }));
    assert!(!alone(Slot { kind: 4, ..slot }));
    assert!(!alone(Slot { phase: 6, ..back }));
}

/// The ticket that each slot holds, and the turns since its last request, both by the calls and their answers alone.
#[derive(Default)]
struct Record {
    held: [Option<u32>; 4],
    since: [Option<u8>; 4],
}

impl Record {
    fn turned(&mut self, asked: Option<Frame>) {
        self.since = self.since.map(|turns| turns.map(|turns| turns.saturating_add(1)));
        if let Some(Frame { bytes: [a, b, c, ..], .. }) = asked {
            self.since[request::read(a, b, c).0.offset as usize / bridge::PART] = Some(0);
        }
    }

    /// The slot that an opening is to take, or its number.
    fn opening(&self) -> Result<usize, Number> {
        let free: Vec<usize> = (0..4).filter(|index| self.held[*index].is_none()).collect();
        let rested = free.iter().find(|index| self.since[**index].is_none_or(|turns| turns >= 60));
        rested.copied().ok_or(if free.is_empty() { 12 } else { 19 })
    }

    /// Opens a transfer as it is to be, and notes it; what came of it.
    fn opens(&mut self, dash: &mut Dash, rng: &mut Rng) -> Result<usize, Number> {
        let (kind, count) = (rng.pick(&[READ, READ, WRITE, CHECK]), rng.within(1, 24));
        let opened = dash.open(kind, 7, 0, &rng.bytes(count)).map(|ticket| (dash.slot(ticket), ticket));
        let slot = opened.map(|(slot, _)| slot);
        assert_eq!(slot, self.opening());
        opened.iter().for_each(|(slot, ticket)| self.held[*slot] = Some(*ticket));
        slot
    }

    fn closes(&mut self, dash: &mut Dash, index: usize) {
        self.held[index].take().into_iter().for_each(|ticket| dash.close(ticket));
    }
}

/// 02, C-19: "A slot whose last request went out fewer than 60 turns ago is not given to a new transfer."; "19 in 12's place where slots
/// are free but all resting"; "The bridge's record gains each slot's turns left to rest", and "reset still clears it".
#[test]
fn slots_rest_after_their_requests() {
    let mut rng = Rng::new(1, 103, 0);
    let (mut taken, mut refused) = ([0; 4], [0; 20]);
    for _ in 0..300 {
        let (mut dash, mut record) = (Dash::new(3, &mut rng), Record::default());
        let (openings, replies) = (rng.pick(&[4, 12, 30]), rng.pick(&[10, 50, 95]));
        for _ in 0..1000 {
            match rng.below(200) {
                0 => {
                    dash.reset(3);
                    record = Record::default();
                }
                chance if chance <= openings => match record.opens(&mut dash, &mut rng) {
                    Ok(slot) => taken[slot] += 1,
                    Err(number) => refused[number as usize] += 1,
                },
                chance if chance <= openings + 24 => record.closes(&mut dash, rng.below(4)),
                _ => record.turned(turn_with_replies(&mut dash, &mut rng, replies, 90)),
            }
            let left = record.since.map(|turns| turns.map_or(0, |turns| 60 - turns.min(60)));
            assert_eq!(dash.state.rests, left);
        }
    }
    assert!(taken.iter().all(|count| *count > 100) && refused[12] > 100 && refused[19] > 100, "{taken:?} {refused:?}");
}

/// Asks of a dash, at times, a read of a random place of table 7: ticket, place and bytes.
fn random_read(dash: &mut Dash, rng: &mut Rng) -> Option<(u32, usize, usize)> {
    let (place, count) = (rng.below(1900), rng.within(1, 12));
    let ticket = rng.percent(40).then(|| dash.open(READ, 7, place as u16, &vec![0; count]).ok())??;
    Some((ticket, place, count))
}

/// 02, C-19, under demand 3's premise "every reply arrives before the 60th turn after its request was sent, or never": a done read shows
/// its range of the table, whatever was closed before it.
#[test]
fn late_replies_bring_no_old_bytes() {
    let mut rng = Rng::new(1, 104, 0);
    let mut directory = Directory { own: 5, ..Directory::default() };
    (directory.sizes[7], directory.rights[7]) = (2000, 1);
    let lent = random_memories(&mut rng, &directory);
    let table = lent.flash.clone(); // the first answer is from the reloaded table, and so are all others
    let mut device = Device { directory, state: holder::first_state(2).unwrap(), lent };
    let (mut done, mut refused) = (0, 0);
    for _ in 0..300 {
        let mut dash = Dash::new(0, &mut rng);
        let (mut open, mut replies) = (Vec::new(), Vec::new());
        let slowest = rng.pick(&[2, 15, 60]);
        for turn in 0..1000 {
            open.extend(random_read(&mut dash, &mut rng));
            if let Some(asked) = dash.turn() {
                let (reply, _) = device.serve(&asked).unwrap();
                replies.push((turn + rng.below(slowest), reply)); // the turn after which it arrives
            }
            let (due, later): (Vec<_>, Vec<_>) = replies.into_iter().partition(|(due, _)| *due <= turn);
            replies = later;
            refused += due.iter().filter(|(_, reply)| dash.arrives(reply) == 17).count();
            open.retain(|(ticket, place, count)| {
                let status = dash.status(*ticket);
                if status == 0 {
                    assert_eq!(dash.shown(*ticket), &table[*place..*place + *count]);
                    done += 1;
                }
                let stays = status == 15 && rng.percent(95);
                if !stays {
                    dash.close(*ticket);
                }
                stays
            });
        }
    }
    assert!(done > 1000 && refused > 1000, "{done} done, {refused} refused");
}

/// Why that premise, and why "no request in the last 60 turns before a reset": a reply to a closed read that comes later, or after a
/// reset, is taken for the read that now has its slot.
#[test]
fn replies_that_come_too_late() {
    let asked = |dash: &mut Dash, table| {
        let ticket = dash.open(READ, table, 0, &[0; 8]).unwrap();
        (ticket, dash.turn().unwrap())
    };
    for (turns, slot, number) in [(59, 1, 17), (60, 0, 0)] {
        let mut dash = Dash { state: fresh(3), first: vec![0; 512], second: vec![0; 512] };
        let (ticket, old) = asked(&mut dash, 7);
        dash.close(ticket);
        dash.turns(turns);
        let (next, _) = asked(&mut dash, 8);
        assert_eq!(dash.slot(next), slot);
        assert_eq!(dash.arrives(&reply_to(&old, &[1; 8])), number);
    }
    let mut dash = Dash { state: fresh(3), first: vec![0; 512], second: vec![0; 512] };
    let (_, old) = asked(&mut dash, 7);
    dash.reset(3);
    assert_eq!(dash.state.rests, [0; 4]);
    let (next, _) = asked(&mut dash, 8);
    dash.frame(&reply_to(&old, &[1; 8]));
    assert_eq!(dash.shown(next), [1; 8]);
}

/// 02, C-19: "each slot's turns left to rest, sound from 0 to 60", of free and of held slots.
#[test]
fn soundness_of_rests() {
    let slot = Slot { ticket: 1, phase: READY, kind: WRITE, count: 20, progress: 8, ..Slot::default() };
    for (index, held) in [(0, false), (1, true), (2, false), (3, true)] {
        let mut bridge = Bridge { issued: 1, ..fresh(0) };
        bridge.slots[index] = if held { slot } else { Slot::default() };
        for rest in 0..=255 {
            bridge.rests[index] = rest;
            assert_eq!(bridge::sound(&bridge), rest <= 60);
        }
    }
}

/// The header's judgements one by one, in 01's order.
#[test]
fn header_refusals() {
    let field = |kind: u8| {
        let mut field = vec![0; 89];
        field[0] = kind;
        field
    };
    let mut bits = field(10);
    let begin = 24 + 2 * 89 + 4;
    bits[47..51].copy_from_slice(&(24u32 + 2 * 89).to_be_bytes());
    bits[51] = 2;
    let fields = [field(3), bits].concat();
    let good = mlg::write_header(1000, 7, &fields, b"a\0b\0", b"").unwrap();
    assert_eq!(good.len(), begin);
    let header = mlg::read_header(&good).unwrap();
    assert_eq!((header.size, header.count, header.begin, header.info), (3, 2, begin as u32, 0));
    assert_eq!(mlg::bit_names(&good, &header, &good[113..202]), vec![b"a", b"b"]);
    let changed = |at: usize, byte: u8| {
        let mut file = good.clone();
        file[at] = byte;
        mlg::read_header(&file)
    };
    assert_eq!(mlg::read_header(&good[..23]), Err(20));
    assert_eq!(mlg::read_header(&[0; 23]), Err(20));
    assert_eq!(changed(0, 0), Err(21));
    assert_eq!(changed(7, 3), Err(22));
    assert_eq!(mlg::read_header(&good[..201]), Err(20));
    assert_eq!(changed(23, 3), Err(20));
    assert_eq!(mlg::read_header(&good[..205]), Err(23)); // data begin past the file
    assert_eq!(changed(19, 201), Err(23));
    assert_eq!(changed(15, 201), Err(23));
    assert_eq!(changed(15, 206), Err(23)); // data begin is excluded
    assert_eq!(changed(15, 202).map(|header| header.info), Ok(202));
    assert_eq!(changed(24, 8), Err(24));
    assert_eq!(changed(113 + 51, 9), Err(24));
    assert_eq!(changed(113 + 51, 3), Err(28)); // only two names
    assert_eq!(changed(113 + 50, 201), Err(23));
    assert_eq!(changed(113 + 50, 206), Err(23));
    assert_eq!(changed(113 + 50, 203), Ok(header)); // an index need not be a name's start
    assert_eq!(changed(21, 4), Err(23));
    let mut file = good.clone();
    file[24 + 35..24 + 45].fill(b'u');
    assert_eq!(mlg::read_header(&file), Err(28));
    assert_eq!(mlg::write_header(begin - 1, 7, &fields, b"a\0b\0", b""), Err(27));
    assert_eq!(mlg::write_header(begin - 1, 7, &fields, b"a\0b", b""), Err(28));
    assert_eq!(mlg::write_header(1000, 7, &fields, b"a\0b", b"i").map(|file| file.len()), Ok(begin + 1));
    assert_eq!(mlg::write_header(1000, 7, &fields, b"a\0b\0", b"i\0"), Err(28));
    assert_eq!(mlg::write_header(1000, 7, &fields[1..], b"a\0b\0", b"i\0"), Err(23));
}

#[test]
fn blocks_of_both_formats() {
    let mark = mlg::write_mark(54, 256, 0x0102, b"hello").unwrap();
    assert_eq!(mark[..10], *b"\x01\x00\x01\x02hello\0");
    let read = mlg::Block::Mark { counter: 0, as_expected: true, time: 0x0102, start: 4, count: 5 };
    assert_eq!(mlg::read_block(&mark, 9, 256, 0), Ok(read));
    assert_eq!(mlg::read_block(&mark, 9, 256, 54), Ok(mlg::Block::End));
    assert_eq!(mlg::read_block(&mark, 9, 256, 55), Err(23));
    assert_eq!(mlg::read_block(&mark[..53], 9, 256, 0), Err(20));
    assert_eq!(mlg::read_block(&[2], 9, 256, 0), Err(25));
    assert_eq!(mlg::read_block(&[0, 0, 0, 0, 7, 8], 1, 0, 0), Err(26));
    assert_eq!(mlg::read_block(&[0, 0, 0, 0, 0], 0, 1, 0).is_ok(), true);
    assert_eq!(
        [254, 255, 256, 257].map(|earlier| mlg::write_data(5, 0, earlier, 0, &[]).unwrap()[1]),
        [254, 255, 0, 1]
    );

    let file = frd::write_header(81, 5, &[9; 63], 2).unwrap();
    assert_eq!(frd::read_header(&file), Ok(frd::Header { time: 5, size: 2 }));
    assert_eq!(be32(&file, 75), 81);
    assert_eq!(frd::write_data(4, 2, 257, &[7, 8]), Ok(vec![1, 1, 7, 8]));
    assert_eq!(frd::write_time(6, 255, 9), Ok(vec![2, 255, 0, 0, 0, 9]));
    assert_eq!(
        frd::read_block(&[2, 0, 0, 0, 0, 9], 2, 256, 0),
        Ok(frd::Block::Time { counter: 0, as_expected: true, time: 9 })
    );
    assert_eq!(frd::read_block(&[0, 0, 0, 0, 0, 9], 2, 256, 0), Err(25));
}

#[test]
fn counts_and_parts() {
    let mut file = mlg::write_header(1000, 0, &[0; 2 * 89], b"n\0", b"info").unwrap();
    assert_eq!(mlg::count_blocks(&file), (0, 0, 209));
    assert_eq!(mlg::fields_span(&file), Ok((24, 178)));
    assert_eq!(mlg::field_span(&file, 1), Ok((113, 89)));
    assert_eq!(mlg::field_span(&file, 2), Err(23));
    assert_eq!(mlg::names_span(&file), Ok((202, 2)));
    assert_eq!(mlg::info_span(&file), Ok((204, 4)));
    file.extend(mlg::write_data(7, 2, 0, 1, &[1, 2]).unwrap());
    file.extend(mlg::write_mark(54, 9, 2, b"wrong counter").unwrap());
    assert_eq!(mlg::count_blocks(&file), (2, 0, 270));
    file.push(2);
    assert_eq!(mlg::count_blocks(&file), (2, 25, 270));
    file[23] = 3;
    assert_eq!(mlg::count_blocks(&file), (0, 20, 0));
    assert_eq!(mlg::fields_span(&file), Err(20));
    assert_eq!(mlg::field_span(&file, 9), Err(20));
    let bare = mlg::write_header(24, 0, b"", b"", b"").unwrap();
    assert_eq!(mlg::fields_span(&bare), Ok((24, 0)));
    assert_eq!(mlg::names_span(&bare), Ok((24, 0)));
    assert_eq!(mlg::info_span(&bare).map(|(_, count)| count), Ok(0));

    let mut file = frd::write_header(81, 5, &[9; 63], 2).unwrap();
    assert_eq!(frd::count_blocks(&file), (0, 0, 81));
    assert_eq!(frd::read_signature(&file), Ok((12, 63)));
    assert_eq!(file[12..75], [9; 63]);
    file.extend(frd::write_data(4, 2, 0, &[7, 8]).unwrap());
    file.extend(frd::write_time(6, 7, 9).unwrap());
    assert_eq!(frd::count_blocks(&file), (2, 0, 91));
    assert_eq!(frd::count_blocks(&file[..90]), (1, 20, 85));
    file[78] = 82;
    assert_eq!(frd::count_blocks(&file), (0, 23, 0));
    assert_eq!(frd::read_signature(&file), Err(23));
}

#[test]
fn values_of_all_types() {
    let field = |kind: u8| {
        let mut field = vec![0; 89];
        field[0] = kind;
        field[46..50].copy_from_slice(&1f32.to_be_bytes());
        field
    };
    assert_eq!(value::raw_value(&field(4), &[0xFF; 4]), Ok(4_294_967_295));
    assert_eq!(value::raw_value(&field(5), &[0xFF; 4]), Ok(-1));
    assert_eq!(value::raw_value(&field(6), &[0x80, 0, 0, 0, 0, 0, 0, 0]), Ok(i64::MIN));
    assert_eq!(value::raw_value(&field(7), &[0xFF, 0xC0, 0, 0]), Ok(0xFFC0_0000));
    assert_eq!(value::raw_value(&field(12), &[0x80, 0, 0, 1]), Ok(0x8000_0001));
    assert_eq!(value::shown_value(&field(7), &[0xFF, 0xC0, 0, 0]), Err(30));
    assert_eq!(value::shown_value(&field(4), &[0; 4]), Err(30));
    assert_eq!(value::shown_value(&field(4), &[0; 3]), Err(23));
    assert_eq!(value::shown_value(&field(9), &[0; 3]), Err(24));
    assert_eq!(value::shown_value(&field(9)[..88], &[0; 3]), Err(23));
}

#[test]
fn listing_of_texts() {
    let mut fields = vec![0; 2 * 89];
    fields[1..5].copy_from_slice(b"a\tb\x80");
    fields[89] = 5;
    let mut file = mlg::write_header(1000, 0, &fields, b"", b"").unwrap();
    file.extend(mlg::write_data(10, 5, 0, 1, &[1, 0xFF, 0xFF, 0xFF, 0xFE]).unwrap());
    file.extend(mlg::write_mark(54, 9, 2, b"x y\n").unwrap());
    file.extend(mlg::write_mark(54, 2, 3, b"").unwrap());
    let wanted =
        "fields 2 record 5\nfield 0 0 a.b.\nfield 1 5 \n0 data 0 1 1 -2\n1 mark 9 2 x y. !\n2 mark 2 3 \nend 3\n";
    assert_eq!(listing::listing(&file), wanted);
    file.push(0);
    assert_eq!(listing::listing(&file), wanted.replace("end 3", "refused 20 at 320"));
    assert_eq!(zero_ended(b"ab"), None);
}
