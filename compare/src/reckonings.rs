//! The reckonings of papers 01 and 02, run on a side. Each is a name, what came out and what they say.

use crate::abi::*;
use crate::model::bridge::fresh;
use crate::model::{CMD, REQ, RSP, XTND};
use crate::side::{Buffers, BuffersMut, Side};
use std::fmt::Debug;

pub struct Reckoning {
    pub name: String,
    pub got: String,
    pub wanted: String,
}

/// The reckonings that don't come out.
pub fn failures(side: &dyn Side) -> Vec<String> {
    let wrong = all(side).into_iter().filter(|one| one.got != one.wanted);
    wrong.map(|one| format!("{}: {} instead of {}", one.name, one.got, one.wanted)).collect()
}

pub fn all(side: &dyn Side) -> Vec<Reckoning> {
    let mut list = List(Vec::new());
    identifiers(side, &mut list);
    requests(side, &mut list);
    packing_after_reading(side, &mut list);
    reserved_bits(side, &mut list);
    wire_examples(side, &mut list);
    ranges(side, &mut list);
    burns(side, &mut list);
    burns_refused(side, &mut list);
    tuning(side, &mut list);
    first_states(side, &mut list);
    unsound_states(side, &mut list);
    tables_left(side, &mut list);
    tables_not_current(side, &mut list);
    none_is_not_table_0(side, &mut list);
    nothing_reloaded(side, &mut list);
    bridge_read(side, &mut list);
    silent_device(side, &mut list);
    checked_write(side, &mut list);
    late_answers(side, &mut list);
    resting_slots(side, &mut list);
    values(side, &mut list);
    listing(side, &mut list);
    rolling_counters(side, &mut list);
    list.0
}

struct List(Vec<Reckoning>);

impl List {
    fn add<T: Debug>(&mut self, name: &str, got: T, wanted: T) {
        self.0.push(Reckoning { name: name.to_string(), got: format!("{got:?}"), wanted: format!("{wanted:?}") });
    }
}

fn frame(id: u32, bytes: &[u8]) -> Frame {
    let mut frame = Frame { id, len: bytes.len() as u8, bytes: [0; 8] };
    frame.bytes[..bytes.len()].copy_from_slice(bytes);
    frame
}

fn identifiers(side: &dyn Side, list: &mut List) {
    let parts = Parts { offset: 6, kind: REQ, from: 5, to: 0, table: 7 };
    list.add("offset 6, REQ, from 5 to 0, table 7", side.pack(parts), Packed { id: 0x18A838, number: 0 });
    let table_20 = Parts { table: 20, ..Parts::default() };
    list.add("table 20 alone", side.pack(table_20), Packed { id: 0x24, number: 0 });
    let all_ones = Parts { offset: 2047, kind: 7, from: 15, to: 15, table: 31 };
    list.add("0x1FFFFFFC unpacks", side.unpack(0x1FFF_FFFC), Unpacked { parts: all_ones, number: 0 });
    let refused = |number| Unpacked { parts: Parts::default(), number };
    list.add("0x1FFFFFFD", side.unpack(0x1FFF_FFFD), refused(2));
    list.add("0x20000000", side.unpack(0x2000_0000), refused(1));
}

fn requests(side: &dyn Side, list: &mut List) {
    let asked = |table, offset, count, clear| RequestRead { request: Request { table, count, offset }, clear };
    list.add("06 10 02", side.read_request(0x06, 0x10, 0x02), asked(6, 128, 2, 1));
    // 02, C-16: "case `06 10 12` in 01 is now a request for two bytes"
    list.add("06 10 12", side.read_request(0x06, 0x10, 0x12), asked(6, 128, 2, 0));
    list.add("1F FF E8", side.read_request(0x1F, 0xFF, 0xE8), asked(31, 2047, 8, 1));
    for first in [0x26, 0x46, 0x86, 0xE6] {
        list.add(&format!("{first:02X} 10 02"), side.read_request(first, 0x10, 0x02), asked(6, 128, 2, 0));
    }
    list.add("FF FF FF", side.read_request(0xFF, 0xFF, 0xFF), asked(31, 2047, 15, 0));

    let (directory, mut memory) = table_7();
    let answer = served(side, directory, &mut memory, frame(0x18A838, &[0x06, 0x10, 0x02]));
    let reply = frame(0x20102B0, &[0x0B, 0xB8]);
    list.add("0B B8 come back under 0x20102B0", answer, Served { number: 0, frames: 1, clear: 1, frame: reply });
}

/// A holder's state with this table current, and with none.
fn of_current(family: u8, current: u8) -> HolderState {
    HolderState { family, has_current: 1, current }
}

fn of_none(family: u8) -> HolderState {
    HolderState { family, has_current: 0, current: 0 }
}

/// What a holder of family 3 with a flash of the right length answers.
fn served(side: &dyn Side, directory: Directory, memory: &mut [u8], frame: Frame) -> Served {
    let mut flash = vec![0xFF; memory.len()];
    side.serve(directory, of_none(3), memory, &mut flash, frame).served
}

/// Table 7 with 0B B8 at offset 6, to be asked by device 5 with `06 10 02`; blocking factors 0102 and 0304.
fn table_7() -> (Directory, [u8; 16]) {
    let mut directory = Directory { table_blocking: 0x0102, write_blocking: 0x0304, ..Directory::default() };
    (directory.sizes[7], directory.rights[7]) = (16, 1);
    let mut memory = [0; 16];
    memory[6..8].copy_from_slice(&[0x0B, 0xB8]);
    (directory, memory)
}

/// 02, C-16: "Packing still writes zeros, so packing after reading returns the same bytes only for clear ones."
fn packing_after_reading(side: &dyn Side, list: &mut List) {
    let (mut same, mut clear, mut both, mut zeros) = (0, 0, 0, 0);
    for (first, third) in (0..=255).flat_map(|first| (0..=255).map(move |third| (first, third))) {
        let second = first ^ third;
        let read = side.read_request(first, second, third);
        let packed = side.request_bytes(read.request);
        let returned = packed.number == 0 && packed.bytes == [first, second, third];
        same += returned as u32;
        clear += (read.clear == 1) as u32;
        both += (returned && read.clear == 1) as u32;
        zeros += (packed.number == 0 && packed.bytes == [first % 32, second, third & 0xEF]) as u32;
    }
    // of 256 first bytes 32 are clear, of 256 third bytes 128
    list.add("packing after reading returns the same bytes", (same, clear, both), (4096, 4096, 4096));
    list.add("packing after reading writes zeros", zeros, 65_536);
}

/// 02, C-16: table 7 asked with the reserved bits clear, with each group set, and with both: a set one changes the mark alone;
/// "6 no longer covers reserved bits"; the mark is 0 in a refusal, and "for other frames".
fn reserved_bits(side: &dyn Side, list: &mut List) {
    let id = |kind| side.pack(Parts { offset: 6, kind, from: 5, to: 0, table: 7 }).id;
    let (command, request, response, query) = (id(CMD), id(REQ), id(RSP), id(XTND));
    let (at_15, table_8) = (request + (9 << 18), request + 8);
    let refused = |number| Served { number, ..Served::default() };
    let groups = [(0x06, 0, 1), (0x06, 0x10, 0), (0x26, 0, 0), (0x46, 0, 0), (0x86, 0, 0), (0xE6, 0x10, 0)];
    for (first, bit_4, clear) in groups {
        let answered = |bytes: &[u8]| Served { number: 0, frames: 1, clear, frame: frame(0x20102B0, bytes) };
        let cases: [(&str, u32, &[u8], Served); 13] = [
            ("two bytes", request, &[first, 0x10, bit_4 + 2], answered(&[0x0B, 0xB8])),
            ("a query of one byte", query, &[0x80, first, 0x10, bit_4 + 1], answered(&[2])),
            ("a query of five", query, &[0x80, first, 0x10, bit_4 + 5], answered(&[2, 1, 2, 3, 4])),
            ("nine bytes", request, &[first, 0x10, bit_4 + 9], refused(9)),
            ("past the end", at_15, &[first, 0x10, bit_4 + 2], refused(8)),
            ("an empty table", table_8, &[first, 0x10, bit_4 + 2], refused(7)),
            ("a short request", request, &[first, 0x10], refused(6)),
            ("a long request", request, &[first, 0x10, bit_4 + 2, 0], refused(6)),
            ("a query of two", query, &[0x80, first, 0x10, bit_4 + 2], refused(9)),
            ("a long query", query, &[0x80, first, 0x10, bit_4 + 1, 0], refused(6)),
            ("no query", query, &[0x0C, first, 0x10, bit_4 + 1], refused(5)),
            ("an RSP", response, &[first, 0x10, bit_4 + 2], refused(5)),
            ("a CMD without the right", command, &[first, 0x10, bit_4 + 2], refused(7)),
        ];
        for (name, id, bytes, wanted) in cases {
            let (directory, mut memory) = table_7();
            let answer = served(side, directory, &mut memory, frame(id, bytes));
            list.add(&format!("{name}, {bytes:02X?}"), answer, wanted);
        }
    }
    let (mut directory, mut memory) = table_7();
    directory.rights[7] = 2;
    let answer = served(side, directory, &mut memory, frame(command, &[0x06, 0x10, 0x02]));
    list.add("the mark of a CMD is 0", (answer, memory[6..9].to_vec()), (Served::default(), vec![0x06, 0x10, 0x02]));
}

/// Document 002's own examples (4.1, 4.2), whose identifiers are those on the wire: device 7
/// fetches the signature (table 15) and the RPM (table 7, offset 6) from device 0. For the
/// third 002 prints DLC 8 beside four bytes; four were asked.
fn wire_examples(side: &dyn Side, list: &mut List) {
    let mut directory = Directory::default();
    (directory.sizes[7], directory.rights[7]) = (8, 1);
    (directory.sizes[15], directory.rights[15]) = (20, 1);
    let mut memory = [0, 0, 0, 0, 0, 0, 0x14, 0xFE].to_vec();
    memory.extend(b"MS3 Format 0435.14 \0");
    let examples: [(&str, u32, [u8; 3], u32, &[u8]); 4] = [
        ("signature, first", 0xB878, [0x06, 0x00, 0x08], 0x103B0, b"MS3 Form"),
        ("signature, second", 0x20B878, [0x06, 0x00, 0x08], 0x103B0, b"at 0435."),
        ("signature, third", 0x40B878, [0x06, 0x00, 0x04], 0x103B0, b"14 \0"),
        ("RPM", 0x18B838, [0x07, 0x00, 0x42], 0x903B8, &[0x14, 0xFE]),
    ];
    for (name, id, bytes, reply, data) in examples {
        let answer = served(side, directory, &mut memory, frame(id, &bytes));
        let wanted = Served { number: 0, frames: 1, clear: 1, frame: frame(reply, data) };
        list.add(&format!("002: {name}"), answer, wanted);
    }
}

fn ranges(side: &dyn Side, list: &mut List) {
    for (size, offset, number) in [(2056, 2047, 0), (1024, 1016, 0), (1024, 1017, 8)] {
        let mut directory = Directory::default();
        directory.sizes[1] = size;
        directory.rights[1] = 2;
        let id = side.pack(Parts { offset, kind: CMD, from: 3, to: 0, table: 1 }).id;
        let mut memory = vec![0; size as usize];
        let answer = served(side, directory, &mut memory, frame(id, &[1, 2, 3, 4, 5, 6, 7, 8]));
        list.add(&format!("size {size} offset {offset} with 8 bytes"), answer.number, number);
        let mut wanted = vec![0; size as usize];
        if number == 0 {
            wanted[offset as usize..offset as usize + 8].copy_from_slice(&[1, 2, 3, 4, 5, 6, 7, 8]);
        }
        list.add(&format!("size {size} offset {offset} memory"), memory, wanted);
        let id = side.pack(Parts { offset, kind: REQ, from: 3, to: 0, table: 1 }).id;
        let mut memory = vec![0; size as usize];
        let answer = served(side, directory, &mut memory, frame(id, &[6, 0, 8]));
        list.add(&format!("size {size} offset {offset} asking 8"), answer.number, number);
    }
}

/// 02, C-11: device 0 with table 6 of four bytes, table 7 of eight and table 20 of two that may be written, table 8 of four that may
/// be read, table 9 of four without a right; its memory is 1 to 22, its flash FF.
fn tuned() -> (Directory, Vec<u8>, Vec<u8>) {
    let mut directory = Directory::default();
    for (table, size, right) in [(6, 4, 2), (7, 8, 2), (8, 4, 1), (9, 4, 0), (20, 2, 2)] {
        (directory.sizes[table], directory.rights[table]) = (size, right);
    }
    (directory, (1..=22).collect(), vec![0xFF; 22])
}

/// 02, C-11: burns from device 5. By 01's rows, type 4 is 0x20000, from 5 0x2800, table 7 0x38, so 0x22838; the reply's type 7 is
/// 0x38000, to 5 0x280, so 0x382B8. Table 6 is 0x30, table 20 0x24; offset 8 is 0x200000, offset 2,047 0x1FFC0000.
/// C-13: on the older family so far as the burnt table is current.
fn burns(side: &dyn Side, list: &mut List) {
    let cases: [(&str, u32, u32, u8, std::ops::Range<usize>); 6] = [
        ("table 7", 0x22838, 0x382B8, 7, 4..12),
        ("table 7, offset 8", 0x222838, 0x382B8, 7, 4..12),
        ("table 7, offset 2,047", 0x1FFE2838, 0x382B8, 7, 4..12),
        ("table 7, from device 0 itself", 0x20038, 0x38038, 7, 4..12),
        ("table 6", 0x22830, 0x382B0, 6, 0..4),
        ("table 20", 0x22824, 0x382A4, 20, 20..22),
    ];
    for (name, id, reply, table, place) in cases {
        for state in [of_current(2, table), of_current(3, table), of_current(3, 8), of_none(3)] {
            let (directory, mut memory, mut flash) = tuned();
            let answer = side.serve(directory, state, &mut memory, &mut flash, frame(id, &[]));
            let served = Served { number: 0, frames: 1, clear: 0, frame: frame(reply, &[0x0E, 0x01]) };
            let wanted = HolderAnswer { served, state: of_current(state.family, table) };
            list.add(&format!("a burn of {name}, {state:?}"), answer, wanted);
            let (_, as_found, mut burnt) = tuned();
            burnt[place.clone()].copy_from_slice(&as_found[place.clone()]);
            list.add(&format!("both memories after a burn of {name}, {state:?}"), (memory, flash), (as_found, burnt));
        }
    }
}

/// A refusal: a number, and the state as it was given.
fn refused(number: u8, state: HolderState) -> HolderAnswer {
    HolderAnswer { served: Served { number, ..Served::default() }, state }
}

/// 02, C-11: "length 0, right 2"; "10 also for a flash of the wrong length". Both memories stay as they were.
fn burns_refused(side: &dyn Side, list: &mut List) {
    let (burn, too_large) = (frame(0x22838, &[]), frame(0x2002_2838, &[]));
    let own_16 = Directory { own: 16, ..tuned().0 };
    let cases: [(&str, Directory, usize, usize, Frame, u8); 18] = [
        ("with a byte", tuned().0, 22, 22, frame(0x22838, &[0x0E]), 6),
        ("with eight bytes", tuned().0, 22, 22, frame(0x22838, &[1, 2, 3, 4, 5, 6, 7, 8]), 6),
        ("with nine", tuned().0, 22, 22, Frame { len: 9, ..burn }, 3),
        ("of table 8, which may be read", tuned().0, 22, 22, frame(0x22840, &[]), 7),
        ("of table 9, without a right", tuned().0, 22, 22, frame(0x22848, &[]), 7),
        ("of table 10, which is empty", tuned().0, 22, 22, frame(0x22850, &[]), 7),
        ("of table 8 with a byte", tuned().0, 22, 22, frame(0x22840, &[0]), 6),
        ("to device 1", tuned().0, 22, 22, frame(0x228B8, &[]), 4),
        ("as type 3", tuned().0, 22, 22, frame(0x1A838, &[]), 5),
        ("as type 5", tuned().0, 22, 22, frame(0x2A838, &[]), 5),
        ("with a short memory", tuned().0, 21, 22, burn, 10),
        ("with a short flash", tuned().0, 22, 21, burn, 10),
        ("with no flash", tuned().0, 22, 0, burn, 10),
        ("with both short", tuned().0, 21, 21, burn, 10),
        ("2^29 or more, with a short flash", tuned().0, 22, 21, too_large, 10),
        ("2^29 or more", tuned().0, 22, 22, too_large, 1),
        ("to own number 16, with a short flash", own_16, 22, 21, burn, 11),
        ("to own number 16", own_16, 22, 22, burn, 11),
    ];
    for (name, directory, memory_len, flash_len, frame, number) in cases {
        for state in [of_none(2), of_current(2, 20), of_current(3, 7)] {
            let (_, mut memory, mut flash) = tuned();
            let answer = side.serve(directory, state, &mut memory[..memory_len], &mut flash[..flash_len], frame);
            let (_, memory_before, flash_before) = tuned();
            let wanted = (refused(number, state), memory_before, flash_before);
            list.add(&format!("a burn {name}, {state:?}"), (answer, memory, flash), wanted);
        }
    }
    long_flash(side, list);
}

fn long_flash(side: &dyn Side, list: &mut List) {
    let (directory, mut memory, mut flash) = tuned();
    flash.push(0xFF);
    let (memory_before, flash_before) = (memory.clone(), flash.clone());
    for (name, frame) in [("burn", frame(0x22838, &[])), ("CMD", frame(0x2838, &[1]))] {
        let answer = side.serve(directory, of_none(2), &mut memory, &mut flash, frame);
        let wanted = (refused(10, of_none(2)), memory_before.clone(), flash_before.clone());
        list.add(&format!("a {name} with a long flash"), (answer, memory.clone(), flash.clone()), wanted);
    }
}

/// A holder of `tuned` tables, and its state.
struct Tuned<'a> {
    side: &'a dyn Side,
    state: HolderState,
    memory: Vec<u8>,
    flash: Vec<u8>,
}

impl Tuned<'_> {
    fn new(side: &dyn Side, state: HolderState) -> Tuned<'_> {
        let (_, memory, flash) = tuned();
        Tuned { side, state, memory, flash }
    }

    /// The answer to a frame; the next call gets the state that this one hands back.
    fn serve(&mut self, frame: Frame) -> Served {
        let answer = self.side.serve(tuned().0, self.state, &mut self.memory, &mut self.flash, frame);
        self.state = answer.state;
        answer.served
    }
}

/// What is answered to a request and to a burn of table 20, from device 5.
fn answered(bytes: &[u8]) -> Served {
    Served { number: 0, frames: 1, clear: 1, frame: frame(0x102B0, bytes) }
}

fn acknowledged() -> Served {
    Served { number: 0, frames: 1, clear: 0, frame: frame(0x382A4, &[0x0E, 0x01]) }
}

/// 02, C-11: table 20 is written, burnt, written again, read and burnt again; then its acknowledgement comes back. On either family, since
/// no other table is used between.
fn tuning(side: &dyn Side, list: &mut List) {
    for family in [2, 3] {
        tuning_on(side, list, family);
    }
}

fn tuning_on(side: &dyn Side, list: &mut List, family: u8) {
    let mut holder = Tuned::new(side, of_none(family));
    let mut step = |name: &str, frame, wanted, table: [u8; 2], burnt: [u8; 2]| {
        let answer = holder.serve(frame);
        let got = (answer, holder.state, &holder.memory[20..], &holder.flash[20..]);
        list.add(&format!("family {family}, {name}"), got, (wanted, of_current(family, 20), &table[..], &burnt[..]));
    };
    let acknowledged = acknowledged();
    step("a write", frame(0x2824, &[0x11, 0x22]), Served::default(), [0x11, 0x22], [0xFF, 0xFF]);
    step("its burn", frame(0x22824, &[]), acknowledged, [0x11, 0x22], [0x11, 0x22]);
    step("a write after it", frame(0x42824, &[0x33]), Served::default(), [0x11, 0x33], [0x11, 0x22]);
    let read = answered(&[0x11, 0x33]);
    step("what is read then", frame(0xA824, &[0x06, 0x00, 0x02]), read, [0x11, 0x33], [0x11, 0x22]);
    step("a second burn", frame(0x22824, &[]), acknowledged, [0x11, 0x33], [0x11, 0x33]);
    step("a third", frame(0x22824, &[]), acknowledged, [0x11, 0x33], [0x11, 0x33]);
    for (bytes, number) in [(&[0x0E, 0x01][..], 5), (&[0x0E, 0x00], 5), (&[0x0E], 5), (&[], 6)] {
        let refused = Served { number, ..Served::default() };
        step(&format!("an XTND of {bytes:02X?}"), frame(0x3A824, bytes), refused, [0x11, 0x33], [0x11, 0x33]);
    }
    list.add("others", (&holder.memory[..20], &holder.flash[..20]), (&tuned().1[..20], &[0xFF; 20][..]));
}

/// 02, C-13: "its family (2, the older, or 3)"; "none at first"; "11 for an unknown family".
fn first_states(side: &dyn Side, list: &mut List) {
    let refused = FirstState { number: 11, state: HolderState::default() };
    let known: Vec<u8> = (0..=255).filter(|family| side.first_state(*family) != refused).collect();
    list.add("families with a first state, of all 256", known, vec![2, 3]);
    for family in [2, 3] {
        let wanted = FirstState { number: 0, state: of_none(family) };
        list.add(&format!("the first state of family {family}"), side.first_state(family), wanted);
    }
}

/// 02, C-13: "11 for an unknown family or a current table empty or over 31", judged before 10; the state comes back as it was.
fn unsound_states(side: &dyn Side, list: &mut List) {
    let state = |family, has_current, current| HolderState { family, has_current, current };
    let unsound = [
        [state(0, 0, 0), state(1, 0, 0), state(4, 0, 0), state(255, 0, 0), state(0, 1, 7), state(4, 1, 7)],
        [state(2, 2, 7), state(3, 2, 0), state(2, 255, 7), state(2, 0, 7), state(3, 0, 31), state(2, 0, 32)],
        [state(2, 1, 32), state(3, 1, 39), state(2, 1, 255), state(2, 1, 0), state(3, 1, 10), state(2, 1, 31)],
    ];
    let (command, request, burn) = (frame(0x2838, &[1]), frame(0xA838, &[6, 0, 2]), frame(0x22838, &[]));
    let (query, too_large) = (frame(0x3A838, &[0x80, 6, 0, 1]), frame(0x2000_2838, &[1]));
    for state in unsound.concat() {
        for (frame, len) in [(command, 22), (request, 22), (burn, 22), (query, 22), (too_large, 22), (command, 21)] {
            let (directory, mut memory, mut flash) = tuned();
            let answer = side.serve(directory, state, &mut memory[..len], &mut flash, frame);
            let (_, memory_before, flash_before) = tuned();
            let wanted = (refused(11, state), memory_before, flash_before);
            list.add(&format!("{frame:?} with {state:?}"), (answer, memory, flash), wanted);
        }
    }
    let no_right = state(2, 1, 9);
    let (directory, mut memory, mut flash) = tuned();
    let answer = side.serve(directory, no_right, &mut memory, &mut flash, query);
    let wanted = HolderAnswer { served: answered(&[2]), state: no_right };
    list.add("a current table without a right is sound", answer, wanted);
}

/// 02, C-13: "unburnt changes to the others are gone". Table 20 is written, or written, burnt and written again; table 7 is read; table 20 is
/// read again. By 01's rows REQ is 0x8000, from 5 0x2800, so table 20's 0xA824 and table 7's 0xA838.
fn tables_left(side: &dyn Side, list: &mut List) {
    let (write, burn, write_again) = (frame(0x2824, &[0x11, 0x22]), frame(0x22824, &[]), frame(0x42824, &[0x33]));
    let read = |table: u32| frame(0xA800 + table, &[0x06, 0x00, 0x02]);
    let (unburnt, burnt) = ([write, write_again].to_vec(), [write, burn, write_again].to_vec());
    let (erased, first, changed) = ([0xFF, 0xFF], [0x11, 0x22], [0x11, 0x33]);
    let cases = [
        ("unburnt", 2, &unburnt, erased, erased, erased),
        ("unburnt", 3, &unburnt, [5, 6], changed, erased),
        ("burnt", 2, &burnt, erased, first, first),
        ("burnt", 3, &burnt, [5, 6], changed, first),
    ];
    for (name, family, frames, table_7, table_20, flash) in cases {
        let mut holder = Tuned::new(side, side.first_state(family).state);
        let mut add = |what: &str, got: (Served, &Tuned), answer, current, table: [u8; 2]| {
            let got = (got.0, got.1.state, &got.1.memory[20..], &got.1.flash[20..]);
            let wanted = (answer, of_current(family, current), &table[..], &flash[..]);
            list.add(&format!("family {family}, {name}: {what}"), got, wanted);
        };
        let mut answer = Served::default();
        frames.iter().for_each(|frame| answer = holder.serve(*frame));
        add("table 20 is written", (answer, &holder), Served::default(), 20, changed);
        answer = holder.serve(read(0x38));
        add("table 7 is read", (answer, &holder), answered(&table_7), 7, changed);
        answer = holder.serve(read(0x24));
        add("table 20 is read", (answer, &holder), answered(&table_20), 20, table_20);
    }
}

/// 02, C-13: "for any table not current first makes its working bytes equal to its flash bytes, then acts". Table 20 of working memory is 21
/// and 22, of flash 31 and 32; nothing else changes.
fn tables_not_current(side: &dyn Side, list: &mut List) {
    let states = [
        (of_none(2), true),
        (of_current(2, 7), true),
        (of_current(2, 20), false),
        (of_none(3), false),
        (of_current(3, 7), false),
        (of_current(3, 20), false),
    ];
    let (request, command, burn) = (frame(0xA824, &[6, 0, 2]), frame(0x42824, &[33]), frame(0x22824, &[]));
    for (state, reloads) in states {
        let [first, second] = if reloads { [31, 32] } else { [21, 22] };
        let burnt = [first, second]; // a reloaded table's burn leaves the flash as it was
        let cases = [
            ("a REQ", request, answered(&[first, second]), [first, second], [31, 32]),
            ("a CMD", command, Served::default(), [first, 33], [31, 32]),
            ("a BURN", burn, acknowledged(), [first, second], burnt),
        ];
        for (name, frame, answer, table, in_flash) in cases {
            let mut holder = Tuned::new(side, state);
            holder.flash[20..].copy_from_slice(&[31, 32]);
            let (_, mut memory, mut flash) = tuned();
            memory[20..].copy_from_slice(&table);
            flash[20..].copy_from_slice(&in_flash);
            let got = (holder.serve(frame), holder.state, holder.memory, holder.flash);
            let wanted = (answer, of_current(state.family, 20), memory, flash);
            list.add(&format!("{name} for table 20, {state:?}"), got, wanted);
        }
    }
}

/// 02, C-13: "none at first": table 0 is reloaded then, and not while it is current.
fn none_is_not_table_0(side: &dyn Side, list: &mut List) {
    let mut directory = Directory::default();
    (directory.sizes[0], directory.rights[0]) = (2, 1);
    for (state, wanted) in [(of_none(2), [3, 4]), (of_current(2, 0), [1, 2]), (of_none(3), [1, 2])] {
        let (mut memory, mut flash) = ([1, 2], [3, 4]);
        let answer = side.serve(directory, state, &mut memory, &mut flash, frame(0xA800, &[0x06, 0x00, 0x02]));
        let served = HolderAnswer { served: answered(&wanted), state: of_current(state.family, 0) };
        list.add(&format!("table 0 is read, {state:?}"), (answer, memory, flash), (served, wanted, [3, 4]));
    }
}

/// 02, C-13: frames that are refused, and the protocol query, reload nothing and leave the state as it is. CMD is 0x2800, REQ 0xA800, RSP
/// 0x12800, type 3 0x1A800, BURN 0x22800, XTND 0x3A800, all from device 5; table 8 is 0x40, 9 0x48, 10 0x50 and 20 0x24.
fn nothing_reloaded(side: &dyn Side, list: &mut List) {
    let cases: [(&str, u32, &[u8], u8); 19] = [
        ("2^29 or more", 0x2000_2824, &[1], 1),
        ("spare bits", 0x2825, &[1], 2),
        ("to device 1", 0x28A4, &[1], 4),
        ("an RSP", 0x12824, &[1, 2], 5),
        ("type 3", 0x1A824, &[], 5),
        ("an acknowledgement", 0x3A824, &[0x0E, 0x01], 5),
        ("a CMD without bytes", 0x2824, &[], 6),
        ("a REQ of two bytes", 0xA824, &[6, 0], 6),
        ("a BURN of a byte", 0x22824, &[1], 6),
        ("an XTND without bytes", 0x3A824, &[], 6),
        ("a CMD for table 8, which may be read", 0x2840, &[1], 7),
        ("a REQ for table 9, without a right", 0xA848, &[6, 0, 1], 7),
        ("a BURN of table 8", 0x22840, &[], 7),
        ("a BURN of table 10, which is empty", 0x22850, &[], 7),
        ("a CMD past the end", 0x42824, &[1, 2], 8),
        ("a REQ past the end", 0x4A824, &[6, 0, 2], 8),
        ("a REQ for nine", 0xA824, &[6, 0, 9], 9),
        ("a query of two", 0x3A824, &[0x80, 6, 0, 2], 9),
        ("a query", 0x3A824, &[0x80, 6, 0, 1], 0),
    ];
    for (name, id, bytes, number) in cases {
        for state in [of_none(2), of_current(2, 7), of_none(3), of_current(3, 7)] {
            let mut holder = Tuned::new(side, state);
            let wanted = if number == 0 { answered(&[2]) } else { refused(number, state).served };
            let (_, memory, flash) = tuned();
            let got = (holder.serve(frame(id, bytes)), holder.state, holder.memory, holder.flash);
            list.add(&format!("{name}, {state:?}"), got, (wanted, state, memory, flash));
        }
    }
}

fn bridge_read(side: &dyn Side, list: &mut List) {
    let (mut first, mut second) = ([0; 512], [0; 512]);
    let opened = side.open_read(fresh(0), Buffers { first: &first, second: &second }, 5, 7, 6, 10);
    list.add("opening a read of 10 bytes", (opened.number, opened.ticket), (0, 1));
    let asked = side.turn(opened.bridge, Buffers { first: &first, second: &second });
    list.add("its first request", asked.answer.frame, frame(0x1882B8, &[0x06, 0x00, 0x08]));
    let reply = frame(0x12830, &[1, 2, 3, 4, 5, 6, 7, 8]);
    let taken = side.frame(asked.bridge, BuffersMut { first: &mut first, second: &mut second }, reply);
    list.add("its reply", taken.answer.number, 0);
    let again = side.turn(taken.bridge, Buffers { first: &first, second: &second });
    list.add("its second request", again.answer.frame, frame(0x3882B8, &[0x06, 0x01, 0x02]));

    for (wrong, id) in [("device", 0x13030), ("table", 0x12838), ("offset", 0x212830 | 1 << 18)] {
        let before = first;
        let lent = BuffersMut { first: &mut first, second: &mut second };
        let taken = side.frame(asked.bridge, lent, Frame { id, ..reply });
        list.add(&format!("a reply of the wrong {wrong}"), (taken.answer.number, first), (17, before));
    }
    let lent = BuffersMut { first: &mut first, second: &mut second };
    let short = side.frame(asked.bridge, lent, Frame { len: 7, ..reply });
    list.add("a reply of the wrong length", short.answer.number, 17);

    let last = frame(side.pack(Parts { offset: 8, kind: 2, from: 5, to: 0, table: 6 }).id, &[9, 10]);
    let done = side.frame(again.bridge, BuffersMut { first: &mut first, second: &mut second }, last);
    list.add("status after both replies", side.status(done.bridge, 1), 0);
    let span = side.span(done.bridge, &first, 1);
    list.add("its part of the buffer", span, Span { number: 0, start: 0, len: 10 });
    list.add("its bytes", first[..10].to_vec(), (1..=10).collect());
    list.add("the second buffer", second, [0; 512]);
}

/// A box that never answers: the turns that send a frame, and those after which a status is 16.
fn silence(side: &dyn Side, mut bridge: Bridge, lent: Buffers) -> (Vec<u32>, Vec<u32>) {
    let (mut sends, mut gave_up) = (Vec::new(), Vec::new());
    for turn in 1..=70 {
        let before = side.status(bridge, 1);
        let stepped = side.turn(bridge, lent);
        bridge = stepped.bridge;
        if stepped.answer.frames == 1 {
            sends.push(turn);
        }
        if before != 16 && side.status(bridge, 1) == 16 {
            gave_up.push(turn);
        }
    }
    (sends, gave_up)
}

fn silent_device(side: &dyn Side, list: &mut List) {
    let (mut first, mut second) = ([0; 512], [0; 512]);
    let lent = Buffers { first: &first, second: &second };
    let opened = side.open_read(fresh(0), lent, 5, 7, 6, 128);
    let (sends, gave_up) = silence(side, opened.bridge, lent);
    list.add("silent device, turns that send", sends, vec![1, 21, 41]);
    list.add("silent device, turn that gives up", gave_up, vec![61]);
    for (count, number) in [(128, 0), (129, 9), (0, 9)] {
        let read = side.open_read(fresh(0), Buffers { first: &first, second: &second }, 5, 7, 6, count).number;
        list.add(&format!("reading {count} bytes"), read, number);
        let lent = BuffersMut { first: &mut first, second: &mut second };
        let write = side.open_write(fresh(0), lent, 5, 7, 6, &vec![1; count]).number;
        list.add(&format!("writing {count} bytes"), write, number);
        let lent = BuffersMut { first: &mut first, second: &mut second };
        let check = side.open_check(fresh(0), lent, 5, 7, 6, &vec![1; count]).number;
        list.add(&format!("writing {count} bytes, checked"), check, number);
    }
}

/// 02, C-17: a checked write of 10 bytes whose box is unplugged, which has the bytes, and which lacks the last.
fn checked_write(side: &dyn Side, list: &mut List) {
    let (mut first, mut second) = ([0xFF; 512], [0xFF; 512]);
    let bytes: Vec<u8> = (1..=10).collect();
    let lent = BuffersMut { first: &mut first, second: &mut second };
    let opened = side.open_check(fresh(0), lent, 5, 7, 6, &bytes);
    list.add("opening a checked write", (opened.number, opened.ticket), (0, 1));
    list.add("its bytes in the second buffer", second[..11].to_vec(), vec![1, 2, 3, 4, 5, 6, 7, 8, 9, 10, 0xFF]);
    list.add("none in the first", first, [0xFF; 512]);
    let (sends, gave_up) = silence(side, opened.bridge, Buffers { first: &first, second: &second });
    list.add("unplugged box, turns that send", sends, vec![1, 2, 3, 23, 43]);
    list.add("unplugged box, turn that gives up", gave_up, vec![63]);

    for (last, number) in [(10, 0), (11, 18)] {
        let (mut bridge, mut sent) = (opened.bridge, Vec::new());
        for reply in [None, None, Some((0, &bytes[..8])), Some((8, &[9, last][..]))] {
            let stepped = side.turn(bridge, Buffers { first: &first, second: &second });
            bridge = stepped.bridge;
            sent.push(stepped.answer.frame);
            if let Some((offset, bytes)) = reply {
                let parts = Parts { offset, kind: 2, from: 5, to: 0, table: 6 };
                let lent = BuffersMut { first: &mut first, second: &mut second };
                let taken = side.frame(bridge, lent, frame(side.pack(parts).id, bytes));
                list.add("a reply to a checked write", taken.answer.number, 0);
                bridge = taken.bridge;
            }
        }
        let commands = [frame(0x1802B8, &bytes[..8]), frame(0x3802B8, &bytes[8..])];
        let requests = [frame(0x1882B8, &[0x06, 0x00, 0x08]), frame(0x3882B8, &[0x06, 0x01, 0x02])];
        list.add("its frames", sent, [commands, requests].concat());
        list.add("its status", side.status(bridge, 1), number);
        list.add("its part of the buffer", side.span(bridge, &first, 1), Span { number, start: 0, len: 0 });
    }
    list.add("what was read back", first[..11].to_vec(), vec![1, 2, 3, 4, 5, 6, 7, 8, 9, 10, 0xFF]);
}

/// 02, C-19: four reads, each closed once it has asked; the state in which all four slots rest.
fn four_closed(side: &dyn Side, list: &mut List, lent: Buffers) -> Bridge {
    let mut bridge = fresh(0);
    let rests = [[60, 0, 0, 0], [59, 60, 0, 0], [58, 59, 60, 0], [57, 58, 59, 60]];
    for (slot, rests) in rests.into_iter().enumerate() {
        let opened = side.open_read(bridge, lent, 5, 7, 6, 8);
        let ticket = slot as u32 + 1;
        list.add(&format!("slot {slot} is given"), (opened.number, opened.bridge.slots[slot].ticket), (0, ticket));
        let asked = side.turn(opened.bridge, lent);
        list.add("its request", asked.answer.frame, frame(0x1882B8, &[0x06, 16 * slot as u8, 0x08]));
        list.add("turns left to rest", asked.bridge.rests, rests);
        let closed = side.close(asked.bridge, ticket);
        list.add("closing leaves them", (closed.number, closed.bridge.rests), (0, rests));
        bridge = closed.bridge;
    }
    bridge
}

/// The number of an opening, and the lowest slot held after it.
fn opening(side: &dyn Side, bridge: Bridge, lent: Buffers) -> (u8, Option<usize>) {
    let opened = side.open_read(bridge, lent, 5, 7, 6, 8);
    (opened.number, opened.bridge.slots.iter().position(|slot| slot.phase != FREE))
}

/// 02, C-19: the late answer to a closed read, and when its slot is given again; its request went out on turn 1 of 4.
fn late_answers(side: &dyn Side, list: &mut List) {
    let (mut first, mut second) = ([0; 512], [0; 512]);
    let mut bridge = four_closed(side, list, Buffers { first: &first, second: &second });
    let lent = BuffersMut { first: &mut first, second: &mut second };
    let late = side.frame(bridge, lent, frame(0x12830, &[1, 2, 3, 4, 5, 6, 7, 8]));
    list.add("a late answer", (late.answer.number, late.bridge, first), (17, bridge, [0; 512]));

    let lent = Buffers { first: &first, second: &second };
    list.add("an opening while all rest", opening(side, bridge, lent), (19, None));
    for _ in 5..=60 {
        bridge = side.turn(bridge, lent).bridge;
    }
    list.add("59 turns after its request", (bridge.rests, opening(side, bridge, lent)), ([1, 2, 3, 4], (19, None)));
    bridge = side.turn(bridge, lent).bridge;
    list.add("60 turns after it", (bridge.rests, opening(side, bridge, lent)), ([0, 1, 2, 3], (0, Some(0))));
}

/// 02, C-19: 19 to each opening, 12 where all slots are held, though they rest, and a reset.
fn resting_slots(side: &dyn Side, list: &mut List) {
    let (mut first, mut second) = ([0; 512], [0; 512]);
    let resting = Bridge { rests: [1, 2, 59, 60], ..fresh(0) };
    let lent = BuffersMut { first: &mut first, second: &mut second };
    let opened = side.open_write(resting, lent, 5, 7, 6, &[1; 8]);
    list.add("opening a write while all rest", opened, Opened { bridge: resting, ticket: 0, number: 19 });
    let lent = BuffersMut { first: &mut first, second: &mut second };
    let opened = side.open_check(resting, lent, 5, 7, 6, &[1; 8]);
    list.add("opening a checked write while all rest", opened, Opened { bridge: resting, ticket: 0, number: 19 });
    list.add("both buffers", (first, second), ([0; 512], [0; 512]));

    let lent = Buffers { first: &first, second: &second };
    let mut held = fresh(0);
    for _ in 0..4 {
        held = side.turn(side.open_read(held, lent, 5, 7, 6, 8).bridge, lent).bridge;
    }
    list.add("four held slots rest", (held.rests, opening(side, held, lent).0), ([57, 58, 59, 60], 12));
    let unsound = Bridge { rests: [0, 0, 0, 61], ..fresh(0) };
    list.add("61 turns left to rest", side.status(unsound, 1), 11);
    let reset = side.reset(unsound, 0);
    list.add("a reset clears them", reset, Changed { bridge: fresh(0), number: 0 });
    list.add("and its slots are given", opening(side, side.reset(resting, 0).bridge, lent), (0, Some(0)));
}

/// A scalar field with all else 0.
fn field(kind: u8, scale: f32, transform: f32) -> Vec<u8> {
    let mut field = vec![0; 89];
    field[0] = kind;
    field[46..50].copy_from_slice(&scale.to_be_bytes());
    field[50..54].copy_from_slice(&transform.to_be_bytes());
    field
}

fn values(side: &dyn Side, list: &mut List) {
    let mut out = [0; 7];
    let written = side.mlg_write_data(&mut out, 2, 0, 0, &[0xFF, 0x02]);
    list.add("record FF 02 has sum 1", (written, out), (Written { len: 7, number: 0 }, [0, 0, 0, 0, 0xFF, 2, 1]));
    let raw = |value| Raw { value, number: 0 };
    let shown = |value| Shown { value, number: 0 };
    list.add("0x80 in an S08 field", side.raw_value(&field(1, 1.0, 0.0), &[0x80]), raw(-128));
    let s16 = field(3, 0.5, 0.0);
    list.add("S16 FF38", side.raw_value(&s16, &[0xFF, 0x38]), raw(-200));
    list.add("S16 FF38, scale 0.5, transform 0", side.shown_value(&s16, &[0xFF, 0x38]), shown(-100.0));
    let u08 = field(0, 2.0, 5.0);
    list.add("U08 10, transform 5, scale 2", side.shown_value(&u08, &[10]), shown(30.0));
}

/// The listing's example: its file, and what is printed.
pub fn example() -> (Vec<u8>, &'static str) {
    let mut file = vec![0x4D, 0x4C, 0x56, 0x4C, 0x47, 0, 0, 2, 0, 0, 0, 0, 0, 0, 0, 0, 0, 0, 0, 113, 0, 1, 0, 1];
    let mut field = vec![0; 89];
    field[1] = b't';
    file.extend(field);
    file.extend([0x00, 0x00, 0x00, 0x0A, 0x07, 0x07]);
    (file, "fields 1 record 1\nfield 0 0 t\n0 data 0 10 7\nend 1\n")
}

fn listing(side: &dyn Side, list: &mut List) {
    let (mut file, text) = example();
    let mut add = |name: &str, file: &[u8], wanted: &str| {
        if let Some(bytes) = side.listing(file) {
            list.add(name, String::from_utf8_lossy(&bytes).into_owned(), wanted.to_string());
        }
    };
    add("listing example", &file, text);
    file[118] = 8;
    add("listing with a wrong sum", &file, "fields 1 record 1\nfield 0 0 t\nrefused 26 at 113\n");
    file[118] = 7;
    file[114] = 3;
    add("listing with a wrong counter", &file, "fields 1 record 1\nfield 0 0 t\n0 data 3 10 7 !\nend 1\n");
    add("listing of an input too long", &vec![0; 65_537], "too long\n");
    add("listing of no bytes", &[], "refused 20 at 0\n");
}

/// 02, C-12: a log of 600 blocks, every hundredth a mark, as the side writes it; then the same with counters modulo 255.
fn rolling_counters(side: &dyn Side, list: &mut List) {
    let mut file = example().0;
    file.truncate(113);
    let mut places = Vec::new();
    for earlier in 0..600 {
        let mut block = [0; 54];
        let written = match earlier % 100 {
            99 => side.mlg_write_mark(&mut block, earlier, 0, b"mark"),
            _ => side.mlg_write_data(&mut block, 1, earlier, 0, &[7]),
        };
        places.push(file.len());
        file.extend(&block[..written.len]);
    }
    let counters: Vec<u8> = places[254..258].iter().map(|place| file[place + 1]).collect();
    list.add("counters of the blocks after 254 to 257 others", counters, vec![254, 255, 0, 1]);
    let marked = |file: &[u8]| -> Option<Vec<String>> {
        let text = String::from_utf8(side.listing(file)?).unwrap();
        let lines = text.lines().filter(|line| line.ends_with(" !"));
        Some(lines.map(|line| line.split(' ').next().unwrap().to_string()).collect())
    };
    let Some(numbers) = marked(&file) else { return };
    list.add("lines with ` !` of 600 blocks", numbers, vec![]);
    places.iter().zip(0..).for_each(|(place, earlier)| file[place + 1] = (earlier % 255) as u8);
    let wrong = (255..600).map(|number| number.to_string()).collect();
    list.add("lines with ` !` of 600 blocks with counters modulo 255", marked(&file).unwrap(), wrong);
}

#[cfg(test)]
mod tests {
    use super::*;
    use crate::side::Model;

    #[test]
    fn reckonings_of_the_paper() {
        assert_eq!(failures(&Model), Vec::<String>::new());
    }

    /// Byte 2,055 of a table of 2,056 is out of reach of eight bytes, as the offset ends at 2,047.
    #[test]
    fn last_byte_out_of_reach() {
        assert_eq!(side_pack_offset(2048), 8);
        assert_eq!(side_pack_offset(2047), 0);
    }

    fn side_pack_offset(offset: u16) -> u8 {
        Model.pack(Parts { offset, ..Parts::default() }).number
    }
}
