//! Prints what the calls of `compare/entries.c` must answer, by the model: the layout of the structs and the constants first, then a
//! line for each answer and for each memory that a call may change. It uses no library.
//!
//!     cargo run --release --quiet --bin entries

#[allow(dead_code)]
#[path = "../abi.rs"]
mod abi;
#[allow(dead_code)]
#[path = "../model/mod.rs"]
mod model;
#[allow(dead_code)]
#[path = "../side.rs"]
mod side;

use abi::*;
use model::{bridge, frd, listing, mlg, BURN, CMD, REQ, RSP, XTND};
use side::{Buffers, BuffersMut, Model, Side};
use std::mem::{align_of, offset_of, size_of};

/// A value as the C program prints it.
trait Put {
    fn put(&self) -> String;
}

macro_rules! numbers {
    ($($type:ty),*) => { $(impl Put for $type { fn put(&self) -> String { self.to_string() } })* };
}
numbers!(u8, u16, u32, u64, i64, usize);

impl Put for f32 {
    fn put(&self) -> String {
        format!("bits {:08x}", self.to_bits())
    }
}

impl<T: Put, const N: usize> Put for [T; N] {
    fn put(&self) -> String {
        format!("[{}]", self.iter().map(T::put).collect::<Vec<_>>().join(" "))
    }
}

fn size_of_field<S, F>(_: fn(&S) -> &F) -> usize {
    size_of::<F>()
}

/// The structs by their names in the header, with their fields: how they are printed, and their layout.
macro_rules! structs {
    ($($name:literal $type:ident { $($field:ident),* })*) => {
        $(impl Put for $type {
            fn put(&self) -> String {
                let $type { $($field),* } = self;
                format!("{{{}}}", [$(format!("{}={}", stringify!($field), $field.put())),*].join(" "))
            }
        })*

        fn layout() {
            $(
                println!("layout {} size={} align={}", $name, size_of::<$type>(), align_of::<$type>());
                $({
                    let (at, size) = (offset_of!($type, $field), size_of_field(|s: &$type| &s.$field));
                    println!("layout {}.{} at={at} size={size}", $name, stringify!($field));
                })*
            )*
        }
    };
}

structs! {
    "hg_parts" Parts { offset, kind, from, to, table }
    "hg_packed" Packed { id, number }
    "hg_unpacked" Unpacked { parts, number }
    "hg_frame" Frame { id, len, bytes }
    "hg_request" Request { table, count, offset }
    "hg_request_read" RequestRead { request, clear }
    "hg_request_bytes" RequestBytes { number, bytes }
    "hg_directory" Directory { sizes, rights, table_blocking, write_blocking, own }
    "hg_holder_state" HolderState { family, has_current, current }
    "hg_first_state" FirstState { number, state }
    "hg_served" Served { number, frames, clear, frame }
    "hg_holder_answer" HolderAnswer { served, state }
    "hg_slot" Slot { ticket, offset, phase, kind, device, table, count, progress, sends, left }
    "hg_bridge" Bridge { slots, issued, own, last, rests }
    "hg_opened" Opened { bridge, ticket, number }
    "hg_yielded" Yielded { number, frames, frame }
    "hg_stepped" Stepped { bridge, answer }
    "hg_changed" Changed { bridge, number }
    "hg_span" Span { number, start, len }
    "hg_mlg_header" MlgHeader { time, info, begin, size, count, version, number }
    "hg_mlg_block" MlgBlock { place, start, len, time, number, kind, counter, as_expected }
    "hg_written" Written { len, number }
    "hg_tally" Tally { blocks, ending, place }
    "hg_raw" Raw { value, number }
    "hg_shown" Shown { value, number }
    "hg_frd_header" FrdHeader { time, size, number }
    "hg_frd_block" FrdBlock { place, start, len, time, number, kind, counter, as_expected }
}

/// The constants of the header: 01's and 02's numbers, types, places and lengths, and the model's.
#[rustfmt::skip]
const CONSTANTS: [(&str, usize); 87] = [
    ("DONE", 0), ("ID_TOO_LARGE", 1), ("SPARE_BITS", 2), ("FRAME_TOO_LONG", 3), ("OTHER_DEVICE", 4), ("TYPE", 5), ("WRONG_LENGTH", 6),
    ("NO_RIGHT", 7), ("RANGE", 8), ("COUNT", 9), ("MEMORY_LENGTH", 10), ("UNSOUND", 11), ("NO_SLOT", 12), ("NO_TICKET", 13),
    ("UNKNOWN_TICKET", 14), ("NOT_FINISHED", 15), ("GAVE_UP", 16), ("NO_MATCH", 17), ("DIFFERENT", 18), ("RESTING", 19), ("CUT_SHORT", 20),
    ("WRONG_NAME", 21), ("VERSION", 22), ("DISAGREE", 23), ("FIELD_TYPE", 24), ("BLOCK_TYPE", 25), ("SUM", 26), ("OUTPUT_TOO_SMALL", 27), ("TEXT", 28),
    ("NO_SHOWN_VALUE", 30),

    ("CMD", CMD as usize), ("REQ", REQ as usize), ("RSP", RSP as usize), ("BURN", BURN as usize), ("XTND", XTND as usize),
    ("PHASE_FREE", FREE as usize), ("PHASE_READY", READY as usize), ("PHASE_WAITING", WAITING as usize), ("PHASE_DONE", DONE as usize),
    ("PHASE_GAVE_UP", GAVE_UP as usize), ("PHASE_DIFFERENT", DIFFERENT as usize),
    ("READ", READ as usize), ("WRITE", WRITE as usize), ("READ_BACK", READ_BACK as usize), ("CHECK", CHECK as usize),
    ("BUFFER", bridge::BUFFER), ("MOST", bridge::PART),

    ("MLG_HEADER", mlg::HEADER), ("MLG_FIELD", mlg::FIELD),
    ("MLG_U08", 0), ("MLG_S08", 1), ("MLG_U16", 2), ("MLG_S16", 3), ("MLG_U32", 4), ("MLG_S32", 5), ("MLG_S64", 6), ("MLG_F32", 7),
    ("MLG_BITS_U08", 10), ("MLG_BITS_U16", 11), ("MLG_BITS_U32", 12),
    ("MLG_TYPE_AT", 0), ("MLG_NAME_AT", 1), ("MLG_NAME_LEN", 34), ("MLG_UNITS_AT", 35), ("MLG_UNITS_LEN", 10), ("MLG_STYLE_AT", 45),
    ("MLG_SCALE_AT", 46), ("MLG_TRANSFORM_AT", 50), ("MLG_DIGITS_AT", 54), ("MLG_CATEGORY_AT", 55), ("MLG_CATEGORY_LEN", 34),
    ("MLG_BIT_STYLE_AT", 46), ("MLG_BIT_NAMES_AT", 47), ("MLG_BIT_COUNT_AT", 51),
    ("MLG_DATA", 5), ("MLG_MARK", mlg::MARK), ("MLG_MARK_TEXT", 49),
    ("BLOCK_DATA", BLOCK_DATA as usize), ("BLOCK_MARK", BLOCK_MARK as usize), ("BLOCK_TIME", BLOCK_TIME as usize),
    ("BLOCK_END", BLOCK_END as usize), ("BLOCK_REFUSED", BLOCK_REFUSED as usize),
    ("LISTING", 5 * listing::LONGEST), // a listing has at most five bytes for each byte of its file

    ("FRD_HEADER", frd::HEADER), ("FRD_SIGNATURE", frd::SIGNATURE), ("FRD_DATA", 2), ("FRD_TIME", 6),
];

/// Prints an answer, and hands it on.
fn call<T: Put>(entry: &str, answer: T) -> T {
    println!("{entry} {}", answer.put());
    answer
}

/// Prints what an entry may have changed.
fn changed(entry: &str, name: &str, bytes: &[u8]) {
    println!("{entry} {name} {}", bytes.iter().map(|byte| format!("{byte:02x}")).collect::<String>());
}

/// A pattern: byte i is first + 7 i.
fn pattern<const N: usize>(first: u8) -> [u8; N] {
    std::array::from_fn(|i| (first as usize + 7 * i) as u8)
}

fn identifiers() {
    let parts = Parts { offset: 1234, kind: RSP, from: 3, to: 5, table: 22 };
    let packed = call("hg_bus_pack", Model.pack(parts));
    call("hg_bus_pack", Model.pack(Parts { kind: 8, ..parts }));
    call("hg_bus_pack", Model.pack(Parts { table: 32, ..parts }));
    call("hg_bus_pack", Model.pack(Parts { offset: 2048, ..parts }));
    call("hg_bus_unpack", Model.unpack(packed.id));
    call("hg_bus_unpack", Model.unpack(packed.id + 1));
    call("hg_bus_unpack", Model.unpack(1 << 29));
}

fn requests() {
    call("hg_bus_read_request", Model.read_request(0x16, 0x9A, 0x4B));
    call("hg_bus_read_request", Model.read_request(0x16, 0x9A, 0x5B)); // bit 4 set
    call("hg_bus_read_request", Model.read_request(0xB6, 0x9A, 0x4B)); // two of the top bits
    call("hg_bus_request_bytes", Model.request_bytes(Request { table: 22, count: 11, offset: 1234 }));
    call("hg_bus_request_bytes", Model.request_bytes(Request { table: 22, count: 16, offset: 1234 }));
}

/// A holder: its directory, its state and both memories.
struct Tables {
    directory: Directory,
    state: HolderState,
    memory: [u8; 50],
    flash: [u8; 50],
}

impl Tables {
    /// Table 3 of twenty bytes may be read, table 22 of thirty may be written; all others are empty.
    fn new(state: HolderState) -> Tables {
        let mut directory =
            Directory { table_blocking: 0x1234, write_blocking: 0x5678, own: 9, ..Directory::default() };
        (directory.sizes[3], directory.rights[3]) = (20, 1);
        (directory.sizes[22], directory.rights[22]) = (30, 2);
        Tables { directory, state, memory: pattern(1), flash: pattern(60) }
    }

    /// The tables of a holder in the first state of a family.
    fn first(family: u8) -> Tables {
        Tables::new(call("hg_bus_first_state", Model.first_state(family)).state)
    }

    /// A frame, with these lengths of both memories; the state handed back.
    fn lend(&mut self, memory_len: usize, flash_len: usize, frame: Frame) -> HolderState {
        let (memory, flash) = (&mut self.memory[..memory_len], &mut self.flash[..flash_len]);
        let answer = call("hg_bus_serve", Model.serve(self.directory, self.state, memory, flash, frame));
        changed("hg_bus_serve", "memory", memory);
        changed("hg_bus_serve", "flash", flash);
        answer.state
    }

    /// The next call gets the state that this one hands back.
    fn serve(&mut self, frame: Frame) {
        self.state = self.lend(50, 50, frame);
    }
}

/// A frame of device 3 for a table of device 9.
fn to_table(table: u8, kind: u8, bytes: &[u8]) -> Frame {
    model::holder::frame(Parts { offset: 13, kind, from: 3, to: 9, table }, bytes)
}

fn holder() {
    let command = to_table(22, CMD, b"store");
    let mut held = Tables::first(2);
    held.serve(command);
    held.serve(to_table(22, REQ, &[0x04, 0x25, 0x86])); // six bytes, to table 4 and offset 300
    held.serve(to_table(22, REQ, &[0x04, 0x25, 0x96])); // the same with bit 4 set, and with two of the top bits
    held.serve(to_table(22, REQ, &[0xA4, 0x25, 0x86]));
    held.serve(to_table(22, REQ, &[0x04, 0x25, 0x89])); // nine bytes
    held.serve(to_table(22, XTND, &[0x80, 0x04, 0x25, 0x85]));
    held.serve(to_table(22, XTND, &[0x80, 0x04, 0x25, 0x95]));
    held.serve(to_table(22, XTND, &[0x80, 0xA4, 0x25, 0x85]));
    held.serve(Frame { len: 9, ..command });
    held.serve(to_table(22, BURN, b""));
    held.serve(to_table(22, CMD, b"again")); // the flash keeps what was burnt
    held.serve(to_table(22, REQ, &[0x04, 0x25, 0x86]));
    held.serve(to_table(22, BURN, b"b"));
    held.serve(to_table(3, BURN, b"")); // it may be read
    held.serve(to_table(22, XTND, &[0x0E, 0x01]));
}

/// A table is written and left for another, and used again; none is current at first, and a query changes nothing.
fn holder_families() {
    let (asked, query) = ([0x04, 0x25, 0x86], [0x80, 0x04, 0x25, 0x81]);
    call("hg_bus_first_state", Model.first_state(1));
    call("hg_bus_first_state", Model.first_state(4));
    for family in [2, 3] {
        for again in [to_table(22, REQ, &asked), to_table(22, CMD, b"new"), to_table(22, BURN, b"")] {
            let mut held = Tables::first(family);
            held.serve(to_table(22, XTND, &query));
            held.serve(to_table(22, CMD, b"store"));
            held.serve(to_table(3, XTND, &query));
            held.serve(to_table(3, REQ, &asked));
            held.serve(again);
        }
    }
}

/// A CMD and a BURN with an unsound directory, with unsound states, and with either memory short.
fn holder_refusals() {
    let sound = HolderState { family: 2, has_current: 1, current: 3 };
    let unsound = [(4, 1, 22), (2, 2, 22), (2, 0, 22), (3, 1, 21), (3, 1, 54)];
    let mut held = Tables::new(sound);
    for frame in [to_table(22, CMD, b"store"), to_table(22, BURN, b"")] {
        held.directory.own = 16;
        held.lend(50, 50, frame);
        held.directory.own = 9;
        for (family, has_current, current) in unsound {
            held.state = HolderState { family, has_current, current };
            held.lend(50, 50, frame);
        }
        held.state = sound;
        held.lend(49, 50, frame);
        held.lend(50, 49, frame);
    }
}

/// A reply of device 5 to device 9, for a place of its buffer.
fn reply(place: u16, bytes: &[u8]) -> Frame {
    model::holder::frame(Parts { offset: place, kind: RSP, from: 5, to: 9, table: 6 }, bytes)
}

/// Both buffers of a bridge.
struct Both {
    first: [u8; bridge::BUFFER],
    second: [u8; bridge::BUFFER],
}

impl Both {
    fn new() -> Both {
        Both { first: pattern(1), second: pattern(60) }
    }

    /// The buffers with these lengths.
    fn lent(&self, first: usize, second: usize) -> Buffers<'_> {
        Buffers { first: &self.first[..first], second: &self.second[..second] }
    }

    fn lent_mut(&mut self, first: usize, second: usize) -> BuffersMut<'_> {
        BuffersMut { first: &mut self.first[..first], second: &mut self.second[..second] }
    }
}

/// A write of ten bytes in slot 0, ticket 1; a read of twelve in slot 1, ticket 2; a checked write of ten in slot 2, ticket 3.
fn openings(both: &mut Both) -> Bridge {
    let dirty = Bridge { issued: 7, own: 8, last: 2, rests: [60, 0, 61, 7], ..Bridge::default() };
    let fresh = call("hg_bridge_reset", Model.reset(dirty, 9)).bridge;
    call("hg_bridge_reset", Model.reset(fresh, 16));
    let mut write = |b, second_len, offset| {
        let (lent, bytes) = (both.lent_mut(512, second_len), pattern::<10>(200));
        let opened = call("hg_bridge_open_write", Model.open_write(b, lent, 4, 21, offset, &bytes));
        changed("hg_bridge_open_write", "first", &both.first);
        opened.bridge
    };
    let one = write(fresh, 512, 300);
    write(one, 512, 2047);
    write(one, 511, 300);
    let read = |first_len, second_len, device, count| {
        let lent = both.lent(first_len, second_len);
        call("hg_bridge_open_read", Model.open_read(one, lent, device, 22, 100, count)).bridge
    };
    let two = read(512, 512, 5, 12);
    read(512, 512, 16, 12);
    read(512, 512, 5, 129);
    read(511, 512, 5, 12);
    read(512, 511, 5, 12);
    let mut check = |first_len, offset| {
        let (lent, bytes) = (both.lent_mut(first_len, 512), pattern::<10>(100));
        let opened = call("hg_bridge_open_check", Model.open_check(two, lent, 5, 23, offset, &bytes));
        changed("hg_bridge_open_check", "second", &both.second);
        opened.bridge
    };
    let three = check(512, 200);
    check(512, 2047);
    check(511, 200);
    three
}

/// The read's second reply is the last, the checked write's second differs.
fn bridge_by_value() {
    let mut both = Both::new();
    let mut b = openings(&mut both);
    let turn = |b, both: &Both, first_len, second_len| {
        call("hg_bridge_turn", Model.turn(b, both.lent(first_len, second_len))).bridge
    };
    let frame = |b, both: &mut Both, second_len, frame| {
        let stepped = call("hg_bridge_frame", Model.frame(b, both.lent_mut(512, second_len), frame));
        changed("hg_bridge_frame", "first", &both.first);
        stepped.bridge
    };
    for _ in 1..=6 {
        b = turn(b, &both, 512, 512);
    }
    turn(b, &both, 511, 512);
    turn(b, &both, 512, 511);
    b = frame(b, &mut both, 512, reply(128, b"a reply."));
    frame(b, &mut both, 512, reply(128, b"a reply."));
    frame(b, &mut both, 511, reply(256, &pattern::<8>(100)));
    b = frame(b, &mut both, 512, reply(256, &pattern::<8>(100)));
    b = turn(b, &both, 512, 512);
    call("hg_bridge_status", Model.status(b, 2));
    call("hg_bridge_span", Model.span(b, &both.first, 2));
    b = frame(b, &mut both, 512, reply(136, b"more"));
    call("hg_bridge_status", Model.status(b, 2));
    call("hg_bridge_status", Model.status(b, 4));
    call("hg_bridge_span", Model.span(b, &both.first, 2));
    call("hg_bridge_span", Model.span(b, &both.first, 1));
    b = turn(b, &both, 512, 512);
    call("hg_bridge_status", Model.status(b, 3));
    b = frame(b, &mut both, 512, reply(264, b"no"));
    call("hg_bridge_status", Model.status(b, 3));
    call("hg_bridge_span", Model.span(b, &both.first, 3));
    b = call("hg_bridge_close", Model.close(b, 1)).bridge;
    call("hg_bridge_close", Model.close(b, 1));
}

/// The checked write's replies are equal.
fn bridge_in_place() {
    let mut both = Both::new();
    let mut b = openings(&mut both);
    let turn = |b: &mut Bridge, both: &Both, first_len, second_len| {
        call("hg_bridge_turn_in_place", Model.turn_in_place(b, both.lent(first_len, second_len)));
        call("hg_bridge_turn_in_place b", *b);
    };
    let frame = |b: &mut Bridge, both: &mut Both, second_len, frame| {
        call("hg_bridge_frame_in_place", Model.frame_in_place(b, both.lent_mut(512, second_len), frame));
        call("hg_bridge_frame_in_place b", *b);
        changed("hg_bridge_frame_in_place", "first", &both.first);
    };
    for _ in 1..=6 {
        turn(&mut b, &both, 512, 512);
    }
    turn(&mut b, &both, 511, 512);
    turn(&mut b, &both, 512, 511);
    frame(&mut b, &mut both, 512, reply(128, b"a reply."));
    frame(&mut b, &mut both, 512, reply(128, b"a reply."));
    frame(&mut b, &mut both, 511, reply(256, &pattern::<8>(100)));
    frame(&mut b, &mut both, 512, reply(256, &pattern::<8>(100)));
    turn(&mut b, &both, 512, 512);
    turn(&mut b, &both, 512, 512);
    frame(&mut b, &mut both, 512, reply(264, &pattern::<10>(100)[8..]));
    call("hg_bridge_status", Model.status(b, 3));
    call("hg_bridge_span", Model.span(b, &both.first, 3));
    for _ in 1..=2 {
        call("hg_bridge_close_in_place", Model.close_in_place(&mut b, 1));
        call("hg_bridge_close_in_place b", b);
    }
}

/// Slots that rest: an opening takes the lowest that does not, or is refused with 19; 61 turns left are unsound.
fn bridge_rests() {
    let mut both = Both::new();
    let b = Bridge { issued: 7, own: 9, last: 3, rests: [60, 0, 1, 0], ..Bridge::default() };
    let resting = Bridge { rests: [60, 2, 1, 59], ..b };
    let bytes: [u8; 10] = pattern(200);
    for b in [b, resting] {
        call("hg_bridge_open_write", Model.open_write(b, both.lent_mut(512, 512), 4, 21, 300, &bytes));
        changed("hg_bridge_open_write", "first", &both.first);
    }
    for b in [b, resting] {
        call("hg_bridge_open_check", Model.open_check(b, both.lent_mut(512, 512), 5, 23, 200, &bytes));
        changed("hg_bridge_open_check", "second", &both.second);
    }
    let read = |b, both: &Both| {
        let lent = both.lent(512, 512);
        call("hg_bridge_open_read", Model.open_read(b, lent, 5, 22, 100, 12)).bridge
    };
    read(resting, &both);
    read(Bridge { rests: [60, 0, 61, 0], ..b }, &both);
    let b = read(b, &both);
    let b = call("hg_bridge_turn", Model.turn(b, both.lent(512, 512))).bridge;
    let b = call("hg_bridge_close", Model.close(b, 8)).bridge;
    call("hg_bridge_frame", Model.frame(b, both.lent_mut(512, 512), reply(128, b"too late")));
    changed("hg_bridge_frame", "first", &both.first);
    let mut b = read(b, &both);
    call("hg_bridge_turn_in_place", Model.turn_in_place(&mut b, both.lent(512, 512)));
    call("hg_bridge_turn_in_place b", b);
}

/// A field with its type, its name, and the eight bytes from 46 on: scale and transform, or styles, names index and bits.
fn field(kind: u8, name: &[u8], rest: [u8; 8]) -> [u8; mlg::FIELD] {
    let mut field = [0; mlg::FIELD];
    field[0] = kind;
    field[1..1 + name.len()].copy_from_slice(name);
    field[46..54].copy_from_slice(&rest);
    field
}

/// An MLG of three fields, two names, an info text, and three blocks: data at 311, a mark at 320, data at 374.
fn mlg_writers(file: &mut [u8], fields: &[u8]) {
    let (names, info, record) = (b"on\0off\0", b"an info text", [0xFF, 0x38, 0x07, 0x03]);
    for (len, fields_len) in [(320, 267), (310, 267), (400, 266)] {
        let out = &mut file[..len];
        call("hg_mlg_write_header", Model.mlg_write_header(out, 0x11223344, &fields[..fields_len], names, info));
        changed("hg_mlg_write_header", "out", out);
    }
    let data = |out: &mut [u8], earlier, time, record: &[u8]| {
        call("hg_mlg_write_data", Model.mlg_write_data(out, 4, earlier, time, record));
        changed("hg_mlg_write_data", "out", out);
    };
    let mark = |out: &mut [u8], text: &[u8]| {
        call("hg_mlg_write_mark", Model.mlg_write_mark(out, 1001, 0x0304, text));
        changed("hg_mlg_write_mark", "out", out);
    };
    data(&mut file[311..321], 1000, 0x0102, &record);
    data(&mut file[311..321], 1000, 0x0102, &record[..3]);
    mark(&mut file[320..374], b"knock");
    mark(&mut file[320..374], &pattern::<50>(1));
    data(&mut file[374..383], 7, 0x0506, &record);
}

fn mlg_readers(file: &[u8]) {
    let (whole, cut) = (&file[..383], &file[..23]);
    call("hg_mlg_read_header", Model.mlg_read_header(whole));
    call("hg_mlg_read_header", Model.mlg_read_header(cut));
    for (size, earlier, place) in [(4, 1000, 311), (4, 7, 320), (4, 7, 383), (5, 1000, 311), (4, 7, 384)] {
        call("hg_mlg_read_block", Model.mlg_read_block(whole, size, earlier, place));
    }
    call("hg_mlg_count_blocks", Model.mlg_count_blocks(whole));
    call("hg_mlg_count_blocks", Model.mlg_count_blocks(&file[..380]));
    call("hg_mlg_fields_span", Model.mlg_fields_span(whole));
    call("hg_mlg_fields_span", Model.mlg_fields_span(cut));
    call("hg_mlg_field_span", Model.mlg_field_span(whole, 2));
    call("hg_mlg_field_span", Model.mlg_field_span(whole, 3));
    call("hg_mlg_names_span", Model.mlg_names_span(whole));
    call("hg_mlg_names_span", Model.mlg_names_span(cut));
    call("hg_mlg_info_span", Model.mlg_info_span(whole));
    call("hg_mlg_info_span", Model.mlg_info_span(cut));
    let mut out: [u8; 300] = pattern(1);
    for len in [300, 20] {
        let written = match mlg::fitted(Model.listing(whole).unwrap(), len) {
            Ok(text) => {
                out[..text.len()].copy_from_slice(&text);
                Written { len: text.len(), number: 0 }
            }
            Err(number) => Written { len: 0, number },
        };
        call("hg_mlg_list", written);
        changed("hg_mlg_list", "out", &out[..len]);
    }
}

fn mlg_calls() {
    let s16 = field(3, b"map", [0x3F, 0, 0, 0, 0x40, 0x80, 0, 0]); // scale 0.5, transform 4
    let u08 = field(0, b"tps", [0; 8]);
    let bits = field(10, b"pump", [0, 0, 0, 1, 0x23, 2, 0, 0]); // index 291, two bits
    let mut file: [u8; 400] = pattern(1);
    mlg_writers(&mut file, &[s16, u08, bits].concat());
    mlg_readers(&file);
    call("hg_mlg_raw_value", Model.raw_value(&s16, &[0xFF, 0x38]));
    call("hg_mlg_raw_value", Model.raw_value(&s16, &[0xFF]));
    call("hg_mlg_shown_value", Model.shown_value(&s16, &[0xFF, 0x38]));
    call("hg_mlg_shown_value", Model.shown_value(&bits, &[0xFF]));
}

/// An FRD of two blocks: data at 81, a time at 88.
fn frd_writers(file: &mut [u8]) {
    let signature: [u8; 63] = pattern(33);
    for len in [63, 62] {
        call("hg_frd_write_header", Model.frd_write_header(&mut file[..90], 0x55667788, &signature[..len], 5));
        changed("hg_frd_write_header", "out", &file[..90]);
    }
    for record in [&b"bytes"[..], b"byte"] {
        call("hg_frd_write_data", Model.frd_write_data(&mut file[81..89], 5, 1000, record));
        changed("hg_frd_write_data", "out", &file[81..89]);
    }
    for end in [95, 93] {
        call("hg_frd_write_time", Model.frd_write_time(&mut file[88..end], 1001, 0x99AABBCC));
        changed("hg_frd_write_time", "out", &file[88..end]);
    }
}

fn frd_calls() {
    let mut file: [u8; 100] = pattern(1);
    frd_writers(&mut file);
    let (whole, cut) = (&file[..94], &file[..80]);
    call("hg_frd_read_header", Model.frd_read_header(whole));
    call("hg_frd_read_header", Model.frd_read_header(cut));
    for (size, earlier, place) in [(5, 1000, 81), (5, 7, 88), (5, 7, 94), (20, 7, 81)] {
        call("hg_frd_read_block", Model.frd_read_block(whole, size, earlier, place));
    }
    call("hg_frd_count_blocks", Model.frd_count_blocks(whole));
    call("hg_frd_count_blocks", Model.frd_count_blocks(&file[..93]));
    call("hg_frd_read_signature", Model.frd_read_signature(whole));
    call("hg_frd_read_signature", Model.frd_read_signature(cut));
}

fn main() {
    layout();
    for (name, value) in CONSTANTS {
        println!("constant HG_{name}={value}");
    }
    identifiers();
    requests();
    holder();
    holder_families();
    holder_refusals();
    bridge_by_value();
    bridge_in_place();
    bridge_rests();
    mlg_calls();
    frd_calls();
}
