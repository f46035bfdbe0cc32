//! The stored logs, in the order in which the program `listing_cases` lists them.

use crate::log::{bit_field, field, Field, Log, Names, Number, Place};
use crate::log::{BITS_16, BITS_32, BITS_8, S08, S16, U08, U16};
use crate::model::counter_after;
use crate::model::listing::LONGEST;

pub fn cases() -> Vec<(&'static str, Log)> {
    let mut cases = vec![("example", example()), ("engine", engine())];
    cases.extend(cut());
    cases.extend(texts_and_counters());
    cases.extend(header_refused());
    cases.extend(block_refused());
    cases.extend(kinds_of_fields());
    cases.extend(full());
    cases
}

/// One U08 field `t`, all else 0.
fn one_field() -> Log {
    Log::of([field(U08, "t")])
}

/// 01's example.
pub fn example() -> Log {
    one_field().data(10, &[7])
}

/// The sample: an engine is started, idles, and its throttle is opened and closed.
pub fn engine() -> Log {
    let names = Names::From(0);
    let mut log = Log::of([
        field(U16, "rpm").units("RPM").scale(1.0, 0.0).category("Engine"),
        field(U16, "map").units("kPa").scale(0.1, 0.0).digits(1).category("Engine"),
        field(S16, "tps").units("%").scale(0.1, 0.0).digits(1).category("Throttle"),
        field(S16, "coolant").units("C").scale(0.05555556, -320.0).digits(1).category("Temperatures"),
        field(U08, "afr1").units("AFR").scale(0.1, 0.0).digits(1).category("Fuel"),
        bit_field(BITS_8, "engine", 4, names).category("Engine"),
    ])
    .time(1_772_960_400) // 2026-03-08 09:00:00
    .names(&["ready", "crank", "startw", "warmup"])
    .info(ENGINE_INFO);
    for (index, row) in ENGINE.iter().enumerate() {
        let time = ((6_250 + 5_000 * index) % 65_536) as u16;
        log = log.values(time, row);
        match index {
            9 => log = log.mark(time, "MARK 000 - throttle opened"),
            15 => log = log.mark(time, "MARK 001 - throttle closed"),
            _ => {}
        }
    }
    log
}

const ENGINE_INFO: &str = "\"MS3 Format 0095.00: sample\"\n\"Capture Date: 2026-03-08 09:00:00\"\n";

/// rpm, map, tps, coolant, afr1, engine; every 5,000 units of time.
const ENGINE: [[i64; 6]; 20] = [
    [0, 1003, -2, 615, 147, 0],
    [212, 1001, -2, 615, 147, 2],
    [247, 962, -1, 615, 147, 2],
    [268, 911, 0, 616, 147, 2],
    [841, 702, 0, 618, 138, 13],
    [1324, 498, 0, 621, 124, 13],
    [1291, 447, 1, 627, 126, 13],
    [1248, 431, 0, 634, 129, 13],
    [1236, 428, 0, 642, 131, 9],
    [1229, 426, 0, 651, 132, 9],
    [1544, 604, 87, 660, 127, 9],
    [2380, 812, 264, 668, 122, 9],
    [3517, 933, 511, 677, 125, 9],
    [4786, 968, 748, 689, 126, 9],
    [5941, 974, 996, 702, 127, 9],
    [6402, 971, 1000, 716, 126, 9],
    [5873, 264, -1, 724, 196, 9],
    [4412, 241, -2, 731, 199, 9],
    [2638, 289, -1, 735, 168, 9],
    [1417, 402, 0, 738, 134, 9],
];

/// The sample, cut in each of its parts and at their edges. Block 3 is of data (15 bytes), block 10 a mark (54).
fn cut() -> Vec<(&'static str, Log)> {
    vec![
        ("empty", engine().cut(Place::Header, 0)),
        ("cut_in_header", engine().cut(Place::Header, 23)),
        ("cut_after_header", engine().cut(Place::Field(0), 0)),
        ("cut_in_field", engine().cut(Place::Field(3), 40)),
        ("cut_in_names", engine().cut(Place::Names, 10)),
        ("cut_in_info", engine().cut(Place::Info, ENGINE_INFO.len())),
        ("cut_before_blocks", engine().cut(Place::Block(0), 0)),
        ("cut_after_type", engine().cut(Place::Block(0), 1)),
        ("cut_in_data", engine().cut(Place::Block(3), 8)),
        ("cut_before_sum", engine().cut(Place::Block(3), 14)),
        ("cut_after_data", engine().cut(Place::Block(4), 0)),
        ("cut_in_mark", engine().cut(Place::Block(10), 30)),
        ("cut_before_mark_end", engine().cut(Place::Block(10), 53)),
        ("cut_after_mark", engine().cut(Place::Block(11), 0)),
    ]
}

fn texts_and_counters() -> Vec<(&'static str, Log)> {
    let edges = b"\x1f ~\x7f\x80\xff"; // the printable bytes' ends and their neighbours
    let unprintable = Log::of([
        field(U08, edges),
        field(U08, ""),
        field(U08, "\n\t\r!~ "),
        field(U08, from_to(b'A', b'a')), // 33 bytes, the longest name
        field(U08, [&b"rest\0not shown"[..], &[0xFE; 20]].concat()),
    ])
    .data(0, &[31, 32, 126, 127, 128])
    .mark(1, edges)
    .mark(2, "")
    .mark(3, "  two spaces  ")
    .mark(4, from_to(b'N', b'~')) // 49 bytes, the longest text
    .mark(5, "padding\0is not shown");

    let none = Log::of([]);
    let no_fields = none.clone().data(0, &[]).data(65_535, &[]).mark(7, "none").data(9, &[]);

    let wrong_counters = one_field()
        .data(0, &[1])
        .counter(1)
        .data(1, &[2])
        .mark(2, "wrong")
        .counter(1)
        .mark(3, "")
        .counter(2)
        .data(4, &[3])
        .counter(255)
        .mark(5, "right")
        .data(6, &[4])
        .counter(7);

    vec![
        ("unprintable", unprintable),
        ("no_fields", no_fields),
        ("no_fields_no_blocks", none),
        ("many_blocks", many_blocks()),
        ("rolling_counters", rolling(counter_after)),
        ("counters_modulo_255", rolling(|earlier| (earlier % 255) as u8)),
        ("wrong_counters", wrong_counters),
    ]
}

/// 700 blocks, so that the counter starts again twice; every hundredth is a mark. Two counters are wrong.
fn many_blocks() -> Log {
    let mut log = one_field();
    for earlier in 0..700u64 {
        log = if earlier % 100 == 99 {
            log.mark(earlier as u16, earlier.to_string())
        } else {
            log.data((90 * earlier % 65_536) as u16, &[(earlier % 256) as u8])
        };
        match earlier {
            512 => log = log.counter(2), // as it would be modulo 255
            600 => log = log.counter(counter_after(earlier) + 1),
            _ => {}
        }
    }
    log
}

/// 600 blocks, every hundredth a mark, with these counters.
fn rolling(counter: fn(u64) -> u8) -> Log {
    (0..600).fold(one_field(), |log, earlier| {
        let log = if earlier % 100 == 99 { log.mark(0, "mark") } else { log.data(0, &[7]) };
        log.counter(counter(earlier))
    })
}

/// A case for each refusal of the header, in the reader's order.
fn header_refused() -> Vec<(&'static str, Log)> {
    let one = || one_field().data(0, &[1]);
    let bits = |bits: u8, names: Names, area: &[&'static str]| {
        Log::of([bit_field(BITS_8, "b", bits, names)]).names(area).data(0, &[1])
    };
    vec![
        ("header_name", one().set(Place::Header, 0, b'm')),
        ("header_version", one().says(Number::Version, 1)),
        ("header_fields_cut", one().says(Number::FieldCount, 2)),
        ("header_begin_early", one().says(Number::DataBegin, 112)),
        ("header_begin_late", one().says(Number::DataBegin, 200)),
        ("header_info_early", one().info("text").says(Number::InfoStart, 112)),
        ("header_info_no_zero", one().info_without_zero("text")),
        ("header_type", Log::of([field(U08, "t"), field(8, "u")]).data(0, &[1])),
        ("header_bits", bits(9, Names::From(0), &["a"; 9])),
        ("header_field_no_zero", Log::of([field(U08, [b'n'; 34])]).data(0, &[1])),
        ("header_index", bits(2, Names::AtByte(112), &["a", "b"])),
        ("header_names", bits(3, Names::From(0), &["a", "b"])),
        ("header_record", one_field().says(Number::RecordLength, 2).data(0, &[1, 2])),
    ]
}

/// A case for each refusal of a block, behind two blocks or as the first.
fn block_refused() -> Vec<(&'static str, Log)> {
    let two = || one_field().data(0, &[1]).mark(1, "one");
    vec![
        ("block_type", two().data(0, &[1]).kind(2)),
        ("block_sum", two().data(2, &[7]).sum(8).data(3, &[7])),
        ("block_sum_first", example().sum(8)),
        ("block_mark_no_zero", two().mark(2, [b'x'; 50]).data(3, &[7])),
        ("block_cut", two().data(2, &[7]).cut(Place::Block(2), 5)),
    ]
}

fn kinds_of_fields() -> Vec<(&'static str, Log)> {
    let bit_fields = Log::of([
        bit_field(BITS_8, "small", 4, Names::From(0)),
        bit_field(BITS_16, "middle", 3, Names::From(1)),
        bit_field(BITS_32, "large", 0, Names::Nowhere),
    ])
    .names(&["a", "b", "", "d"])
    .values(0, &[0x80, 0x8001, 0x8000_0001])
    .values(1, &[0xFF, 0xFFFF, 0xFFFF_FFFF])
    .values(2, &[0, 0, 0]);

    let f32_bits = |value: f32| value.to_bits() as i64;
    let types = [0, 1, 2, 3, 4, 5, 6, 7, 10, 11, 12];
    #[rustfmt::skip]
    let all_types = Log::of(types.map(|kind| field(kind, format!("type {kind}"))))
        // U08, S08, U16, S16, U32, S32, S64, F32, and bit fields of 8, 16 and 32 bits
        .values(0, &[0; 11])
        .values(1, &[-1; 11])
        .values(2, &[128, -128, 32_768, -32_768, 1 << 31, -1 << 31, i64::MIN, f32_bits(-0.0), 128, 32_768, 1 << 31])
        .values(3, &[127, 127, 32_767, 32_767, i32::MAX as i64, i32::MAX as i64, i64::MAX, i32::MAX as i64, 127, 32_767, i32::MAX as i64])
        .values(4, &[200, -100, 40_000, -200, 4_000_000_000, -2_000_000_000, -1_000_000_000_000_000_000, f32_bits(-1.5), 10, 1_000, 100_000])
        .values(5, &[9, -9, 10, -10, 99, -99, -100, 0x7FC0_0000, 1, 2, 3]); // F32: not a number

    vec![("bit_fields", bit_fields), ("all_types", all_types)]
}

/// Logs of the longest length that is listed, and one over it.
fn full() -> Vec<(&'static str, Log)> {
    // the longest listing: every name and every number as long as can be, every counter wrong
    let (fields, record): (Vec<Field>, _) = (vec![field(S08, [b'n'; 33]); 17], [0x80; 17]);
    let mut full_longest = Log::of(fields);
    for earlier in 0..2_909 {
        full_longest = full_longest.data(65_535, &record).counter(wrong_counter(earlier));
    }

    // the most blocks
    let mut full_no_fields = Log::of([]);
    for earlier in 0..13_102u16 {
        full_no_fields = full_no_fields.data(65_535 - earlier, &[]);
    }

    // the longest info: with its zero, the header's 113 bytes and three blocks of 6 the file is full
    let full_text = one_field().info(&"i".repeat(LONGEST - 113 - 1 - 18)).data(0, &[1]).data(1, &[2]).data(2, &[3]);

    vec![
        ("full_longest", full_longest.fill_to(LONGEST)),
        ("full_no_fields", full_no_fields.fill_to(LONGEST)),
        ("full_text", full_text.clone()),
        ("over", full_text.insert(Place::Block(2), 0, 0)),
    ]
}

/// A counter of three digits that is not the right one.
fn wrong_counter(earlier: u64) -> u8 {
    let counter = ((earlier + 101) % 256) as u8;
    let counter = if counter < 100 { 200 } else { counter };
    if counter == counter_after(earlier) {
        counter + 1
    } else {
        counter
    }
}

/// The text of all bytes from one to another.
fn from_to(first: u8, last: u8) -> Vec<u8> {
    (first..=last).collect()
}
