//! 01 "Listing": what `loglist` prints for an input.

use super::mlg::{block_length, judge_type, read_block, read_header, Block, FIELD, HEADER};
use super::value::raw_value;
use super::zero_ended;
use std::fmt::Write;

pub const LONGEST: usize = 65_536;

pub fn listing(file: &[u8]) -> String {
    let mut out = String::new();
    if file.len() > LONGEST {
        return "too long\n".to_string();
    }
    let header = match read_header(file) {
        Ok(header) => header,
        Err(number) => return format!("refused {number} at 0\n"),
    };
    writeln!(out, "fields {} record {}", header.count, header.size).unwrap();
    let fields: Vec<&[u8]> = file[HEADER..header.fields_end()].chunks(FIELD).collect();
    for (index, field) in fields.iter().enumerate() {
        writeln!(out, "field {index} {} {}", field[0], text(&field[1..35])).unwrap();
    }
    let mut place = header.begin as usize;
    let mut earlier = 0;
    loop {
        let block = match read_block(file, header.size, earlier, place) {
            Ok(block) => block,
            Err(number) => {
                writeln!(out, "refused {number} at {place}").unwrap();
                return out;
            }
        };
        match &block {
            Block::Data { counter, as_expected, time, start, count } => {
                write!(out, "{earlier} data {counter} {time}").unwrap();
                let mut record = &file[*start..start + count];
                for field in &fields {
                    let (raw, rest) = record.split_at(judge_type(field).unwrap());
                    write!(out, " {}", raw_value(field, raw).unwrap()).unwrap();
                    record = rest;
                }
                writeln!(out, "{}", if *as_expected { "" } else { " !" }).unwrap();
            }
            Block::Mark { counter, as_expected, time, start, .. } => {
                let mark = text(&file[*start..start + 50]);
                let wrong = if *as_expected { "" } else { " !" };
                writeln!(out, "{earlier} mark {counter} {time} {mark}{wrong}").unwrap();
            }
            Block::End => {
                writeln!(out, "end {earlier}").unwrap();
                return out;
            }
        }
        place += block_length(&block);
        earlier += 1;
    }
}

/// A text up to its zero; bytes outside 32..126 print as `.`.
fn text(bytes: &[u8]) -> String {
    let shown = |byte: &u8| if (32..=126).contains(byte) { *byte as char } else { '.' };
    zero_ended(bytes).unwrap().iter().map(shown).collect()
}
