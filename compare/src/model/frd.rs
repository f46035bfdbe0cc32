//! 01 "FRD", version 1.

use super::mlg::fitted;
use super::{be16, be32, counter_after, Number};

pub const NAME: [u8; 6] = [0x46, 0x52, 0x44, 0x00, 0x00, 0x00];
pub const HEADER: usize = 81;
pub const SIGNATURE: usize = 63;

#[derive(Clone, Copy, Debug, PartialEq, Eq)]
pub struct Header {
    pub time: u32,
    pub size: u16,
}

/// Header 81 bytes: name, version 1 (16), time (32), signature (63), data begin (32, must
/// be 81), output length L (16). Order: 20, 21, 22, 23.
pub fn read_header(file: &[u8]) -> Result<Header, Number> {
    if file.len() < HEADER {
        return Err(20);
    }
    if file[..6] != NAME {
        return Err(21);
    }
    if be16(file, 6) != 1 {
        return Err(22);
    }
    if be32(file, 75) != 81 {
        return Err(23);
    }
    Ok(Header { time: be32(file, 8), size: be16(file, 79) })
}

/// Block 1: type, counter, L bytes. Block 2: type, counter, time (32).
#[derive(Clone, Debug, PartialEq, Eq)]
pub enum Block {
    Data { counter: u8, as_expected: bool, start: usize, count: usize },
    Time { counter: u8, as_expected: bool, time: u32 },
    End,
}

/// Blocks 23 (place past the file), 25, 20.
pub fn read_block(file: &[u8], size: u16, earlier: u64, place: usize) -> Result<Block, Number> {
    if place > file.len() {
        return Err(23);
    }
    if place == file.len() {
        return Ok(Block::End);
    }
    let rest = &file[place..];
    let length = match rest[0] {
        1 => 2 + size as usize,
        2 => 6,
        _ => return Err(25),
    };
    if rest.len() < length {
        return Err(20);
    }
    let counter = rest[1];
    let as_expected = counter == counter_after(earlier);
    if rest[0] == 1 {
        Ok(Block::Data { counter, as_expected, start: place + 2, count: size as usize })
    } else {
        Ok(Block::Time { counter, as_expected, time: be32(rest, 2) })
    }
}

/// How many blocks stand one after the other from 81 on, the number that ended them (0 at
/// the file's end) and where. A refused header: no blocks, its number, place 0.
pub fn count_blocks(file: &[u8]) -> (u64, Number, usize) {
    let header = match read_header(file) {
        Ok(header) => header,
        Err(number) => return (0, number, 0),
    };
    let (mut blocks, mut place) = (0, HEADER);
    loop {
        match read_block(file, header.size, blocks, place) {
            Ok(Block::Data { count, .. }) => place += 2 + count,
            Ok(Block::Time { .. }) => place += 6,
            Ok(Block::End) => return (blocks, 0, place),
            Err(number) => return (blocks, number, place),
        }
        blocks += 1;
    }
}

/// Where the signature starts, after name, version and time, and its length.
pub fn read_signature(file: &[u8]) -> Result<(usize, usize), Number> {
    read_header(file)?;
    Ok((6 + 2 + 4, SIGNATURE))
}

/// 23 for a signature not of 63 bytes, then 27.
pub fn write_header(output: usize, time: u32, signature: &[u8], size: u16) -> Result<Vec<u8>, Number> {
    if signature.len() != SIGNATURE {
        return Err(23);
    }
    let mut file = NAME.to_vec();
    file.extend(1u16.to_be_bytes());
    file.extend(time.to_be_bytes());
    file.extend(signature);
    file.extend(81u32.to_be_bytes());
    file.extend(size.to_be_bytes());
    fitted(file, output)
}

/// 23 for a wrong record length, then 27.
pub fn write_data(output: usize, size: u16, earlier: u64, record: &[u8]) -> Result<Vec<u8>, Number> {
    if record.len() != size as usize {
        return Err(23);
    }
    let mut block = vec![1, counter_after(earlier)];
    block.extend(record);
    fitted(block, output)
}

pub fn write_time(output: usize, earlier: u64, time: u32) -> Result<Vec<u8>, Number> {
    let mut block = vec![2, counter_after(earlier)];
    block.extend(time.to_be_bytes());
    fitted(block, output)
}
