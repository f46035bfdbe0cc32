//! 01 "MLG": header, fields, blocks and writers. All numbers big-endian.

use super::{be16, be32, counter_after, zero_ended, Number};

pub const NAME: [u8; 6] = [0x4D, 0x4C, 0x56, 0x4C, 0x47, 0x00];
pub const HEADER: usize = 24;
pub const FIELD: usize = 89;
pub const MARK: usize = 54;

#[derive(Clone, Copy, Debug, PartialEq, Eq)]
pub struct Header {
    pub time: u32,
    pub info: u32,
    pub begin: u32,
    pub size: u16,
    pub count: u16,
    pub version: u16,
}

impl Header {
    pub fn fields_end(&self) -> usize {
        HEADER + FIELD * self.count as usize
    }
}

/// Types 0-7 are U08, S08, U16, S16, U32, S32, S64, F32; 10, 11, 12 are 8, 16, 32-bit bit
/// fields. The size in bytes, nothing for a bad type.
pub fn field_size(kind: u8) -> Option<usize> {
    match kind {
        0 | 1 | 10 => Some(1),
        2 | 3 | 11 => Some(2),
        4 | 5 | 7 | 12 => Some(4),
        6 => Some(8),
        _ => None,
    }
}

pub fn is_bit_field(kind: u8) -> bool {
    (10..=12).contains(&kind)
}

/// 24 for type, 24 for a bit field's bits over its width. Hands back the size.
pub fn judge_type(field: &[u8]) -> Result<usize, Number> {
    let size = field_size(field[0]).ok_or(24)?;
    let bits = field[51] as usize;
    if is_bit_field(field[0]) && bits > 8 * size {
        return Err(24);
    }
    Ok(size)
}

pub fn read_header(file: &[u8]) -> Result<Header, Number> {
    if file.len() < HEADER {
        return Err(20);
    }
    if file[..6] != NAME {
        return Err(21);
    }
    if be16(file, 6) != 2 {
        return Err(22);
    }
    let header = Header {
        version: be16(file, 6),
        time: be32(file, 8),
        info: be32(file, 12),
        begin: be32(file, 16),
        size: be16(file, 20),
        count: be16(file, 22),
    };
    let fields_end = header.fields_end();
    if file.len() < fields_end {
        return Err(20);
    }
    let begin = header.begin as usize;
    if begin < fields_end || begin > file.len() {
        return Err(23);
    }
    let info = header.info as usize;
    if info != 0 && !(fields_end <= info && info < begin) {
        return Err(23);
    }
    let mut sizes = 0;
    for field in file[HEADER..fields_end].chunks(FIELD) {
        sizes += judge_field(file, field, fields_end, begin)?;
    }
    if header.size as usize != sizes {
        return Err(23);
    }
    if info != 0 && zero_ended(&file[info..begin]).is_none() {
        return Err(28);
    }
    Ok(header)
}

/// One field's judgement in the reader. Hands back its size.
fn judge_field(file: &[u8], field: &[u8], fields_end: usize, begin: usize) -> Result<usize, Number> {
    let size = judge_type(field)?;
    for text in [&field[1..35], &field[35..45], &field[55..89]] {
        zero_ended(text).ok_or(28)?;
    }
    let bits = field[51] as usize;
    if is_bit_field(field[0]) && bits != 0 {
        let index = be32(field, 47) as usize;
        if index < fields_end || index >= begin {
            return Err(23);
        }
        let names = file[index..begin].iter().filter(|byte| **byte == 0).count();
        if names < bits {
            return Err(28);
        }
    }
    Ok(size)
}

/// The names of a bit field's bits, in a file whose header was read.
#[cfg(test)]
pub fn bit_names<'a>(file: &'a [u8], header: &Header, field: &[u8]) -> Vec<&'a [u8]> {
    let mut rest = &file[be32(field, 47) as usize..header.begin as usize];
    let mut names = Vec::new();
    for _ in 0..field[51] {
        let name = zero_ended(rest).unwrap();
        names.push(name);
        rest = &rest[name.len() + 1..];
    }
    names
}

/// The info text up to its zero; empty where info start is 0.
pub fn info_text<'a>(file: &'a [u8], header: &Header) -> &'a [u8] {
    if header.info == 0 {
        return &[];
    }
    zero_ended(&file[header.info as usize..header.begin as usize]).unwrap()
}

/// What lies between the fields and info, or data begin where there is no info.
pub fn names_area<'a>(file: &'a [u8], header: &Header) -> &'a [u8] {
    let end = if header.info == 0 { header.begin } else { header.info };
    &file[header.fields_end()..end as usize]
}

/// The file is in the writer's layout: fields, names area, info with its zero back to back.
pub fn in_layout(file: &[u8], header: &Header) -> bool {
    header.info == 0
        || !info_text(file, header).is_empty()
            && header.info as usize + info_text(file, header).len() + 1 == header.begin as usize
}

/// A block is either data, a mark, the end, or a refusal (`Err`).
#[derive(Clone, Debug, PartialEq, Eq)]
pub enum Block {
    Data { counter: u8, as_expected: bool, time: u16, start: usize, count: usize },
    Mark { counter: u8, as_expected: bool, time: u16, start: usize, count: usize },
    End,
}

/// Order: 23 (place past the file), 25, 20, 28 or 26.
pub fn read_block(file: &[u8], size: u16, earlier: u64, place: usize) -> Result<Block, Number> {
    if place > file.len() {
        return Err(23);
    }
    if place == file.len() {
        return Ok(Block::End);
    }
    let rest = &file[place..];
    if rest[0] > 1 {
        return Err(25);
    }
    let length = if rest[0] == 0 { 5 + size as usize } else { MARK };
    if rest.len() < length {
        return Err(20);
    }
    let counter = rest[1];
    let as_expected = counter == counter_after(earlier);
    let time = be16(rest, 2);
    let start = place + 4;
    if rest[0] == 1 {
        let text = zero_ended(&rest[4..54]).ok_or(28)?;
        return Ok(Block::Mark { counter, as_expected, time, start, count: text.len() });
    }
    let record = &rest[4..4 + size as usize];
    if rest[length - 1] != sum(record) {
        return Err(26);
    }
    Ok(Block::Data { counter, as_expected, time, start, count: record.len() })
}

/// The length of a block that was read.
pub fn block_length(block: &Block) -> usize {
    match block {
        Block::Data { count, .. } => 5 + count,
        Block::Mark { .. } => MARK,
        Block::End => 0,
    }
}

/// How many blocks stand one after the other from data begin on, the number that ended them
/// (0 at the file's end) and where. A refused header: no blocks, its number, place 0.
pub fn count_blocks(file: &[u8]) -> (u64, Number, usize) {
    let header = match read_header(file) {
        Ok(header) => header,
        Err(number) => return (0, number, 0),
    };
    let (mut blocks, mut place) = (0, header.begin as usize);
    loop {
        match read_block(file, header.size, blocks, place) {
            Ok(Block::End) => return (blocks, 0, place),
            Ok(block) => place += block_length(&block),
            Err(number) => return (blocks, number, place),
        }
        blocks += 1;
    }
}

/// Where all the fields start, which is the header's end, and their bytes' number.
pub fn fields_span(file: &[u8]) -> Result<(usize, usize), Number> {
    let header = read_header(file)?;
    Ok((HEADER, FIELD * header.count as usize))
}

/// Where a field's 89 bytes start, and their number; 23 for a field that is not there.
pub fn field_span(file: &[u8], index: u16) -> Result<(usize, usize), Number> {
    let header = read_header(file)?;
    if index >= header.count {
        return Err(23);
    }
    Ok((HEADER + FIELD * index as usize, FIELD))
}

/// The names area's start, which is the fields' end, and its length.
pub fn names_span(file: &[u8]) -> Result<(usize, usize), Number> {
    let header = read_header(file)?;
    Ok((header.fields_end(), names_area(file, &header).len()))
}

/// Info start and the length of the text there; both 0 where there is no info.
pub fn info_span(file: &[u8]) -> Result<(usize, usize), Number> {
    let header = read_header(file)?;
    Ok((header.info as usize, info_text(file, &header).len()))
}

/// The sum of the record's bytes, modulo 256.
pub fn sum(record: &[u8]) -> u8 {
    (record.iter().map(|byte| *byte as usize).sum::<usize>() % 256) as u8
}

/// The bytes, if they go into an output of the given length, else 27.
pub fn fitted(bytes: Vec<u8>, output: usize) -> Result<Vec<u8>, Number> {
    if bytes.len() > output {
        Err(27)
    } else {
        Ok(bytes)
    }
}

/// Lays time, fields, names area and info back to back; adds info's zero, or for empty
/// info uses info start 0 and no zero.
pub fn write_header(output: usize, time: u32, fields: &[u8], names: &[u8], info: &[u8]) -> Result<Vec<u8>, Number> {
    let count = fields.len() / FIELD;
    if fields.len() % FIELD != 0 || count > 65_535 {
        return Err(23);
    }
    let size: usize = fields.chunks(FIELD).map(|field| field_size(field[0]).unwrap_or(0)).sum();
    if size > 65_535 {
        return Err(23);
    }
    let names_end = HEADER as u64 + fields.len() as u64 + names.len() as u64;
    let begin = if info.is_empty() { names_end } else { names_end + info.len() as u64 + 1 };
    if begin > u32::MAX as u64 {
        return Err(23);
    }
    if info.contains(&0) {
        return Err(28);
    }
    let info_start = if info.is_empty() { 0 } else { names_end as u32 };
    let mut file = NAME.to_vec();
    file.extend(2u16.to_be_bytes());
    file.extend(time.to_be_bytes());
    file.extend(info_start.to_be_bytes());
    file.extend((begin as u32).to_be_bytes());
    file.extend((size as u16).to_be_bytes());
    file.extend((count as u16).to_be_bytes());
    file.extend(fields);
    file.extend(names);
    if !info.is_empty() {
        file.extend(info);
        file.push(0);
    }
    read_header(&file)?; // then as the reader
    fitted(file, output)
}

/// 23 for a record of the wrong length, then 27.
pub fn write_data(output: usize, size: u16, earlier: u64, time: u16, record: &[u8]) -> Result<Vec<u8>, Number> {
    if record.len() != size as usize {
        return Err(23);
    }
    let mut block = vec![0, counter_after(earlier)];
    block.extend(time.to_be_bytes());
    block.extend(record);
    block.push(sum(record));
    fitted(block, output)
}

/// 28 for mark text over 49 bytes or holding a zero, then 27. Marks are zero-padded.
pub fn write_mark(output: usize, earlier: u64, time: u16, text: &[u8]) -> Result<Vec<u8>, Number> {
    if text.len() > 49 || text.contains(&0) {
        return Err(28);
    }
    let mut block = vec![1, counter_after(earlier)];
    block.extend(time.to_be_bytes());
    block.extend(text);
    block.resize(MARK, 0);
    fitted(block, output)
}
