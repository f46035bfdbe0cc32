//! Random MLG files: written by the model's writers, then perhaps damaged.

use crate::model::mlg::{self, field_size, FIELD, HEADER};
use crate::rng::Rng;

pub const TYPES: [u8; 11] = [0, 1, 2, 3, 4, 5, 6, 7, 10, 11, 12];

/// What the header writer takes.
#[derive(Clone, Debug)]
pub struct Layout {
    pub time: u32,
    pub fields: Vec<u8>,
    pub names: Vec<u8>,
    pub info: Vec<u8>,
}

impl Layout {
    pub fn fields_end(&self) -> usize {
        HEADER + self.fields.len()
    }

    pub fn count(&self) -> usize {
        self.fields.len() / FIELD
    }

    pub fn begin(&self) -> usize {
        let info = if self.info.is_empty() { 0 } else { self.info.len() + 1 };
        self.fields_end() + self.names.len() + info
    }

    pub fn record(&self) -> usize {
        self.fields.chunks(FIELD).map(|field| field_size(field[0]).unwrap_or(0)).sum()
    }
}

/// A file, and the places of its blocks with the file's end.
#[derive(Clone, Debug)]
pub struct Log {
    pub layout: Layout,
    pub file: Vec<u8>,
    pub places: Vec<usize>,
}

fn put_text(rng: &mut Rng, field: &mut [u8], at: usize, length: usize) {
    let used = rng.pick(&[0, 1, length / 2, length - 1]);
    let text = rng.text(used);
    field[at..at + used].copy_from_slice(&text);
    field[at + used] = 0;
    if rng.percent(30) {
        let rest = rng.bytes(length - used - 1);
        field[at + used + 1..at + length].copy_from_slice(&rest);
    }
}

/// A float: plain, special or any bits.
pub fn random_float(rng: &mut Rng) -> f32 {
    match rng.below(10) {
        0 => 0.0,
        1 => rng.pick(&[-0.0, f32::MIN_POSITIVE, 1e-45, -1e-45]),
        2 => rng.pick(&[f32::INFINITY, f32::NEG_INFINITY, f32::NAN, f32::MAX, f32::MIN]),
        3 => f32::from_bits(rng.u32()),
        4 => rng.pick(&[0.1, 0.5, 2.0, 10.0, 1.0 / 3.0, -1.0]),
        5 => rng.pick(&[16_777_216.0, 8_388_608.5, 1e30, 1e38, 3e38]),
        6 | 7 => rng.below(2000) as f32 - 1000.0,
        _ => (rng.below(200_000) as f32 - 100_000.0) / 1000.0,
    }
}

/// A lawful scalar field, or a bit field with no bits.
pub fn random_field(rng: &mut Rng, kind: u8) -> Vec<u8> {
    let mut field = vec![0; FIELD];
    field[0] = kind;
    put_text(rng, &mut field, 1, 34);
    put_text(rng, &mut field, 35, 10);
    put_text(rng, &mut field, 55, 34);
    field[45] = rng.below(9) as u8;
    if mlg::is_bit_field(kind) {
        field[46] = rng.below(9) as u8;
        field[47..51].copy_from_slice(&rng.u32().to_be_bytes());
        field[52..55].copy_from_slice(&rng.bytes(3));
    } else {
        field[46..50].copy_from_slice(&random_float(rng).to_be_bytes());
        field[50..54].copy_from_slice(&random_float(rng).to_be_bytes());
        field[54] = rng.byte();
    }
    field
}

/// Names for bits: from an index in the area, with enough zeros after it.
fn put_bits(rng: &mut Rng, layout: &Layout, field: &mut [u8]) {
    let mut area = layout.names.clone();
    if !layout.info.is_empty() {
        area.extend(&layout.info);
        area.push(0);
    }
    if area.is_empty() || rng.one_in(6) {
        return;
    }
    let start = if rng.percent(50) { 0 } else { rng.below(area.len()) };
    let zeros = area[start..].iter().filter(|byte| **byte == 0).count();
    let width = 8 * field_size(field[0]).unwrap();
    let most = zeros.min(width);
    let bits = if rng.percent(30) { most } else { rng.below(most + 1) };
    field[51] = bits as u8;
    let index = (layout.fields_end() + start) as u32;
    field[47..51].copy_from_slice(&index.to_be_bytes());
}

/// A lawful layout.
pub fn random_layout(rng: &mut Rng) -> Layout {
    let count = match rng.below(40) {
        0 => rng.below(60),
        1..=5 => rng.below(12),
        6 => 0,
        _ => rng.within(1, 4),
    };
    let mut layout = Layout { time: rng.u32(), fields: vec![0; FIELD * count], names: vec![], info: vec![] };
    if rng.percent(60) {
        for _ in 0..rng.pick(&[1, 3, 8, 9, 16, 33]) {
            let length = rng.below(8);
            layout.names.extend(rng.text(length));
            layout.names.push(0);
        }
    }
    if rng.percent(20) {
        let length = rng.below(10);
        layout.names.extend(rng.text(length));
    }
    if rng.percent(50) {
        let length = rng.pick(&[1, 5, 30, 100]);
        layout.info = rng.text(length);
    }
    for index in 0..count {
        let kind = rng.pick(&TYPES);
        let mut field = random_field(rng, kind);
        if mlg::is_bit_field(kind) {
            put_bits(rng, &layout, &mut field);
        }
        layout.fields[FIELD * index..FIELD * (index + 1)].copy_from_slice(&field);
    }
    layout
}

/// A whole file without faults; with `wrong_counters` some counters are wrong.
pub fn random_log(rng: &mut Rng, wrong_counters: bool) -> Log {
    let layout = random_layout(rng);
    let Layout { time, fields, names, info } = &layout;
    let mut file = mlg::write_header(usize::MAX, *time, fields, names, info).expect("a lawful layout");
    let size = layout.record() as u16;
    let blocks = match rng.below(60) {
        0 => rng.within(250, 600),
        1..=10 => 0,
        _ => rng.below(10),
    };
    let mut places = vec![file.len()];
    for number in 0..blocks {
        let earlier = if wrong_counters && rng.one_in(8) { rng.next() } else { number as u64 };
        let block = if rng.percent(70) {
            let record = rng.bytes(size as usize);
            mlg::write_data(usize::MAX, size, earlier, rng.u16(), &record)
        } else {
            let length = rng.pick(&[0, 1, 10, 48, 49]);
            mlg::write_mark(usize::MAX, earlier, rng.u16(), &rng.text(length))
        };
        file.extend(block.unwrap());
        places.push(file.len());
    }
    Log { layout, file, places }
}

fn put(file: &mut [u8], at: usize, bytes: &[u8]) {
    if at + bytes.len() <= file.len() {
        file[at..at + bytes.len()].copy_from_slice(bytes);
    }
}

/// One damage to the header, a field, the names, the info or a block.
pub fn damage(rng: &mut Rng, log: &mut Log) {
    let fields_end = log.layout.fields_end();
    let (begin, count) = (log.layout.begin(), log.layout.count());
    let length = log.file.len();
    let near = [0, 1, 24, fields_end - 1, fields_end, begin - 1, begin, begin + 1, length, length + 1];
    let file = &mut log.file;
    let any = rng.u32();
    match rng.below(22) {
        0 if !file.is_empty() => {
            let at = rng.below(file.len());
            file[at] ^= 1 << rng.below(8);
        }
        1 => file.truncate(rng.pick(&near)),
        2 => file.truncate(rng.below(length + 1)),
        3 => put(file, 12, &rng.pick(&[any, one_of(&near, any)]).to_be_bytes()),
        4 => put(file, 16, &rng.pick(&[any, one_of(&near, any)]).to_be_bytes()),
        5 => {
            let size = log.layout.record() as u16;
            put(file, 20, &rng.pick(&[size.wrapping_add(1), size.wrapping_sub(1), 0, any as u16]).to_be_bytes());
        }
        6 => {
            let count = count as u16;
            let numbers = [count.wrapping_add(1), count.wrapping_sub(1), 0, 65_535, any as u16];
            put(file, 22, &rng.pick(&numbers).to_be_bytes());
        }
        7 => put(file, 6, &rng.pick(&[0u16, 1, 3, 0x0200, 0x0102]).to_be_bytes()),
        8 => put(file, rng.below(6), &[any as u8]),
        9..=14 if count > 0 => {
            let field = HEADER + FIELD * rng.below(count);
            damage_field(rng, file, field, &near);
        }
        15 if begin > fields_end => {
            // one zero of names or info fewer or more
            let zeros: Vec<usize> = (fields_end..begin.min(file.len())).filter(|at| file[*at] == 0).collect();
            if !zeros.is_empty() && rng.percent(70) {
                file[rng.pick(&zeros)] = b'x';
            } else {
                put(file, rng.within(fields_end, begin - 1), &[0]);
            }
        }
        16 if begin > fields_end => put(file, begin - 1, &[b'y']),
        17..=21 => damage_block(rng, log),
        _ => {}
    }
}

/// One of the places, chosen by a random number.
fn one_of(near: &[usize], any: u32) -> u32 {
    near[any as usize % near.len()] as u32
}

/// One damage to a field of a file or of the writer's fields.
pub fn damage_field(rng: &mut Rng, file: &mut [u8], field: usize, near: &[usize]) {
    let any = rng.u32();
    match rng.below(7) {
        0 => put(file, field, &[rng.pick(&[8, 9, 13, 255, any as u8])]),
        1 => put(file, field, &[rng.pick(&TYPES)]),
        2 => put(file, field + 51, &[rng.pick(&[0, 1, 8, 9, 16, 17, 32, 33, 255])]),
        3 => put(file, field + 47, &rng.pick(&[any, one_of(near, any)]).to_be_bytes()),
        4 => put(file, field + 1, &[b'n'; 34]),
        5 => put(file, field + 35, &[b'u'; 10]),
        _ => put(file, field + 55, &[b'c'; 34]),
    }
}

fn damage_block(rng: &mut Rng, log: &mut Log) {
    let place = rng.pick(&log.places);
    let size = log.layout.record();
    let (byte, file) = (rng.byte(), &mut log.file);
    match rng.below(6) {
        0 => put(file, place, &[rng.pick(&[0, 1, 2, 255, byte])]),
        1 => put(file, place + 1, &[rng.pick(&[0, 254, 255, byte])]),
        2 => put(file, place + 4 + size, &[byte]),
        3 => put(file, place + 4, &[b'm'; 50]),
        4 => put(file, place + 4, &vec![byte; size]),
        _ => file.truncate(place + rng.below(60).min(file.len().saturating_sub(place))),
    }
}
