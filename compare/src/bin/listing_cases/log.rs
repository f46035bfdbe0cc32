//! A log described part by part, and its bytes.
//!
//! What the header says, the counters and the sums follow from the parts; whatever of it is wrong in
//! a log is said on its own. Styles and fillers of fields are 0.

use crate::model::counter_after;
use crate::model::mlg::{field_size, is_bit_field, sum, FIELD, HEADER, MARK, NAME};

/// The types of fields (01).
pub const U08: u8 = 0;
pub const S08: u8 = 1;
pub const U16: u8 = 2;
pub const S16: u8 = 3;
pub const BITS_8: u8 = 10;
pub const BITS_16: u8 = 11;
pub const BITS_32: u8 = 12;

/// Where a bit field's names begin.
#[derive(Clone, Copy)]
pub enum Names {
    /// The index is 0.
    Nowhere,
    /// At this name of the names area.
    From(usize),
    /// At this byte of the file.
    AtByte(u32),
}

#[derive(Clone)]
pub struct Field {
    kind: u8,
    name: Vec<u8>,
    units: &'static str,
    scale: f32,
    transform: f32,
    digits: u8,
    category: &'static str,
    names: Names,
    bits: u8,
}

/// A field of a type and a name, all else 0. A name may fill its 34 bytes.
pub fn field(kind: u8, name: impl AsRef<[u8]>) -> Field {
    let name = name.as_ref().to_vec();
    assert!(name.len() <= 34);
    let (scale, transform, digits, bits) = (0.0, 0.0, 0, 0);
    Field { kind, name, units: "", scale, transform, digits, category: "", names: Names::Nowhere, bits }
}

/// A bit field with so many named bits.
pub fn bit_field(kind: u8, name: &str, bits: u8, names: Names) -> Field {
    Field { bits, names, ..field(kind, name) }
}

impl Field {
    pub fn units(self, units: &'static str) -> Field {
        Field { units, ..self }
    }

    pub fn scale(self, scale: f32, transform: f32) -> Field {
        Field { scale, transform, ..self }
    }

    pub fn digits(self, digits: u8) -> Field {
        Field { digits, ..self }
    }

    pub fn category(self, category: &'static str) -> Field {
        Field { category, ..self }
    }

    fn bytes(&self, log: &Log) -> Vec<u8> {
        let mut bytes = vec![0; FIELD];
        let mut put = |at: usize, part: &[u8]| bytes[at..at + part.len()].copy_from_slice(part);
        put(0, &[self.kind]);
        put(1, &self.name);
        put(35, self.units.as_bytes());
        if is_bit_field(self.kind) {
            let index = match self.names {
                Names::Nowhere => 0,
                Names::From(name) => (log.place(Place::Names) + names_bytes(&log.names[..name]).len()) as u32,
                Names::AtByte(byte) => byte,
            };
            put(47, &index.to_be_bytes());
            put(51, &[self.bits]);
        } else {
            put(46, &self.scale.to_be_bytes());
            put(50, &self.transform.to_be_bytes());
            put(54, &[self.digits]);
        }
        put(55, self.category.as_bytes());
        bytes
    }
}

#[derive(Clone)]
struct Block {
    kind: u8,
    /// Nothing: the right one.
    counter: Option<u8>,
    time: u16,
    content: Content,
}

#[derive(Clone)]
enum Content {
    /// Without a sum of its own: the right one.
    Record(Vec<u8>, Option<u8>),
    /// Filled with zeros up to 50 bytes.
    Text(Vec<u8>),
}

impl Block {
    fn bytes(&self, earlier: u64) -> Vec<u8> {
        let mut bytes = vec![self.kind, self.counter.unwrap_or(counter_after(earlier))];
        bytes.extend(self.time.to_be_bytes());
        match &self.content {
            Content::Record(record, wrong) => {
                bytes.extend(record);
                bytes.push(wrong.unwrap_or(sum(record)));
            }
            Content::Text(text) => {
                bytes.extend(text);
                assert!(bytes.len() <= MARK);
                bytes.resize(MARK, 0);
            }
        }
        bytes
    }
}

/// A number of the header that can be said wrong.
#[derive(Clone, Copy, PartialEq)]
pub enum Number {
    Version,
    InfoStart,
    DataBegin,
    RecordLength,
    FieldCount,
}

/// Where a part of the undamaged log starts.
#[derive(Clone, Copy)]
pub enum Place {
    Header,
    Field(usize),
    Names,
    Info,
    Block(usize),
}

#[derive(Clone)]
enum Damage {
    Cut(usize),
    Set(usize, u8),
    Insert(usize, u8),
    FillTo(usize),
}

#[derive(Clone, Default)]
pub struct Log {
    time: u32,
    fields: Vec<Field>,
    names: Vec<&'static str>,
    info: Vec<u8>,
    blocks: Vec<Block>,
    said: Vec<(Number, u32)>,
    damages: Vec<Damage>,
}

impl Log {
    /// A log of these fields, with time 0, no names, no info and no blocks.
    pub fn of(fields: impl IntoIterator<Item = Field>) -> Log {
        Log { fields: fields.into_iter().collect(), ..Log::default() }
    }

    pub fn time(self, time: u32) -> Log {
        Log { time, ..self }
    }

    /// The names area: each name with its zero.
    pub fn names(self, names: &[&'static str]) -> Log {
        Log { names: names.to_vec(), ..self }
    }

    pub fn info(self, text: &str) -> Log {
        Log { info: [text.as_bytes(), &[0]].concat(), ..self }
    }

    pub fn info_without_zero(self, text: &str) -> Log {
        Log { info: text.into(), ..self }
    }

    /// A data block of the record's bytes.
    pub fn data(self, time: u16, record: &[u8]) -> Log {
        self.block(0, time, Content::Record(record.to_vec(), None))
    }

    /// A data block of a whole number for each field; F32 by its bits.
    pub fn values(self, time: u16, values: &[i64]) -> Log {
        assert_eq!(values.len(), self.fields.len());
        let mut record = Vec::new();
        for (field, value) in self.fields.iter().zip(values) {
            let size = field_size(field.kind).unwrap();
            let bound = 1i128 << (8 * size);
            assert!((-bound / 2..bound).contains(&(*value as i128)));
            record.extend(&value.to_be_bytes()[8 - size..]);
        }
        self.data(time, &record)
    }

    pub fn mark(self, time: u16, text: impl AsRef<[u8]>) -> Log {
        self.block(1, time, Content::Text(text.as_ref().to_vec()))
    }

    fn block(mut self, kind: u8, time: u16, content: Content) -> Log {
        self.blocks.push(Block { kind, counter: None, time, content });
        self
    }

    /// The last block has this counter.
    pub fn counter(mut self, counter: u8) -> Log {
        self.blocks.last_mut().unwrap().counter = Some(counter);
        self
    }

    /// The last block, of data, has this sum.
    pub fn sum(mut self, wrong: u8) -> Log {
        let Content::Record(_, sum) = &mut self.blocks.last_mut().unwrap().content else { panic!("a mark has no sum") };
        *sum = Some(wrong);
        self
    }

    /// The last block has this type.
    pub fn kind(mut self, kind: u8) -> Log {
        self.blocks.last_mut().unwrap().kind = kind;
        self
    }

    /// The header says this number.
    pub fn says(mut self, number: Number, value: u32) -> Log {
        self.said.push((number, value));
        self
    }

    /// Only what stands before this place, and so many bytes from it on, are left.
    pub fn cut(self, place: Place, bytes: usize) -> Log {
        let damage = Damage::Cut(self.place(place) + bytes);
        self.damaged(damage)
    }

    /// The byte so many bytes after a place is another.
    pub fn set(self, place: Place, bytes: usize, byte: u8) -> Log {
        let damage = Damage::Set(self.place(place) + bytes, byte);
        self.damaged(damage)
    }

    /// A byte more stands so many bytes after a place.
    pub fn insert(self, place: Place, bytes: usize, byte: u8) -> Log {
        let damage = Damage::Insert(self.place(place) + bytes, byte);
        self.damaged(damage)
    }

    /// Zeros fill the file up to this length.
    pub fn fill_to(self, length: usize) -> Log {
        self.damaged(Damage::FillTo(length))
    }

    fn damaged(mut self, damage: Damage) -> Log {
        self.damages.push(damage);
        self
    }

    fn place(&self, place: Place) -> usize {
        match place {
            Place::Header => 0,
            Place::Field(index) => HEADER + FIELD * index,
            Place::Names => self.place(Place::Field(self.fields.len())),
            Place::Info => self.place(Place::Names) + names_bytes(&self.names).len(),
            Place::Block(index) => {
                let begin = self.place(Place::Info) + self.info.len();
                begin + self.blocks[..index].iter().map(|block| block.bytes(0).len()).sum::<usize>()
            }
        }
    }

    /// What the header says for a number that follows from the parts.
    fn number(&self, number: Number, follows: usize) -> u32 {
        self.said.iter().find(|said| said.0 == number).map_or(follows as u32, |said| said.1)
    }

    pub fn bytes(&self) -> Vec<u8> {
        let record = self.fields.iter().map(|field| field_size(field.kind).unwrap_or(0)).sum();
        let info = if self.info.is_empty() { 0 } else { self.place(Place::Info) };
        let mut bytes = NAME.to_vec();
        bytes.extend((self.number(Number::Version, 2) as u16).to_be_bytes());
        bytes.extend(self.time.to_be_bytes());
        bytes.extend(self.number(Number::InfoStart, info).to_be_bytes());
        bytes.extend(self.number(Number::DataBegin, self.place(Place::Block(0))).to_be_bytes());
        bytes.extend((self.number(Number::RecordLength, record) as u16).to_be_bytes());
        bytes.extend((self.number(Number::FieldCount, self.fields.len()) as u16).to_be_bytes());
        for field in &self.fields {
            bytes.extend(field.bytes(self));
        }
        bytes.extend(names_bytes(&self.names));
        bytes.extend(&self.info);
        for (earlier, block) in self.blocks.iter().enumerate() {
            bytes.extend(block.bytes(earlier as u64));
        }
        for damage in &self.damages {
            match *damage {
                Damage::Cut(length) => bytes.truncate(length),
                Damage::Set(at, byte) => bytes[at] = byte,
                Damage::Insert(at, byte) => bytes.insert(at, byte),
                Damage::FillTo(length) => {
                    assert!(bytes.len() <= length);
                    bytes.resize(length, 0);
                }
            }
        }
        bytes
    }
}

/// The names one after the other, each with its zero.
fn names_bytes(names: &[&str]) -> Vec<u8> {
    names.iter().flat_map(|name| name.bytes().chain([0])).collect()
}
