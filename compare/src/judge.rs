//! Compares the answers of the two sides and counts them.

use crate::abi::*;
use crate::side::Side;
use std::collections::BTreeMap;
use std::fmt::{self, Debug};

/// The first difference found, as text: the call, its whole input, both answers.
#[derive(Debug)]
pub struct Difference(pub String);

/// An answer that carries a number of 01.
pub trait Answer: PartialEq + Debug {
    fn number(&self) -> u8;
}

macro_rules! answers {
    ($($name:ty),*) => { $(impl Answer for $name { fn number(&self) -> u8 { self.number } })* };
}
answers!(Packed, Unpacked, RequestBytes, FirstState, Yielded, Opened, Changed, Span);
answers!(MlgHeader, MlgBlock, Written, Raw, Shown, FrdHeader, FrdBlock);

/// Reading a request never refuses.
impl Answer for RequestRead {
    fn number(&self) -> u8 {
        0
    }
}

impl Answer for HolderAnswer {
    fn number(&self) -> u8 {
        self.served.number
    }
}

impl Answer for Stepped {
    fn number(&self) -> u8 {
        self.answer.number
    }
}

impl Answer for Tally {
    fn number(&self) -> u8 {
        self.ending
    }
}

impl Answer for u8 {
    fn number(&self) -> u8 {
        *self
    }
}

/// Bytes lent to a call, between guard bytes that nobody may change.
#[derive(Clone, PartialEq, Eq)]
pub struct Lent {
    all: Vec<u8>,
    len: usize,
}

const GUARD: usize = 16;

impl Lent {
    pub fn new(bytes: &[u8]) -> Lent {
        let mut all = vec![0xA5; GUARD];
        all.extend(bytes);
        all.extend([0xA5; GUARD]);
        Lent { all, len: bytes.len() }
    }

    pub fn get(&self) -> &[u8] {
        &self.all[GUARD..GUARD + self.len]
    }

    pub fn get_mut(&mut self) -> &mut [u8] {
        &mut self.all[GUARD..GUARD + self.len]
    }
}

impl Debug for Lent {
    fn fmt(&self, f: &mut fmt::Formatter<'_>) -> fmt::Result {
        let right = vec![0xA5; GUARD];
        let guards = self.all[..GUARD] == right && self.all[GUARD + self.len..] == right;
        write!(f, "{}{}", hex(self.get()), if guards { "" } else { " (written outside!)" })
    }
}

/// Bytes as hexadecimal text.
pub fn hex(bytes: &[u8]) -> String {
    let digits: Vec<String> = bytes.iter().map(|byte| format!("{byte:02x}")).collect();
    format!("{} bytes [{}]", bytes.len(), digits.join(" "))
}

pub struct Judge<'a> {
    pub library: &'a dyn Side,
    /// How often each call answered each number.
    pub tally: BTreeMap<(&'static str, u8), u64>,
    /// How many answers and lent buffers were compared.
    pub compared: u64,
}

impl<'a> Judge<'a> {
    pub fn new(library: &'a dyn Side) -> Judge<'a> {
        Judge { library, tally: BTreeMap::new(), compared: 0 }
    }

    /// Compares two answers of a call; hands back the model's.
    pub fn answer<T: Answer>(
        &mut self, call: &'static str, model: T, library: T, input: &dyn Fn() -> String,
    ) -> Result<T, Difference> {
        self.same(call, &model, &library, input)?;
        *self.tally.entry((call, model.number())).or_insert(0) += 1;
        Ok(model)
    }

    /// Compares anything else, such as lent memory afterwards.
    pub fn same<T: PartialEq + Debug>(
        &mut self, what: &str, model: &T, library: &T, input: &dyn Fn() -> String,
    ) -> Result<(), Difference> {
        self.compared += 1;
        if model == library {
            return Ok(());
        }
        Err(Difference(format!("{what}\n{}\nmodel:   {model:?}\nlibrary: {library:?}", input())))
    }
}
