//! The kinds of comparison: for each a generator of random inputs, valid and damaged.

use crate::judge::{Difference, Judge};
use crate::rng::Rng;

pub mod bridge;
pub mod frd;
pub mod holder;
pub mod identifier;
pub mod listing;
pub mod logs;
pub mod mlg;
pub mod request;
pub mod value;
pub mod writers;

pub type Outcome = Result<(), Difference>;

pub struct Kind {
    pub name: &'static str,
    /// One iteration, from its own stream of random numbers.
    pub run: fn(&mut Rng, &mut Judge) -> Outcome,
}

pub const KINDS: [Kind; 9] = [
    Kind { name: "identifier", run: identifier::run },
    Kind { name: "request", run: request::run },
    Kind { name: "holder", run: holder::run },
    Kind { name: "bridge", run: bridge::run },
    Kind { name: "mlg-files", run: mlg::run },
    Kind { name: "mlg-values", run: value::run },
    Kind { name: "mlg-writers", run: writers::run },
    Kind { name: "frd", run: frd::run },
    Kind { name: "listing", run: listing::run },
];

/// An output length: just right, one too small, none, larger, or any smaller.
pub fn output_length(rng: &mut Rng, right: usize) -> usize {
    match rng.below(10) {
        0..=3 => right,
        4 => right.saturating_sub(1),
        5 => 0,
        6 | 7 => right + rng.within(1, 40),
        8 => rng.below(right + 1),
        _ => right + 1,
    }
}

/// A number of earlier blocks, with counters that wrap.
pub fn earlier_blocks(rng: &mut Rng) -> u64 {
    match rng.below(6) {
        0 => rng.below(4) as u64,
        1 => (rng.below(1000) * rng.pick(&[255, 256]) + rng.below(3)) as u64,
        2 => u64::MAX - rng.below(600) as u64,
        3 => rng.next(),
        4 => (1 << rng.below(64)) - 1,
        _ => rng.below(1000) as u64,
    }
}
