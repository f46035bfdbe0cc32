//! Identifiers: packing of parts in and out of range, unpacking of lawful, nearly lawful
//! and random numbers.

use super::Outcome;
use crate::abi::Parts;
use crate::judge::Judge;
use crate::rng::Rng;
use crate::side::{Model, Side};

pub fn run(rng: &mut Rng, judge: &mut Judge) -> Outcome {
    let parts = random_parts(rng);
    let input = || format!("{parts:?}");
    let packed = judge.answer("pack", Model.pack(parts), judge.library.pack(parts), &input)?;

    let id = match rng.below(5) {
        0 => packed.id,
        1 => packed.id | rng.below(4) as u32,
        2 => packed.id ^ 1 << rng.below(32),
        3 => rng.pick(&[0x1FFF_FFFC, 0x1FFF_FFFD, 0x2000_0000, 0x2000_0001, u32::MAX, 0]),
        _ => rng.u32() >> rng.below(5),
    };
    let input = || format!("id {id:#x}");
    judge.answer("unpack", Model.unpack(id), judge.library.unpack(id), &input)?;
    Ok(())
}

fn random_parts(rng: &mut Rng) -> Parts {
    let mut parts = Parts {
        offset: rng.below(2048) as u16,
        kind: rng.below(8) as u8,
        from: rng.below(16) as u8,
        to: rng.below(16) as u8,
        table: rng.below(32) as u8,
    };
    for _ in 0..rng.pick(&[0, 0, 0, 1, 1, 2, 3]) {
        let (byte, word) = (rng.byte(), rng.u16());
        match rng.below(5) {
            0 => parts.offset = rng.pick(&[2047, 2048, 4095, 65_535, word]),
            1 => parts.kind = rng.pick(&[7, 8, 255, byte]),
            2 => parts.from = rng.pick(&[15, 16, 255, byte]),
            3 => parts.to = rng.pick(&[15, 16, 255, byte]),
            _ => parts.table = rng.pick(&[31, 32, 255, byte]),
        }
    }
    parts
}
