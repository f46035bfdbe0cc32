//! Raw and shown values of random fields.

use super::logs::{random_field, random_float, TYPES};
use super::Outcome;
use crate::judge::{Judge, Lent};
use crate::model::mlg::field_size;
use crate::rng::Rng;
use crate::side::{Model, Side};

pub fn run(rng: &mut Rng, judge: &mut Judge) -> Outcome {
    let kind = if rng.percent(60) { rng.pick(&[0, 1, 2, 3, 7]) } else { rng.pick(&TYPES) };
    let mut field = random_field(rng, kind);
    if kind >= 10 {
        field[51] = rng.pick(&[0, 1, 7, 8, 9, 15, 16, 17, 31, 32, 33, 255]);
    }
    match rng.below(30) {
        0 => field[0] = rng.pick(&[8, 9, 13, 14, 128, 255]),
        1 => field[rng.below(89)] ^= 1 << rng.below(8),
        2 => field.resize(rng.pick(&[0, 1, 88, 90, 178]), 0),
        3 => field = rng.bytes(89),
        _ => {}
    }
    for _ in 0..6 {
        let raw = random_raw(rng, kind);
        let (lent_field, lent_raw) = (Lent::new(&field), Lent::new(&raw));
        let (a, b) = (lent_field.get(), lent_raw.get());
        let input = || format!("field {:?}\nraw {:?}", Lent::new(&field), Lent::new(&raw));
        judge.answer("raw_value", Model.raw_value(a, b), judge.library.raw_value(a, b), &input)?;
        judge.answer("shown_value", Model.shown_value(a, b), judge.library.shown_value(a, b), &input)?;
        judge.same("field afterwards", &Lent::new(&field), &lent_field, &input)?;
        judge.same("raw afterwards", &Lent::new(&raw), &lent_raw, &input)?;
    }
    Ok(())
}

fn random_raw(rng: &mut Rng, kind: u8) -> Vec<u8> {
    let size = field_size(kind).unwrap_or(1);
    if rng.one_in(15) {
        let length = rng.pick(&[0, 1, 2, 3, 4, 5, 8, 9]);
        return rng.bytes(length);
    }
    if kind == 7 && rng.percent(80) {
        return random_float(rng).to_be_bytes().to_vec();
    }
    let mut raw = rng.bytes(size);
    match rng.below(5) {
        0 => raw = vec![rng.pick(&[0, 0xFF]); size],
        1 => raw[0] = rng.pick(&[0x7F, 0x80, 0, 0xFF]),
        2 => {
            raw = vec![0; size];
            raw[0] = 0x80;
        }
        _ => {}
    }
    raw
}
