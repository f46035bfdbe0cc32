//! 01 "MLG": raw and shown values.

use super::mlg::{judge_type, FIELD};
use super::Number;

/// A field's scale (46) and transform (50) travel together.
#[derive(Clone, Copy, Debug)]
pub struct Scaling {
    pub scale: f32,
    pub transform: f32,
}

pub fn scaling(field: &[u8]) -> Scaling {
    let f32_at = |at: usize| f32::from_be_bytes([field[at], field[at + 1], field[at + 2], field[at + 3]]);
    Scaling { scale: f32_at(46), transform: f32_at(50) }
}

/// Value calls: 23 (not 89), 24, 23 (raw length).
fn judge(field: &[u8], raw: &[u8]) -> Result<(), Number> {
    if field.len() != FIELD {
        return Err(23);
    }
    if raw.len() != judge_type(field)? {
        return Err(23);
    }
    Ok(())
}

/// The big-endian number of the bytes, unsigned or in two's complement.
fn number(raw: &[u8], signed: bool) -> i64 {
    let mut value: i128 = 0;
    for byte in raw {
        value = value * 256 + *byte as i128;
    }
    if signed && raw[0] >= 0x80 {
        value -= 1 << (8 * raw.len());
    }
    value as i64
}

/// Raw whole numbers are exact for all types; F32 raw is its bits.
pub fn raw_value(field: &[u8], raw: &[u8]) -> Result<i64, Number> {
    judge(field, raw)?;
    let signed = [1, 3, 5, 6].contains(&field[0]);
    Ok(number(raw, signed))
}

/// For U08, S08, U16, S16 and F32: raw plus transform, rounded to f32, times scale,
/// rounded. Other types give 30, and so does a non-finite raw, transform, sum, scale or
/// product.
pub fn shown_value(field: &[u8], raw: &[u8]) -> Result<f32, Number> {
    let whole = raw_value(field, raw)?;
    let raw = match field[0] {
        0..=3 => whole as f32, // exact: 16 bits
        7 => f32::from_bits(whole as u32),
        _ => return Err(30),
    };
    let Scaling { scale, transform } = scaling(field);
    let sum = raw + transform;
    let product = sum * scale;
    let finite = [raw, transform, sum, scale, product].iter().all(|number| number.is_finite());
    if finite {
        Ok(product)
    } else {
        Err(30)
    }
}
