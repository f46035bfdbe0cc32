//! 01 "Identifier and frame": the 29-bit identifier.

use super::Number;
use crate::abi::Parts;

/// From the low end: spare 0-1, table bit 4 in 2, table bits 0-3 in 3-6,
/// to 7-10, from 11-14, type 15-17, offset 18-28.
/// Parts out of range (settled by the team): type 5, sender, receiver or table 7, offset 8.
pub fn pack(parts: Parts) -> Result<u32, Number> {
    if parts.kind > 7 {
        return Err(5);
    }
    if parts.from > 15 || parts.to > 15 || parts.table > 31 {
        return Err(7);
    }
    if parts.offset > 2047 {
        return Err(8);
    }
    let table = parts.table as u32;
    Ok((table / 16) << 2
        | (table % 16) << 3
        | (parts.to as u32) << 7
        | (parts.from as u32) << 11
        | (parts.kind as u32) << 15
        | (parts.offset as u32) << 18)
}

/// 1: identifier 2^29 or more; 2: spare bits set.
pub fn unpack(id: u32) -> Result<Parts, Number> {
    if id >= 1 << 29 {
        return Err(1);
    }
    if id & 3 != 0 {
        return Err(2);
    }
    Ok(Parts {
        offset: (id >> 18 & 0x7FF) as u16,
        kind: (id >> 15 & 7) as u8,
        from: (id >> 11 & 15) as u8,
        to: (id >> 7 & 15) as u8,
        table: ((id >> 3 & 15) + 16 * (id >> 2 & 1)) as u8,
    })
}
