//! 01 "Identifier and frame": the three request bytes; 02, C-16: reserved bits are ignored, and reading says whether they were clear.

use super::Number;
use crate::abi::Request;

/// First: the reply's table, top three bits 0. Second: the reply offset divided by 8.
/// Third: the offset's low three bits in bits 7-5, 0 in bit 4, the count in bits 3-0.
/// "Read requests with the reserved bits ignored, and have the reading say whether they were clear": the request, and that mark.
pub fn read(first: u8, second: u8, third: u8) -> (Request, bool) {
    let clear = first & 0xE0 == 0 && third & 0x10 == 0;
    let offset = second as u16 * 8 + (third >> 5) as u16;
    (Request { table: first & 0x1F, count: third & 0x0F, offset }, clear)
}

/// Out of range (settled by the team): table 7, count over 15 9, offset 8. "Packing still writes zeros".
pub fn bytes_of(request: Request) -> Result<[u8; 3], Number> {
    if request.table > 31 {
        return Err(7);
    }
    if request.count > 15 {
        return Err(9);
    }
    if request.offset > 2047 {
        return Err(8);
    }
    let low = (request.offset % 8) as u8;
    Ok([request.table, (request.offset / 8) as u8, low * 32 + request.count])
}
