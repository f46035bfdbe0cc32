//! Request bytes, read and written: reserved bits clear, set in the first byte, in the third, and in both; what was read is packed again.

use super::Outcome;
use crate::abi::{Request, RequestBytes};
use crate::judge::Judge;
use crate::rng::Rng;
use crate::side::{Model, Side};

pub fn run(rng: &mut Rng, judge: &mut Judge) -> Outcome {
    let clear = [rng.byte() & 0x1F, rng.byte(), rng.byte() & 0xEF];
    let [first, second, third] = with_reserved_bits(rng, clear);
    let input = || format!("request bytes {first:#x} {second:#x} {third:#x}");
    let (model, library) = (Model.read_request(first, second, third), judge.library.read_request(first, second, third));
    let name = if model.clear == 1 { "read_request, clear" } else { "read_request, not clear" };
    let read = judge.answer(name, model, library, &input)?;

    // 02, C-16: "Packing still writes zeros, so packing after reading returns the same bytes only for clear ones."
    let library = judge.library.request_bytes(read.request);
    judge.answer("request_bytes, of what was read", RequestBytes { number: 0, bytes: clear }, library, &input)?;

    let (byte, word) = (rng.byte(), rng.u16());
    let mut request =
        Request { table: rng.below(32) as u8, count: rng.below(16) as u8, offset: rng.below(2048) as u16 };
    for _ in 0..rng.pick(&[0, 0, 1, 1, 2]) {
        match rng.below(3) {
            0 => request.table = rng.pick(&[31, 32, 255, byte]),
            1 => request.count = rng.pick(&[15, 16, 255, byte]),
            _ => request.offset = rng.pick(&[2047, 2048, 65_535, word]),
        }
    }
    let input = || format!("{request:?}");
    let library = judge.library.request_bytes(request);
    judge.answer("request_bytes", Model.request_bytes(request), library, &input)?;
    Ok(())
}

/// The bytes of a request with reserved bits set, three times of four: some of the first byte's, the third's, or both.
pub fn with_reserved_bits(rng: &mut Rng, [first, second, third]: [u8; 3]) -> [u8; 3] {
    let (top, bit_4) = ((rng.within(1, 7) as u8) << 5, 0x10);
    match rng.below(4) {
        0 => [first, second, third],
        1 => [first | top, second, third],
        2 => [first, second, third | bit_4],
        _ => [first | top, second, third | bit_4],
    }
}
