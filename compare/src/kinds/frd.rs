//! FRD files: header, signature, blocks at their places, counted and at others, and the writers.

use super::writers::compare_writer;
use super::{earlier_blocks, output_length, Outcome};
use crate::abi::*;
use crate::judge::{hex, Difference, Judge, Lent};
use crate::model::frd;
use crate::rng::Rng;
use crate::side::{Model, Side};

pub fn run(rng: &mut Rng, judge: &mut Judge) -> Outcome {
    read(rng, judge)?;
    write(rng, judge)
}

fn random_file(rng: &mut Rng, size: u16) -> (Vec<u8>, Vec<usize>) {
    let signature = rng.bytes(63);
    let mut file = frd::write_header(usize::MAX, rng.u32(), &signature, size).unwrap();
    let mut places = vec![file.len()];
    let blocks = if rng.one_in(60) { rng.within(250, 600) } else { rng.below(10) };
    for number in 0..blocks {
        let earlier = if rng.one_in(12) { rng.next() } else { number as u64 };
        let block = if rng.percent(65) {
            let record = rng.bytes(size as usize);
            frd::write_data(usize::MAX, size, earlier, &record)
        } else {
            frd::write_time(usize::MAX, earlier, rng.u32())
        };
        file.extend(block.unwrap());
        places.push(file.len());
    }
    (file, places)
}

fn read(rng: &mut Rng, judge: &mut Judge) -> Outcome {
    let size = rng.pick(&[0, 1, 2, 5, 20]);
    let (mut file, places) = random_file(rng, size);
    for _ in 0..rng.pick(&[0, 0, 1, 1, 2]) {
        let at = rng.below(file.len().max(1));
        let place = rng.pick(&places);
        match rng.below(9) {
            0 if !file.is_empty() => file[at] ^= 1 << rng.below(8),
            1 => file.truncate(rng.pick(&[0, 6, 80, 81, 82, at])),
            2 if file.len() >= 81 => file[rng.below(6)] = rng.byte(),
            3 if file.len() >= 81 => file[rng.pick(&[6, 7])] = rng.pick(&[0, 1, 2]),
            4 if file.len() >= 81 => file[rng.within(75, 78)] = rng.pick(&[0, 80, 81, 82]),
            5 if file.len() >= 81 => file[rng.pick(&[79, 80])] = rng.pick(&[0, 1, 7, 255]),
            6 if place < file.len() => file[place] = rng.pick(&[0, 1, 2, 3, 255]),
            7 if place + 1 < file.len() => file[place + 1] = rng.byte(),
            _ => file.truncate(place + rng.below(8)),
        }
    }
    let lent = Lent::new(&file);
    let bytes = lent.get();
    let input = || format!("file {lent:?}");
    let one = Model.frd_read_header(bytes);
    let header = judge.answer("frd_read_header", one, judge.library.frd_read_header(bytes), &input)?;

    let one = Model.frd_read_signature(bytes);
    judge.answer("frd_read_signature", one, judge.library.frd_read_signature(bytes), &input)?;
    let one = Model.frd_count_blocks(bytes);
    judge.answer("frd_count_blocks", one, judge.library.frd_count_blocks(bytes), &input)?;

    let size = if header.number == 0 { header.size } else { size };
    let (mut place, mut earlier) = (81, 0);
    loop {
        let block = block_at(judge, bytes, size, earlier, place)?;
        if block.kind != BLOCK_DATA && block.kind != BLOCK_TIME {
            break;
        }
        place += if block.kind == BLOCK_DATA { 2 + size as usize } else { 6 };
        earlier += 1;
    }
    for _ in 0..6 {
        let place = match rng.below(8) {
            0 => bytes.len() + rng.below(3),
            1 => rng.below(bytes.len() + 2),
            2 => usize::MAX - rng.below(70),
            _ => (rng.pick(&places) + 1).saturating_sub(rng.pick(&[0, 1, 1, 1, 2])),
        };
        let size = match rng.below(8) {
            0 => rng.below(20) as u16,
            1 => 65_535,
            _ => size,
        };
        block_at(judge, bytes, size, earlier_blocks(rng), place)?;
    }
    judge.same("file afterwards", &Lent::new(&file), &lent, &input)
}

fn block_at(judge: &mut Judge, file: &[u8], size: u16, earlier: u64, place: usize) -> Result<FrdBlock, Difference> {
    let input = || format!("output length {size} earlier {earlier} place {place} file {}", hex(file));
    let one = Model.frd_read_block(file, size, earlier, place);
    let other = judge.library.frd_read_block(file, size, earlier, place);
    judge.answer("frd_read_block", one, other, &input)
}

fn write(rng: &mut Rng, judge: &mut Judge) -> Outcome {
    let (earlier, time) = (earlier_blocks(rng), rng.u32());

    let length = if rng.percent(80) { 63 } else { rng.pick(&[0, 1, 62, 64, 126]) };
    let (signature, size) = (rng.bytes(length), rng.u16());
    let lent = Lent::new(&signature);
    let output_len = output_length(rng, 81);
    let output = rng.bytes(output_len);
    let input = || format!("time {time} size {size}\nsignature {lent:?}\noutput {:?}", Lent::new(&output));
    compare_writer(judge, "frd_write_header", &output, &input, &|side, out| {
        side.frd_write_header(out, time, lent.get(), size)
    })?;
    judge.same("signature lent to frd_write_header", &Lent::new(&signature), &lent, &input)?;

    let length = match rng.below(60) {
        0 => rng.pick(&[65_535, 65_536, 65_537]),
        1 => rng.below(70_000),
        _ => rng.below(30),
    };
    let size = match rng.below(8) {
        0 => rng.below(30) as u16,
        1 => (length as u16).wrapping_add(1),
        _ => length as u16,
    };
    let record = rng.bytes(length);
    let lent = Lent::new(&record);
    let output_len = output_length(rng, 2 + length);
    let output = rng.bytes(output_len);
    let input = || format!("size {size} earlier {earlier}\nrecord {lent:?}\noutput {:?}", Lent::new(&output));
    compare_writer(judge, "frd_write_data", &output, &input, &|side, out| {
        side.frd_write_data(out, size, earlier, lent.get())
    })?;
    judge.same("record lent to frd_write_data", &Lent::new(&record), &lent, &input)?;

    let output_len = output_length(rng, 6);
    let output = rng.bytes(output_len);
    let input = || format!("earlier {earlier} time {time}\noutput {:?}", Lent::new(&output));
    compare_writer(judge, "frd_write_time", &output, &input, &|side, out| side.frd_write_time(out, earlier, time))
}
