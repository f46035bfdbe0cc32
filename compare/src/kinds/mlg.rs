//! MLG files: the header, the blocks one after the other and counted, blocks at many other
//! places, and the parts of the header.

use super::logs::{damage, random_log};
use super::{earlier_blocks, Outcome};
use crate::abi::*;
use crate::judge::{hex, Difference, Judge, Lent};
use crate::model::mlg;
use crate::rng::Rng;
use crate::side::{Model, Side};

pub fn run(rng: &mut Rng, judge: &mut Judge) -> Outcome {
    let wrong_counters = rng.percent(30);
    let mut log = random_log(rng, wrong_counters);
    let damages = rng.pick(&[0, 0, 1, 1, 1, 2, 4]);
    for _ in 0..damages {
        damage(rng, &mut log);
    }
    if rng.one_in(200) {
        let length = rng.below(400);
        log.file = rng.bytes(length);
    }
    let lent = Lent::new(&log.file);
    let file = lent.get();
    let input = || format!("file {lent:?}");
    let one = Model.mlg_read_header(file);
    let header = judge.answer("mlg_read_header", one, judge.library.mlg_read_header(file), &input)?;

    let (mut place, mut earlier) = match header.number {
        0 => (header.begin as usize, 0),
        _ => (log.layout.begin(), 0),
    };
    let size = if header.number == 0 { header.size } else { log.layout.record() as u16 };
    loop {
        let block = block_at(judge, file, size, earlier, place)?;
        if block.kind != BLOCK_DATA && block.kind != BLOCK_MARK {
            break;
        }
        place += if block.kind == BLOCK_DATA { 5 + size as usize } else { mlg::MARK };
        earlier += 1;
    }
    for _ in 0..6 {
        let place = match rng.below(8) {
            0 => file.len() + rng.below(3),
            1 => file.len().saturating_sub(rng.below(60)),
            2 => rng.below(file.len() + 2),
            3 => usize::MAX - rng.below(70),
            _ => (rng.pick(&log.places) + 1).saturating_sub(rng.pick(&[0, 1, 1, 1, 2])),
        };
        let size = match rng.below(8) {
            0 => rng.below(20) as u16,
            1 => 65_535,
            _ => size,
        };
        block_at(judge, file, size, earlier_blocks(rng), place)?;
    }
    parts(rng, judge, file, &header)?;
    judge.same("file afterwards", &Lent::new(&log.file), &lent, &input)?;
    if damages == 0 && !wrong_counters {
        rewrite(judge, &log.file)?;
    }
    Ok(())
}

fn block_at(judge: &mut Judge, file: &[u8], size: u16, earlier: u64, place: usize) -> Result<MlgBlock, Difference> {
    let input = || format!("record length {size} earlier {earlier} place {place} file {}", hex(file));
    let one = Model.mlg_read_block(file, size, earlier, place);
    let other = judge.library.mlg_read_block(file, size, earlier, place);
    judge.answer("mlg_read_block", one, other, &input)
}

/// The count of the blocks, and where fields, names and info lie.
fn parts(rng: &mut Rng, judge: &mut Judge, file: &[u8], header: &MlgHeader) -> Outcome {
    let (side, input) = (judge.library, || format!("file {}", hex(file)));
    let one = Model.mlg_count_blocks(file);
    judge.answer("mlg_count_blocks", one, side.mlg_count_blocks(file), &input)?;
    for _ in 0..3 {
        let index = match rng.below(6) {
            0 => header.count,
            1 => header.count.wrapping_sub(1),
            2 => header.count.saturating_add(1 + rng.below(3) as u16),
            3 => rng.u16(),
            _ => rng.below(header.count.max(1) as usize) as u16,
        };
        let input = || format!("index {index} file {}", hex(file));
        let one = Model.mlg_field_span(file, index);
        judge.answer("mlg_field_span", one, side.mlg_field_span(file, index), &input)?;
    }
    let one = Model.mlg_fields_span(file);
    judge.answer("mlg_fields_span", one, side.mlg_fields_span(file), &input)?;
    let one = Model.mlg_names_span(file);
    judge.answer("mlg_names_span", one, side.mlg_names_span(file), &input)?;
    judge.answer("mlg_info_span", Model.mlg_info_span(file), side.mlg_info_span(file), &input)?;
    Ok(())
}

/// The bytes of a part, where the library says that it is; none where it says a part that is not there.
fn part(file: &[u8], span: Span) -> &[u8] {
    file.get(span.start..span.start.saturating_add(span.len)).unwrap_or(&[])
}

/// A file in this layout, with right counters and zero-padded marks, rewritten from what
/// was read gives the same bytes: with the library's readers and writers alone.
fn rewrite(judge: &mut Judge, file: &[u8]) -> Outcome {
    let side = judge.library;
    let read = side.mlg_read_header(file);
    let header = mlg::Header {
        time: read.time,
        info: read.info,
        begin: read.begin,
        size: read.size,
        count: read.count,
        version: read.version,
    };
    if read.number != 0 || !mlg::in_layout(file, &header) {
        return Ok(());
    }
    let input = || format!("file {}", hex(file));
    let fields = part(file, side.mlg_fields_span(file));
    let each: Vec<u8> =
        (0..read.count).flat_map(|index| part(file, side.mlg_field_span(file, index))).copied().collect();
    judge.same("fields one by one", &hex(fields), &hex(&each), &input)?;
    let (names, info) = (part(file, side.mlg_names_span(file)), part(file, side.mlg_info_span(file)));
    let mut again = vec![0; file.len()];
    let mut at = side.mlg_write_header(&mut again, header.time, fields, names, info).len;
    let mut earlier = 0;
    loop {
        let block = side.mlg_read_block(file, header.size, earlier, at);
        let bytes = &file[block.start..block.start + block.len];
        let out = &mut again[at..];
        let written = match block.kind {
            BLOCK_DATA => side.mlg_write_data(out, header.size, earlier, block.time, bytes),
            BLOCK_MARK => side.mlg_write_mark(out, earlier, block.time, bytes),
            _ => break,
        };
        if written.number != 0 {
            break;
        }
        at += written.len;
        earlier += 1;
    }
    judge.same("file rewritten", &hex(file), &hex(&again), &input)
}
