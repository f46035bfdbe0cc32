//! MLG writers: lawful and damaged arguments, outputs too small, just right and larger.

use super::logs::{damage_field, random_layout, Layout};
use super::{earlier_blocks, output_length, Outcome};
use crate::abi::Written;
use crate::judge::{Judge, Lent};
use crate::model::mlg::FIELD;
use crate::rng::Rng;
use crate::side::{Model, Side};

pub fn run(rng: &mut Rng, judge: &mut Judge) -> Outcome {
    header(rng, judge)?;
    data(rng, judge)?;
    mark(rng, judge)
}

/// Runs a writer on both sides with outputs of the same content, and compares all of them.
pub fn compare_writer(
    judge: &mut Judge, name: &'static str, output: &[u8], input: &dyn Fn() -> String,
    write: &dyn Fn(&dyn Side, &mut [u8]) -> Written,
) -> Outcome {
    let (mut here, mut there) = (Lent::new(output), Lent::new(output));
    let one = write(&Model, here.get_mut());
    let other = write(judge.library, there.get_mut());
    judge.answer(name, one, other, input)?;
    judge.same(&format!("output of {name}"), &here, &there, input)
}

fn header(rng: &mut Rng, judge: &mut Judge) -> Outcome {
    let mut layout = random_layout(rng);
    if rng.one_in(400) {
        layout.fields = many_fields(rng);
    }
    for _ in 0..rng.pick(&[0, 0, 0, 1, 2]) {
        damage_layout(rng, &mut layout);
    }
    let length = output_length(rng, layout.begin());
    let output = rng.bytes(length);
    let lent = [Lent::new(&layout.fields), Lent::new(&layout.names), Lent::new(&layout.info)];
    let before = lent.clone();
    let time = layout.time;
    let input = || format!("output {:?}\ntime {time}\nfields, names, info {before:?}", Lent::new(&output));
    compare_writer(judge, "mlg_write_header", &output, &input, &|side, out| {
        side.mlg_write_header(out, time, lent[0].get(), lent[1].get(), lent[2].get())
    })?;
    judge.same("what was lent to mlg_write_header", &before, &lent, &input)
}

fn damage_layout(rng: &mut Rng, layout: &mut Layout) {
    let begin = layout.begin();
    let near = [0, layout.fields_end() - 1, layout.fields_end(), begin - 1, begin];
    match rng.below(8) {
        0 => layout.fields.truncate(rng.below(layout.fields.len() + 1)),
        1 => layout.fields.push(rng.byte()),
        2 if !layout.info.is_empty() => {
            let at = rng.below(layout.info.len());
            layout.info[at] = 0;
        }
        3 => {
            let length = rng.below(layout.names.len() + 1);
            layout.names.truncate(length);
        }
        4 if !layout.info.is_empty() => layout.info.clear(),
        _ if layout.fields.len() >= FIELD => {
            let field = FIELD * rng.below(layout.count());
            damage_field(rng, &mut layout.fields, field, &near);
        }
        _ => {}
    }
}

/// So many fields that a limit is just kept or passed: the record's length, or (as bad
/// types count 0) the number of fields.
fn many_fields(rng: &mut Rng) -> Vec<u8> {
    let (kind, count) =
        rng.pick(&[(6, 8191), (6, 8192), (7, 16_383), (7, 16_384), (0, 65_535), (0, 65_536), (9, 65_536)]);
    let mut fields = vec![0; FIELD * count];
    for field in fields.chunks_mut(FIELD) {
        field[0] = kind;
    }
    if kind == 6 {
        // a record of 65,528 bytes and one more field: up to 65,535 by smaller ones
        let rest = rng.below(10);
        for index in 0..rest.min(count) {
            fields[FIELD * index] = rng.pick(&[0, 2, 4]);
        }
    }
    fields
}

fn data(rng: &mut Rng, judge: &mut Judge) -> Outcome {
    let length = match rng.below(60) {
        0 => rng.pick(&[65_535, 65_536, 65_537]),
        1 => rng.below(70_000),
        2 => 0,
        _ => rng.below(40),
    };
    let size = match rng.below(8) {
        0 => rng.below(40) as u16,
        1 => (length as u16).wrapping_add(1),
        _ => length as u16,
    };
    let record = Lent::new(&rng.bytes(length));
    let before = record.clone();
    let (earlier, time) = (earlier_blocks(rng), rng.u16());
    let output_len = output_length(rng, 5 + length);
    let output = rng.bytes(output_len);
    let input = || {
        let output = Lent::new(&output);
        format!("record length {size} earlier {earlier} time {time}\nrecord {before:?}\noutput {output:?}")
    };
    compare_writer(judge, "mlg_write_data", &output, &input, &|side, out| {
        side.mlg_write_data(out, size, earlier, time, record.get())
    })?;
    judge.same("record lent to mlg_write_data", &before, &record, &input)
}

fn mark(rng: &mut Rng, judge: &mut Judge) -> Outcome {
    let length = rng.pick(&[0, 1, 20, 48, 49, 49, 50, 51, 300]);
    let mut text = rng.text(length);
    if length > 0 && rng.one_in(6) {
        text[rng.below(length)] = 0;
    }
    let text = Lent::new(&text);
    let before = text.clone();
    let (earlier, time) = (earlier_blocks(rng), rng.u16());
    let output_len = output_length(rng, 54);
    let output = rng.bytes(output_len);
    let input = || format!("earlier {earlier} time {time}\ntext {before:?}\noutput {:?}", Lent::new(&output));
    compare_writer(judge, "mlg_write_mark", &output, &input, &|side, out| {
        side.mlg_write_mark(out, earlier, time, text.get())
    })?;
    judge.same("text lent to mlg_write_mark", &before, &text, &input)
}
