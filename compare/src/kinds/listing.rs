//! The listing of MLG files, valid and damaged, up to the longest and longer.

use super::logs::{damage, random_log};
use super::Outcome;
use crate::judge::{hex, Judge};
use crate::model::mlg;
use crate::rng::Rng;
use crate::side::{Model, Side};

pub fn run(rng: &mut Rng, judge: &mut Judge) -> Outcome {
    let wrong_counters = rng.percent(50);
    let mut log = random_log(rng, wrong_counters);
    for _ in 0..rng.pick(&[0, 0, 1, 1, 2]) {
        damage(rng, &mut log);
    }
    if rng.one_in(60) {
        // marks up to the limit, and a rest of zero to a few bytes past it
        let mark = mlg::write_mark(54, 0, 0, b"mark").unwrap();
        while log.file.len() + 54 <= 65_536 {
            log.file.extend(&mark);
        }
        log.file.resize(rng.pick(&[65_535, 65_536, 65_536, 65_537, 70_000]), 0);
    }
    let Some(library) = judge.library.listing(&log.file) else {
        return Ok(());
    };
    let model = Model.listing(&log.file).unwrap();
    let number = number_of(&model);
    *judge.tally.entry(("listing", number)).or_insert(0) += 1;
    let text = |bytes: &[u8]| String::from_utf8_lossy(bytes).into_owned();
    judge.same("listing", &text(&model), &text(&library), &|| format!("file {}", hex(&log.file)))
}

/// For the tally: the number in the last line, 0 for `end`, 255 for `too long`.
fn number_of(listing: &[u8]) -> u8 {
    let text = String::from_utf8_lossy(listing);
    let last = text.lines().last().unwrap_or("").to_string();
    let words: Vec<&str> = last.split(' ').collect();
    match words[0] {
        "refused" => words[1].parse().unwrap_or(254),
        "too" => 255,
        _ => 0,
    }
}
