//! A small drive with two bad blocks is used, with cuts now and then, until it may be worn out: before, it never says that it is.
use crate::checker::History;
use crate::chip::Geometry;
use crate::failure::Failure;
use crate::harness::{Harness, Mode, Options};
use crate::random::Random;
use std::fmt::Write;

pub const GEOMETRY: Geometry = Geometry { blocks: 32, pages: 16 };
/// A block may be erased so often before it may fail.
const MOST_ERASINGS: u32 = 3000;

/// A life of random writes, trims and flushes, that is cut at an ask.
fn life(random: &mut Random, commands: u64, cut: u64) -> String {
    let sectors = u64::from(GEOMETRY.sectors());
    let mut text = format!("turn 1\ncut {cut}\n");
    for i in 0..commands {
        let (tag, many, fill) = (i % 8, 1 + random.below(8), random.below(256));
        let from = random.below(sectors - many + 1);
        let _ = match random.below(10) {
            0 => writeln!(text, "flush {tag}"),
            1 => writeln!(text, "trim {tag} {from} {many}"),
            2 => writeln!(text, "read {tag} {from} {many}"),
            _ => writeln!(text, "write {tag} {from} {many} {fill:02x}"),
        };
        if i % 8 == 7 {
            text += "turn 2000\n";
        }
    }
    text + "turn 2000\n"
}

/// Plays until the work is done, the power going after some asks, at most so many; the most erasings of a block.
pub fn run(mode: Mode, seed: u64, most_asks: u64, harness: &mut Harness) -> Result<u32, Failure> {
    let mut random = Random(seed);
    let mut history = History::new(GEOMETRY);
    let mut fresh = Some(vec![3, 17]);
    while history.work() < GEOMETRY.most_work() {
        let cut = 1 + random.below(most_asks);
        let script = life(&mut random, 10 + most_asks / 20, cut);
        let options = Options { mode, seed: random.next(), one_in: 0, fresh: fresh.take(), once: true };
        harness.check(&mut history, &script, &options)?;
    }
    let erasings = harness.chip.most_erased();
    if erasings > MOST_ERASINGS {
        return Err(Failure::new(format!("a block was erased {erasings} times, mode {mode:?}, seed {seed}, cuts within {most_asks} asks")));
    }
    Ok(erasings)
}
