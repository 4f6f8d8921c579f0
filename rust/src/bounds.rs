//! All blocks that may fail do so in one command: the bounds on turns and asks still hold.
use crate::checker::History;
use crate::chip::Geometry;
use crate::failure::Failure;
use crate::harness::{Harness, Mode, Options};
use crate::totals::Totals;
use std::fmt::Write;

/// How many blocks were bad at the end, and what was played.
pub struct Outcome {
    pub bad: usize,
    pub totals: Totals,
}

/// Writes some sectors, then one command in whose course every programming and erasing fails as long as one may.
fn script() -> String {
    let mut text = String::new();
    for i in 0..64 {
        let _ = writeln!(text, "write {} {} 8 {:02x}", i % 8, 8 * i, i);
        if i % 8 == 7 {
            text += "turn 2000\n";
        }
    }
    text + "flush 0\nturn 2000\nseed 7\nwrite 1 100 8 f1\nturn 1100\nread 2 100 8\nread 3 96 8\nflush 4\nturn 2000\n"
}

pub fn all_fail(blocks: u32) -> Result<Outcome, Failure> {
    let geometry = Geometry::new(blocks, 16);
    let mut harness = Harness::new(geometry);
    let mut history = History::new(geometry);
    harness.check(&mut history, &script(), &Options::fresh(Mode::Plain, 0).failing(1).to_the_end())?;
    let bad = harness.chip.cells.iter().filter(|cell| cell.bad).count();
    if bad != blocks as usize / 16 {
        return Err(Failure::new(format!("{bad} blocks of {blocks} failed")).after("all blocks fail", &script()));
    }
    harness.check(&mut history, "read 2 100 8\nread 3 96 8\nturn 2000\n", &Options::resume(Mode::Random, 3))?;
    Ok(Outcome { bad, totals: harness.totals })
}
