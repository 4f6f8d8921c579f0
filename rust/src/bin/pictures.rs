//! Draws two images into docs/images, or the folder that is named: the erasings of each block after a long run, and what the pages of a chip are at a cut and after coming up.
use currycream_tests::checker::{End, History};
use currycream_tests::chip::{Chip, Geometry};
use currycream_tests::ffi::BlockCell;
use currycream_tests::harness::{Harness, Mode, Options};
use currycream_tests::page_map::{page_map, Kind};
use currycream_tests::random::Random;
use currycream_tests::scripts;
use currycream_tests::svg::{Anchor, Drawing, FAINT, INK};
use std::fmt::Write;
use std::path::{Path, PathBuf};

const KINDS: [(Kind, &str, &str); 8] = [
    (Kind::Header, "#4f77a8", "header"),
    (Kind::Live, "#6fae86", "live data"),
    (Kind::Dead, "#dcd5c3", "dead data"),
    (Kind::Seal, "#9a86c4", "seal"),
    (Kind::Torn, "#d4775a", "torn"),
    (Kind::VoidHeader, "#b9cbe2", "void header"),
    (Kind::Free, "#ffffff", "free"),
    (Kind::Bad, "#6c6f75", "bad block"),
];

fn colour(kind: Kind) -> &'static str {
    KINDS.iter().find(|(other, _, _)| *other == kind).map_or("#ffffff", |(_, colour, _)| colour)
}

/// Writes and flushes of random sectors.
fn writes(random: &mut Random, geometry: Geometry, commands: u64) -> String {
    let mut text = String::new();
    for i in 0..commands {
        let many = 1 + random.below(8);
        let (from, fill) = (random.below(u64::from(geometry.sectors()) - many + 1), random.below(256));
        let _ = writeln!(text, "write {} {from} {many} {fill:02x}", i % 7);
        if i % 7 == 6 {
            text += "flush 7\nturn 1000\n";
        }
    }
    text
}

/// A drive of 64 blocks of 32 pages, four of them bad, through many lives: erasings of each block, sectors written and cuts.
fn worn_chip() -> (Vec<BlockCell>, u64, u64) {
    let geometry = Geometry::new(64, 32);
    let (mut harness, mut history, mut random) = (Harness::new(geometry), History::new(geometry), Random(2));
    let mut fresh = Some(vec![9, 22, 40, 57]);
    for _ in 0..120 {
        let script = format!("turn 1\ncut {}\n{}", 2_000 + random.below(20_000), writes(&mut random, geometry, 700));
        let options = Options { mode: Mode::Random, seed: random.next(), one_in: 0, fresh: fresh.take(), once: true };
        if let Err(failure) = harness.check(&mut history, &script, &options) {
            println!("{failure}");
            std::process::exit(1);
        }
    }
    let statistics = history.statistics();
    (harness.chip.cells, history.work() - 256 * statistics.rises, statistics.cuts)
}

fn grouped(number: u64) -> String {
    let digits = number.to_string();
    let mut text = String::new();
    for (i, digit) in digits.chars().enumerate() {
        if i > 0 && (digits.len() - i) % 3 == 0 {
            text.push(',');
        }
        text.push(digit);
    }
    text
}

/// A step between marks of an axis that reaches so far.
fn axis_step(most: u32) -> u32 {
    [10, 20, 50, 100, 200, 500, 1000].into_iter().find(|step| most / step <= 6).unwrap_or(2000)
}

fn draw_erasings(cells: &[BlockCell], written: u64, cuts: u64) -> String {
    let good: Vec<u32> = cells.iter().filter(|cell| !cell.bad).map(|cell| cell.erases).collect();
    let (least, most) = (good.iter().min().copied().unwrap_or(0), good.iter().max().copied().unwrap_or(1));
    let (left, top, bar, height) = (64.0, 78.0, 11.0, 240.0);
    let width = left + bar * cells.len() as f64;
    let mut drawing = Drawing::new(width as u32 + 24, 380, "Erasings of each block");
    drawing.label(left, 30.0, 17, Anchor::Start, INK, "Erasings of each block");
    let words = format!("after {} units of work and {cuts} cuts: from {least} to {most} where a block isn't bad", grouped(written));
    drawing.label(left, 52.0, 13, Anchor::Start, FAINT, &words);
    let step = axis_step(most);
    let scale = height / f64::from(most.max(1));
    for mark in (0..=most).step_by(step as usize) {
        let y = top + height - f64::from(mark) * scale;
        drawing.line(left - 4.0, y, width, y, "#e3e7ec");
        drawing.label(left - 8.0, y + 4.0, 11, Anchor::End, FAINT, &mark.to_string());
    }
    for (block, cell) in cells.iter().enumerate() {
        let (x, tall) = (left + bar * block as f64, f64::from(cell.erases) * scale);
        if cell.bad {
            drawing.label(x + bar / 2.0, top + height - 4.0, 10, Anchor::Middle, "#6c6f75", "bad");
        } else {
            drawing.rect(x + 1.5, top + height - tall, bar - 3.0, tall, "#6b8fb8", "none");
        }
        if block % 8 == 0 {
            drawing.label(x + bar / 2.0, top + height + 18.0, 11, Anchor::Middle, FAINT, &block.to_string());
        }
    }
    drawing.line(left - 4.0, top + height, width, top + height, INK);
    drawing.label((left + width) / 2.0, top + height + 42.0, 12, Anchor::Middle, FAINT, "block");
    drawing.finish()
}

/// One map, with its upper left corner at a place.
fn draw_map(drawing: &mut Drawing, x: f64, y: f64, words: &str, chip: &Chip) {
    let (wide, tall) = (19.0, 13.0);
    drawing.label(x, y - 26.0, 14, Anchor::Start, INK, words);
    for page in (0..chip.geometry.pages).step_by(5) {
        drawing.label(x + wide * f64::from(page) + wide / 2.0, y - 6.0, 10, Anchor::Middle, FAINT, &page.to_string());
    }
    for (block, kinds) in page_map(chip).into_iter().enumerate() {
        let row = y + tall * block as f64;
        drawing.label(x - 6.0, row + 10.0, 10, Anchor::End, FAINT, &block.to_string());
        for (page, kind) in kinds.into_iter().enumerate() {
            let edge = if kind == Kind::Free { "#d5dae1" } else { "none" };
            drawing.rect(x + wide * page as f64 + 1.0, row + 1.0, wide - 2.0, tall - 2.0, colour(kind), edge);
        }
    }
}

fn draw_maps(before: &Chip, after: &Chip) -> String {
    let mut drawing = Drawing::new(760, 590, "A chip at a cut and after coming up");
    drawing.label(44.0, 30.0, 17, Anchor::Start, INK, "A chip of 32 blocks of 16 pages");
    drawing.label(44.0, 50.0, 13, Anchor::Start, FAINT, "a line for each block, a cell for each page");
    draw_map(&mut drawing, 44.0, 108.0, "at a cut", before);
    draw_map(&mut drawing, 428.0, 108.0, "after coming up", after);
    let mut x = 44.0;
    for (kind, colour, words) in KINDS {
        let edge = if kind == Kind::Free { "#d5dae1" } else { "none" };
        drawing.rect(x, 548.0, 16.0, 12.0, colour, edge);
        drawing.label(x + 21.0, 558.0, 11, Anchor::Start, INK, words);
        x += 36.0 + 6.2 * words.len() as f64;
    }
    drawing.finish()
}

/// A drive that is cut in the midst of a write, and then comes up.
fn cut_chip() -> (Chip, Chip) {
    let geometry = Geometry::new(32, 16);
    let (mut harness, mut history) = (Harness::new(geometry), History::new(geometry));
    let mut first = Options::fresh(Mode::Random, 4).to_the_end();
    first.fresh = Some(vec![11, 24]);
    let mut play = |script: &str, options: &Options| match harness.check(&mut history, script, options) {
        Ok(end) => (end, harness.chip.clone()),
        Err(failure) => {
            println!("{failure}");
            std::process::exit(1);
        }
    };
    play(&scripts::collecting(9, 60), &first);
    let mut before = None;
    let mut script = "turn 1\ncut 91\n".to_string();
    for i in 0..12 {
        let _ = writeln!(script, "write {} {} 3 5{i:x}\n", i % 8, 20 * i);
        script += "turn 40\n";
    }
    let (end, chip) = play(&script.replace("\n\n", "\n"), &Options::resume(Mode::Random, 5));
    if end == End::AtCut {
        before = Some(chip);
    }
    let (_, after) = play("turn 1\n", &Options::resume(Mode::Random, 6));
    (before.expect("the power went"), after)
}

fn main() -> std::io::Result<()> {
    let usual = Path::new(env!("CARGO_MANIFEST_DIR")).join("../docs/images");
    let folder = std::env::args().nth(1).map_or(usual, PathBuf::from);
    std::fs::create_dir_all(&folder)?;
    let (cells, written, cuts) = worn_chip();
    std::fs::write(folder.join("erasings.svg"), draw_erasings(&cells, written, cuts))?;
    let (before, after) = cut_chip();
    std::fs::write(folder.join("chip-map.svg"), draw_maps(&before, &after))?;
    println!("erasings.svg and chip-map.svg are written to {}", folder.display());
    Ok(())
}
