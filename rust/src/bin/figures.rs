//! Measures, in one run: pages programmed for each unit of work, asks of a coming-up, and sectors in a second beside the codec and the chip in memory alone.
use currycream_tests::checker::{End, History};
use currycream_tests::chip::{Chip, Geometry};
use currycream_tests::ffi::{chip_fill, chip_scan, PAGE};
use currycream_tests::harness::{Harness, Mode, Options};
use currycream_tests::random::Random;
use currycream_tests::totals::Totals;
use std::fmt::Write;
use std::time::Instant;

const REPEATS: usize = 5;

fn machine() -> String {
    let info = std::fs::read_to_string("/proc/cpuinfo").unwrap_or_default();
    let name = info.lines().find_map(|line| line.strip_prefix("model name")).map_or("unknown", |rest| rest.trim_start_matches([' ', '\t', ':']));
    let cores = info.lines().filter(|line| line.starts_with("processor")).count();
    format!("{name}, {cores} cores")
}

/// One command for each group of eight sectors, eight commands at a time.
fn sweep(geometry: Geometry, command: impl Fn(u32, u32) -> String) -> String {
    let mut text = String::new();
    let commands = geometry.sectors() / 8;
    for i in 0..commands {
        let _ = writeln!(text, "{}", command(i % 8, 8 * i));
        if i % 8 == 7 || i + 1 == commands {
            text += "turn 1000\n";
        }
    }
    text
}

fn filling(geometry: Geometry) -> String {
    sweep(geometry, |tag, from| format!("write {tag} {from} 8 {:02x}", from / 8 % 256))
}

/// Writes of single random sectors.
fn random_writes(random: &mut Random, geometry: Geometry, many: u64) -> String {
    let mut text = String::new();
    for i in 0..many {
        let _ = writeln!(text, "write {} {} 1 {:02x}", i % 8, random.below(u64::from(geometry.sectors())), random.below(256));
        if i % 8 == 7 || i + 1 == many {
            text += "turn 1000\n";
        }
    }
    text
}

/// Prints a value beside the most that it should be.
fn print_most(what: &str, value: f64, most: f64) {
    let verdict = if value <= most { "reached" } else { "NOT reached" };
    println!("{what:<76} {value:10.2}  at most {most:8.2}  {verdict}");
}

/// Plays the next life of a drive and checks what it tells.
fn play(harness: &mut Harness, history: &mut History, script: &str, options: &Options) {
    if let Err(failure) = harness.check(history, script, options) {
        println!("{failure}");
        std::process::exit(1);
    }
}

/// Pages programmed for each sector written, and the most asks of a coming-up behind cuts, on a full drive.
fn wear(geometry: Geometry, bad: Vec<u32>, most_pages: f64) {
    let mut random = Random(3);
    let (mut harness, mut history) = (Harness::new(geometry), History::new(geometry));
    let (sectors, words) = (u64::from(geometry.sectors()), format!("{geometry}, {} bad", bad.len()));
    let resume = Options::resume(Mode::Plain, 0);
    play(&mut harness, &mut history, &filling(geometry), &Options { fresh: Some(bad), ..resume.clone() });
    play(&mut harness, &mut history, &random_writes(&mut random, geometry, 3 * sectors), &resume);
    let many = 4 * sectors;
    play(&mut harness, &mut history, &random_writes(&mut random, geometry, many), &resume);
    let programs = harness.last.programs as f64 / many as f64;
    print_most(&format!("pages programmed for each sector written at random, {words}"), programs, most_pages);
    harness.totals = Totals::default();
    for _ in 0..200 {
        let script = format!("turn 1\ncut {}\n{}", 1 + random.below(2_000), random_writes(&mut random, geometry, 400));
        play(&mut harness, &mut history, &script, &Options::resume(Mode::Random, random.next()));
    }
    let bound = 6.0 * f64::from(geometry.blocks) + 5.0 * f64::from(geometry.pages);
    print_most(&format!("most asks of 200 comings-up behind cuts, {words}"), harness.totals.most_rise as f64, bound);
}

/// The shortest of some times, in seconds.
fn shortest(mut run: impl FnMut()) -> f64 {
    let times = (0..REPEATS).map(|_| {
        let start = Instant::now();
        run();
        start.elapsed().as_secs_f64()
    });
    times.fold(f64::MAX, f64::min)
}

/// Prints a rate beside one that it is compared with.
fn print_rates(what: &str, drive: f64, alone: f64) {
    let verdict = if 3.0 * drive >= alone { "reached" } else { "NOT reached" };
    println!("{what:<40} {drive:12.0} sectors a second, codec and chip alone {alone:12.0} pages; share {:.2}, at least 0.33  {verdict}", drive / alone);
}

fn rates(geometry: Geometry) {
    let sectors = f64::from(geometry.sectors());
    let mut harness = Harness::new(geometry);
    let (fill, read) = (filling(geometry), sweep(geometry, |tag, from| format!("read {tag} {from} 8")));
    let filled = shortest(|| assert!(harness.play(&fill, &Options::fresh(Mode::Plain, 0), false).end == End::Whole));
    let scanned = shortest(|| assert!(harness.play(&read, &Options::resume(Mode::Plain, 0), false).end == End::Whole));
    let mut history = History::new(geometry);
    let checked = harness.check(&mut history, &format!("{fill}{read}"), &Options::fresh(Mode::Plain, 0)).is_ok();
    println!("what was told meanwhile is {}", if checked { "explained" } else { "NOT explained" });
    let (mut chip, mut page) = (Chip::new(geometry), [0x5a; PAGE]);
    let pages = geometry.total();
    let fill_alone = shortest(|| assert_eq!(chip_fill(&mut chip, &mut page), pages));
    let scan_alone = shortest(|| assert_eq!(chip_scan(&mut chip, &mut page), pages));
    print_rates(&format!("first sequential fill, {geometry}"), sectors / filled, pages as f64 / fill_alone);
    print_rates(&format!("sequential reads, {geometry}"), sectors / scanned, pages as f64 / scan_alone);
}

fn main() {
    println!("{}", machine());
    wear(Geometry::new(32, 16), vec![3, 17], 15.0);
    wear(Geometry::new(256, 64), (0..16).map(|i| 16 * i + 5).collect(), 4.0);
    rates(Geometry::new(256, 64));
}
