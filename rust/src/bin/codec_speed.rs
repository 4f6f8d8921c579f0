//! Seals random pages, turns one random bit in each piece, unseals them and compares; prints nanoseconds for a page beside a plain copy of one.
use currycream_tests::{seal, unseal, Random, DATA, MARK, PAGE};
use std::hint::black_box;
use std::time::{Duration, Instant};

const BATCHES: usize = 20;
const BATCH: usize = 5_000;

/// The time of one batch, for each thing that is measured.
#[derive(Clone, Copy)]
struct Times {
    seal: Duration,
    unseal: Duration,
    copy: Duration,
    clock: Duration,
}

fn batch(random: &mut Random, different: &mut usize) -> Times {
    let mut page = [0u8; PAGE];
    let mut data = [0u8; DATA];
    let mut mark = [0u8; MARK];
    let mut copy = [0u8; PAGE];
    let mut times = Times { seal: Duration::ZERO, unseal: Duration::ZERO, copy: Duration::ZERO, clock: Duration::ZERO };
    for _ in 0..BATCH {
        random.fill(&mut data);
        random.fill(&mut mark);
        page[..DATA].copy_from_slice(&data);
        let t = Instant::now();
        seal(black_box(&mut page), black_box(&mark));
        times.seal += t.elapsed();
        random.turn_bits(&mut page);
        let t = Instant::now();
        black_box(&mut copy).copy_from_slice(black_box(&page));
        times.copy += t.elapsed();
        let t = Instant::now();
        unseal(black_box(&mut page));
        times.unseal += t.elapsed();
        let t = Instant::now();
        times.clock += t.elapsed();
        *different += usize::from(page[..DATA] != data);
    }
    times
}

/// Nanoseconds for a page in the quickest batch, less what the clock itself costs.
fn quickest(times: &[Times], of: fn(&Times) -> Duration) -> f64 {
    times.iter().map(|t| of(t).saturating_sub(t.clock).as_nanos() as f64 / BATCH as f64).fold(f64::MAX, f64::min)
}

fn main() {
    let mut random = Random(1);
    let mut different = 0;
    let times: Vec<Times> = (0..BATCHES).map(|_| batch(&mut random, &mut different)).collect();
    let (sealing, unsealing, copying) = (quickest(&times, |t| t.seal), quickest(&times, |t| t.unseal), quickest(&times, |t| t.copy));
    println!("pages {}, different {different}", BATCHES * BATCH);
    println!("seal    {sealing:8.1} ns a page");
    println!("unseal  {unsealing:8.1} ns a page");
    println!("memcpy  {copying:8.1} ns for {PAGE} bytes");
    println!("unseal costs {:.1} copies (to reach: 12)", unsealing / copying);
    std::process::exit(i32::from(different != 0));
}
