//! Reads a written page of the chip in memory, with all its tricks, a hundred thousand times; prints nanoseconds for a reading beside a plain copy of a page.
use currycream_tests::{read_chip, Random, PAGE};
use std::hint::black_box;
use std::time::Instant;

const TIMES: u64 = 100_000;
const BATCHES: usize = 20;

fn main() {
    let mut memory = vec![0u8; 32 * 16 * PAGE];
    let mut page = [0u8; PAGE];
    let mut copy = [0u8; PAGE];
    Random(1).fill(&mut page);
    let (mut reading, mut copying) = (f64::MAX, f64::MAX);
    for seed in 0..BATCHES as u64 {
        let t = Instant::now();
        let went = read_chip(&mut memory, &mut page, seed + 1, TIMES);
        reading = reading.min(t.elapsed().as_nanos() as f64 / TIMES as f64);
        assert_eq!(went, TIMES);
        let t = Instant::now();
        for _ in 0..TIMES {
            black_box(&mut copy).copy_from_slice(black_box(&page));
        }
        copying = copying.min(t.elapsed().as_nanos() as f64 / TIMES as f64);
    }
    println!("read    {reading:8.1} ns a page");
    println!("memcpy  {copying:8.1} ns for {PAGE} bytes");
    println!("a reading costs {:.1} copies (to reach: 4)", reading / copying);
}
