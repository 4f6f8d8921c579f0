//! A quick search for something unexplained, on one thread: every cut of some scripts, random lives, a second drive. Ends with status 1 and the script
//! where it finds something. HUNT_SECONDS says how long it takes at most.
use currycream_tests::chip::Geometry;
use currycream_tests::endurance;
use currycream_tests::every_cut::{self, Effort, Job};
use currycream_tests::failure::Failure;
use currycream_tests::harness::{Harness, Mode, MODES};
use currycream_tests::progress::Progress;
use currycream_tests::random_lives::{self, Harnesses};
use currycream_tests::{scripts, second};
use std::time::{Duration, Instant};

/// What is tried, one after the other, again and again with other numbers.
struct Hunt {
    small: Harness,
    harnesses: Harnesses,
    progress: Progress,
    jobs: Vec<Job>,
}

impl Hunt {
    fn new() -> Self {
        let cases = scripts::cases();
        // each case in each mode before any of them is tried again at other asks
        let jobs = (0..17u64).flat_map(|rest| {
            cases.iter().flat_map(move |case| MODES.map(|mode| Job { case: case.clone(), mode, rest: 1 + rest * 5 % 17, of: 17 }))
        });
        Hunt { small: Harness::new(Geometry::new(32, 16)), harnesses: Harnesses::default(), progress: Progress::new("cuts"), jobs: jobs.collect() }
    }

    fn round(&mut self, number: u64) -> Result<(), Failure> {
        let effort = Effort { second: 6, third_one_in: 6, third: 2, every_second: false };
        second::compare(number, 20, &mut self.small)?;
        if let Some(job) = self.jobs.get(number as usize) {
            every_cut::run(job, effort, &mut self.small, &self.progress)?;
        }
        for i in 0..3 {
            random_lives::play(3 * number + i, &mut self.harnesses, Duration::from_secs(10))?;
        }
        if number % 16 == 2 {
            endurance::run(Mode::Random, number, 200 * (1 + number), &mut self.small)?;
        }
        Ok(())
    }
}

fn main() {
    let seconds = std::env::var("HUNT_SECONDS").ok().and_then(|text| text.parse().ok()).unwrap_or(100);
    let start = Instant::now();
    let mut hunt = Hunt::new();
    let mut number = 0;
    while start.elapsed() < Duration::from_secs(seconds) {
        if let Err(failure) = hunt.round(number) {
            println!("{failure}");
            println!("found after {:.0} s", start.elapsed().as_secs_f64());
            std::process::exit(1);
        }
        number += 1;
    }
    println!("nothing unexplained in {number} rounds, {:.0} s", start.elapsed().as_secs_f64());
}
