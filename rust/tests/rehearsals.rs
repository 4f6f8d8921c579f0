//! Plays scripts on the drive and checks all that it tells: beside a second drive, at every cut, at random, at its bounds and to the end of its work.
//! Says at last how much was checked and how much of it was unexplained. Names of stages as arguments leave the others out.
use currycream_tests::every_cut::{self, Effort, Job};
use currycream_tests::failure::Failure;
use currycream_tests::harness::{Harness, Mode, MODES};
use currycream_tests::progress::Progress;
use currycream_tests::random_lives::{self, Harnesses};
use currycream_tests::totals::Totals;
use currycream_tests::{bounds, chip::Geometry, endurance, parallel, scripts, second};
use std::time::{Duration, Instant};

/// So many unexplained outputs are enough.
const ENOUGH: usize = 3;

/// All that was checked, and what wasn't explained.
#[derive(Default)]
struct Rehearsals {
    totals: Totals,
    failures: Vec<Failure>,
}

impl Rehearsals {
    fn fail(&mut self, failure: Failure) {
        println!("{failure}");
        self.failures.push(failure);
    }

    /// Takes what workers found.
    fn take(&mut self, totals: &Totals, failures: Vec<Failure>) {
        self.totals.merge(totals);
        failures.into_iter().for_each(|failure| self.fail(failure));
    }

    fn second_drive(&mut self) {
        let mut scripts = 0;
        for geometry in [Geometry::new(32, 16), Geometry::new(33, 24), Geometry::new(256, 64)] {
            let mut harness = Harness::new(geometry);
            for number in 0..120 {
                scripts += 1;
                if let Err(failure) = second::compare(number, 60, &mut harness) {
                    self.fail(failure);
                    break;
                }
            }
            self.take(&harness.totals, Vec::new());
        }
        println!("second drive: {scripts} scripts compared line by line");
    }

    fn every_cut(&mut self) {
        let effort = Effort { second: 12, third_one_in: 8, third: 3, every_second: true };
        let jobs = jobs();
        let progress = Progress::new("cuts");
        let workers = parallel::run(
            || (Harness::new(every_cut::GEOMETRY), Vec::new()),
            |(harness, failures), number| {
                let Some(job) = jobs.get(number as usize) else { return false };
                failures.extend(every_cut::run(job, effort, harness, &progress).err());
                failures.len() < ENOUGH
            },
        );
        workers.into_iter().for_each(|(harness, failures)| self.take(&harness.totals, failures));
        println!("every cut: {} scripts in {} modes, {} cuts", scripts::cases().len(), MODES.len(), progress.finish().0);
    }

    fn random(&mut self) {
        let wanted: u64 = std::env::var("REHEARSE_LIVES").ok().and_then(|text| text.parse().ok()).unwrap_or(200_000);
        let progress = Progress::new("lives");
        let workers = parallel::run(
            || (Harnesses::default(), Vec::new(), 0),
            |(harnesses, failures, sessions), number| {
                *sessions += 1;
                match random_lives::play(number, harnesses, Duration::from_secs(60)) {
                    Ok(lives) => progress.add(lives),
                    Err(failure) => failures.push(failure),
                }
                failures.len() < ENOUGH && progress.done() < wanted
            },
        );
        let mut sessions = 0;
        for (harnesses, failures, played) in workers {
            sessions += played;
            harnesses.iter().for_each(|harness| self.totals.merge(&harness.totals));
            self.take(&Totals::default(), failures);
        }
        println!("random: {} lives of {sessions} drives", progress.finish().0);
    }

    fn bounds(&mut self) {
        for blocks in [1024, 4096] {
            match bounds::all_fail(blocks) {
                Ok(outcome) => {
                    println!("bounds: {} blocks of {blocks} fail in one command, told after {} turns", outcome.bad, outcome.totals.most_turns);
                    self.totals.merge(&outcome.totals);
                }
                Err(failure) => self.fail(failure),
            }
        }
    }

    fn end_of_work(&mut self) {
        let mut harness = Harness::new(endurance::GEOMETRY);
        for mode in [Mode::Plain, Mode::Random] {
            for most_asks in [200, 2_000, 20_000] {
                match endurance::run(mode, 1 + most_asks, most_asks, &mut harness) {
                    Ok(erasings) => println!("end of work: {mode:?}, cuts within {most_asks} asks, no block erased more than {erasings} times"),
                    Err(failure) => self.fail(failure),
                }
            }
        }
        self.take(&harness.totals, Vec::new());
    }
}

/// All cases in all modes, each in parts, those with the most cuts first.
fn jobs() -> Vec<Job> {
    let of = 4;
    let mut jobs = Vec::new();
    for case in scripts::cases() {
        for mode in MODES {
            jobs.extend((0..of).map(|rest| Job { case: case.clone(), mode, rest: rest + 1, of }));
        }
    }
    jobs
}

const STAGES: [(&str, fn(&mut Rehearsals)); 5] = [
    ("second_drive", Rehearsals::second_drive),
    ("bounds", Rehearsals::bounds),
    ("end_of_work", Rehearsals::end_of_work),
    ("every_cut", Rehearsals::every_cut),
    ("random", Rehearsals::random),
];

/// The arguments that aren't options: only stages with one of them in their name are played.
fn filters() -> Vec<String> {
    let arguments: Vec<String> = std::env::args().collect();
    let is_value = |at: usize| arguments[at - 1] == "--test-threads";
    (1..arguments.len()).filter(|at| !arguments[*at].starts_with('-') && !is_value(*at)).map(|at| arguments[at].clone()).collect()
}

fn main() {
    let filters = filters();
    let mut all = Rehearsals::default();
    let mut played = 0;
    for (name, stage) in STAGES {
        if filters.is_empty() || filters.iter().any(|filter| name.contains(filter.as_str())) {
            let start = Instant::now();
            stage(&mut all);
            println!("  {name} took {:.0} s", start.elapsed().as_secs_f64());
            played += 1;
        }
    }
    if played == 0 {
        println!("no stage is named {filters:?}");
        return;
    }
    let Totals { lives, cuts, outputs, .. } = all.totals;
    println!("{}", all.totals);
    println!("{lives} lives, {cuts} cuts, {outputs} outputs checked, {} unexplained", all.failures.len());
    std::process::exit(i32::from(!all.failures.is_empty()));
}
