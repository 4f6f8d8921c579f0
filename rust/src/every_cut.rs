//! The power goes at every single ask of a script; in the comings-up behind it at every ask or at some; and what is left is read in new lives.
use crate::checker::{End, History};
use crate::chip::{Chip, Geometry};
use crate::failure::Failure;
use crate::harness::{Harness, Mode, Options};
use crate::progress::Progress;
use crate::random::{mix, Random};
use crate::scripts::{named, reads, Case};
use crate::session::MOST_CUT_RISES;

pub const GEOMETRY: Geometry = Geometry { blocks: 32, pages: 16 };

/// Cuts one behind the other, at most.
const LEVELS: usize = 4;

/// How much is tried behind each first cut, where not every ask of the coming-up is.
#[derive(Clone, Copy)]
pub struct Effort {
    /// Asks of the first coming-up that are tried.
    pub second: u64,
    /// One second cut in so many is followed by third ones, at so many asks.
    pub third_one_in: u64,
    pub third: u64,
    /// Whether every ask of the first coming-up is tried where a case says so.
    pub every_second: bool,
}

/// A case in one mode; of the asks of its script those whose number leaves this rest are tried.
#[derive(Clone)]
pub struct Job {
    pub case: Case,
    pub mode: Mode,
    pub rest: u64,
    pub of: u64,
}

/// What is read and done in the lives behind the last cut.
struct FollowUp {
    first: String,
    second: String,
    whole: String,
}

impl FollowUp {
    fn of(case: &Case) -> Self {
        let named = named(&case.script);
        let read = reads(&named);
        let (low, high) = (named[0], named[named.len() / 2]);
        let change = format!("write 0 {low} 1 e7\ntrim 1 {high} 1\nflush 2\nwrite 3 {low} 1 e8\nread 4 {low} 1\nturn 2000\n");
        let all: Vec<u32> = (0..GEOMETRY.sectors()).collect();
        FollowUp { first: format!("{read}{change}"), second: read, whole: reads(&all) }
    }
}

/// The chip at the cuts that are being tried, one behind the other: the first is what the prefix left.
struct Explorer<'a> {
    harness: &'a mut Harness,
    levels: Vec<Chip>,
    job: &'a Job,
    effort: Effort,
    follow_up: FollowUp,
    /// How each play up to here was played, and its script.
    plays: Vec<(Options, String)>,
    random: Random,
    progress: &'a Progress,
}

/// Tries all cuts of a job.
pub fn run(job: &Job, effort: Effort, harness: &mut Harness, progress: &Progress) -> Result<(), Failure> {
    let name: Vec<u64> = job.case.name.bytes().map(u64::from).collect();
    let seed = mix(&[mix(&name), job.mode as u64, job.rest]);
    let mut history = History::new(GEOMETRY);
    let options = Options::fresh(job.mode, seed).to_the_end();
    harness.check(&mut history, &job.case.prefix, &options).map_err(|mut failure| {
        failure.what = format!("before {}, {:?}: {}", job.case.name, job.mode, failure.what);
        failure
    })?;
    let levels = vec![harness.chip.clone(); LEVELS + 1];
    let plays = vec![(options, job.case.prefix.clone())];
    let follow_up = FollowUp::of(&job.case);
    let mut explorer = Explorer { harness, levels, job, effort, follow_up, plays, random: Random(seed), progress };
    explorer.first_cuts(&history)
}

impl Explorer<'_> {
    /// The chip is kept as it is now.
    fn save(&mut self, level: usize) {
        let (base, rest) = self.levels.split_at_mut(1);
        rest[level - 1].restore(&base[0]);
        rest[level - 1].advance(&self.harness.chip);
    }

    /// The chip is again as it was kept.
    fn back(&mut self, level: usize) {
        self.harness.chip.restore(&self.levels[level]);
    }

    fn options(&mut self) -> Options {
        Options::resume(self.job.mode, self.random.next()).failing(self.job.case.one_in)
    }

    /// The next life, behind so many plays.
    fn play(&mut self, depth: usize, history: &mut History, script: &str) -> Result<End, Failure> {
        self.plays.truncate(depth);
        let options = self.options();
        self.plays.push((options.clone(), script.to_string()));
        self.harness.check(history, script, &options).map_err(|mut failure| {
            let how = |options: &Options| format!("{GEOMETRY} {options:?}");
            failure.what = format!("{}, {:?}: {}", self.job.case.name, self.job.mode, failure.what);
            failure.plays = self.plays.iter().rev().map(|(options, script)| (how(options), script.clone())).collect();
            failure
        })
    }

    /// Every ask of the script, until it ends before the cut in three plays.
    fn first_cuts(&mut self, history: &History) -> Result<(), Failure> {
        let mut whole = 0;
        let mut asks = self.job.rest.max(1);
        while whole < 3 {
            self.back(0);
            let mut next = history.clone();
            let script = format!("cut {asks}\n{}", self.job.case.script);
            match self.play(1, &mut next, &script)? {
                End::Whole => whole += 1,
                End::AtCut => {
                    self.progress.add(1);
                    self.explore(1, &next)?;
                }
            }
            asks += self.job.of;
        }
        Ok(())
    }

    /// Behind a cut: what is left is read, and the coming-up is cut too.
    fn explore(&mut self, level: usize, history: &History) -> Result<(), Failure> {
        let deeper = level < LEVELS && history.cut_rises() < MOST_CUT_RISES && self.goes_deeper(level);
        if deeper {
            self.save(level);
        }
        self.finish(level + 1, history.clone())?;
        if !deeper {
            return Ok(());
        }
        for asks in self.asks(level) {
            self.back(level);
            let mut next = history.clone();
            if self.play(level + 1, &mut next, &format!("cut {asks}\nturn 1\n"))? == End::AtCut {
                self.progress.add(1);
                self.explore(level + 1, &next)?;
            }
        }
        Ok(())
    }

    fn goes_deeper(&mut self, level: usize) -> bool {
        match level {
            1 => true,
            2 => self.random.one_in(self.effort.third_one_in),
            _ => self.random.one_in(2),
        }
    }

    /// The asks of the coming-up at which the power is to go, by how often it asked when it wasn't cut.
    fn asks(&mut self, level: usize) -> Vec<u64> {
        let most = self.harness.last.most_rise + 1;
        if level == 1 && self.job.case.every_second && self.effort.every_second {
            return (1..=most).collect();
        }
        let many = if level == 1 { self.effort.second } else { self.effort.third };
        // what is written comes last
        (0..many).map(|i| if i % 3 == 0 { 1 + self.random.below(most) } else { most - self.random.below(most / 2) }).collect()
    }

    /// No more cuts: what is left is read, something is changed, and it is read again in another life.
    fn finish(&mut self, depth: usize, mut history: History) -> Result<(), Failure> {
        let FollowUp { first, second, whole } = &self.follow_up;
        let (first, mut second) = (first.clone(), second.clone());
        if self.random.one_in(8) {
            second.push_str(whole);
        }
        self.play(depth, &mut history, &first)?;
        let last = self.harness.last;
        self.play(depth + 1, &mut history, &second)?;
        self.harness.last = last;
        Ok(())
    }
}
