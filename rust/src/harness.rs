//! A chip with all that plays scripts on it and checks what they print.
use crate::checker::{End, History};
use crate::chip::{Chip, Geometry};
use crate::failure::Failure;
use crate::ffi::{self, Report, Setup};
use crate::totals::Totals;

/// How the chip in memory chooses what comes.
#[derive(Clone, Copy, PartialEq, Eq, Debug)]
pub enum Mode {
    Plain,
    Random,
    Adversarial,
}

pub const MODES: [Mode; 3] = [Mode::Plain, Mode::Random, Mode::Adversarial];

/// How a script is to be played.
#[derive(Clone, Debug)]
pub struct Options {
    pub mode: Mode,
    pub seed: u64,
    /// One programming or erasing in so many fails, where that is allowed; 0 for the usual.
    pub one_in: u64,
    /// The bad blocks of a new chip; none where the chip is resumed.
    pub fresh: Option<Vec<u32>>,
    /// Whether the play ends at the first cut.
    pub once: bool,
}

impl Options {
    /// On a new chip without bad blocks.
    pub fn fresh(mode: Mode, seed: u64) -> Self {
        Options { mode, seed, one_in: 0, fresh: Some(Vec::new()), once: true }
    }

    /// On the chip as it is.
    pub fn resume(mode: Mode, seed: u64) -> Self {
        Options { mode, seed, one_in: 0, fresh: None, once: true }
    }

    pub fn failing(mut self, one_in: u64) -> Self {
        self.one_in = one_in;
        self
    }

    pub fn to_the_end(mut self) -> Self {
        self.once = false;
        self
    }
}

/// What a play printed.
pub struct Played {
    pub end: End,
    pub output: String,
    pub report: Report,
}

/// A chip, what is lent to a drive on it, and how much was checked.
pub struct Harness {
    pub chip: Chip,
    room: Vec<u8>,
    out: Vec<u8>,
    /// What was told of the last play that was checked.
    pub last: Report,
    pub totals: Totals,
}

impl Harness {
    pub fn new(geometry: Geometry) -> Self {
        Harness { chip: Chip::new(geometry), room: vec![0; geometry.room()], out: Vec::new(), last: Report::default(), totals: Totals::default() }
    }

    /// Plays a script.
    pub fn play(&mut self, script: &str, options: &Options, trace: bool) -> Played {
        let Geometry { blocks, pages } = self.chip.geometry;
        let (mode, fresh) = (options.mode as u32, options.fresh.is_some());
        let setup = Setup { seed: options.seed, one_in: options.one_in, blocks, pages, mode, fresh, once: options.once, trace };
        let bad = options.fresh.as_deref().unwrap_or(&[]);
        let lines = script.bytes().filter(|b| *b == b'\n').count();
        self.out.resize(4096 + 160 * lines, 0);
        let (status, report) = ffi::play(script, &mut self.chip, bad, &mut self.room, &mut self.out, &setup);
        let end = match status {
            0 => End::Whole,
            1 => End::AtCut,
            other => panic!("play says {other} on {blocks}x{pages}"),
        };
        let output = String::from_utf8_lossy(&self.out[..report.printed as usize]).into_owned();
        Played { end, output, report }
    }

    /// Plays a script and checks what it prints, as the next life of a drive.
    pub fn check(&mut self, history: &mut History, script: &str, options: &Options) -> Result<End, Failure> {
        let before = history.statistics();
        let played = self.play(script, options, true);
        let result = history.check(script, &played.output, played.end).map_err(|found| (found.line, found.what));
        let result = result.and_then(|()| within_bounds(self.chip.geometry, &played.report).map_err(|what| (0, what)));
        if let Err((line, what)) = result {
            let how = format!("{} {options:?}", self.chip.geometry);
            return Err(Failure { what, line, plays: vec![(how, script.to_string())], output: played.output });
        }
        self.last = played.report;
        self.totals.count(&played.report, &before, &history.statistics());
        Ok(played.end)
    }
}

/// The most that a turn and a coming-up may ask.
fn within_bounds(geometry: Geometry, report: &Report) -> Result<(), String> {
    let most_rise = 16 * u64::from(geometry.blocks) + 65_536;
    if report.most_turn > 64 {
        return Err(format!("a turn asked {} times", report.most_turn));
    }
    if report.most_rise > most_rise {
        return Err(format!("a coming-up asked {} times", report.most_rise));
    }
    Ok(())
}
