//! Several lives of one drive, as one list of lines: `resume SEED` begins a life, all else is a line of a script. Each life ends at its first cut.
use crate::checker::History;
use crate::chip::Geometry;
use crate::failure::Failure;
use crate::harness::{Harness, Mode, Options};

/// So many comings-up in a row may be cut.
pub const MOST_CUT_RISES: u64 = 3;

#[derive(Clone, Debug)]
pub struct Session {
    pub geometry: Geometry,
    pub mode: Mode,
    pub one_in: u64,
    pub bad: Vec<u32>,
    pub lines: Vec<String>,
}

impl Session {
    /// The lives: each with its seed and its script.
    fn lives(&self) -> Vec<(u64, String)> {
        let mut lives: Vec<(u64, String)> = vec![(0, String::new())];
        for line in &self.lines {
            if let Some(seed) = line.strip_prefix("resume ") {
                lives.push((seed.parse().unwrap_or(0), String::new()));
            } else if let Some((_, script)) = lives.last_mut() {
                script.push_str(line);
                script.push('\n');
            }
        }
        lives.retain(|(_, script)| !script.is_empty());
        lives
    }

    /// Plays all lives on a new chip. What comes after too many comings-up that were cut in a row isn't played.
    pub fn play(&self, harness: &mut Harness) -> Result<History, Failure> {
        let mut history = History::new(self.geometry);
        for (number, (seed, script)) in self.lives().into_iter().enumerate() {
            let fresh = if number == 0 { Some(self.bad.clone()) } else { None };
            let options = Options { mode: self.mode, seed, one_in: self.one_in, fresh, once: true };
            harness.check(&mut history, &script, &options).map_err(|mut failure| {
                failure.plays = vec![(self.describe(number), self.lines.join("\n"))];
                failure
            })?;
            if history.cut_rises() > MOST_CUT_RISES {
                break;
            }
        }
        Ok(history)
    }

    fn describe(&self, life: usize) -> String {
        let Session { geometry, mode, one_in, bad, .. } = self;
        format!("{geometry} {mode:?} one_in {one_in} bad {bad:?}, life {life} of these (`resume SEED` begins one; each ends at its first cut)")
    }
}
