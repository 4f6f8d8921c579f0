//! How much was played, and the most that was asked of the chip at a time.
use crate::checker::Statistics;
use crate::ffi::Report;

#[derive(Clone, Copy, Debug, Default)]
pub struct Totals {
    /// Outputs that were checked.
    pub outputs: u64,
    /// Comings-up that were begun.
    pub lives: u64,
    pub cuts: u64,
    pub told: u64,
    pub sectors_read: u64,
    pub most_rise: u64,
    pub most_turn: u64,
    /// The most turns until a command was told.
    pub most_turns: u64,
}

impl Totals {
    /// Counts a play whose output was checked, by what the checker had counted before it and after.
    pub fn count(&mut self, report: &Report, before: &Statistics, after: &Statistics) {
        self.merge(&Totals {
            outputs: 1,
            lives: after.rises - before.rises,
            cuts: after.cuts - before.cuts,
            told: after.told - before.told,
            sectors_read: after.sectors_read - before.sectors_read,
            most_rise: report.most_rise,
            most_turn: report.most_turn,
            most_turns: after.most_turns,
        });
    }

    pub fn merge(&mut self, other: &Totals) {
        self.outputs += other.outputs;
        self.lives += other.lives;
        self.cuts += other.cuts;
        self.told += other.told;
        self.sectors_read += other.sectors_read;
        self.most_rise = self.most_rise.max(other.most_rise);
        self.most_turn = self.most_turn.max(other.most_turn);
        self.most_turns = self.most_turns.max(other.most_turns);
    }
}

impl std::fmt::Display for Totals {
    fn fmt(&self, f: &mut std::fmt::Formatter<'_>) -> std::fmt::Result {
        write!(f, "{} lives, {} cuts, {} outputs, {} commands told, {} sectors read; ", self.lives, self.cuts, self.outputs, self.told, self.sectors_read)?;
        write!(f, "most asks of a coming-up {}, of a turn {}; most turns of a command {}", self.most_rise, self.most_turn, self.most_turns)
    }
}
