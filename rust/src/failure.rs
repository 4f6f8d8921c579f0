//! Something that wasn't explained, with all that is needed to play it again.
use std::fmt;

#[derive(Clone, Debug)]
pub struct Failure {
    pub what: String,
    /// The line of the script, 0 for none.
    pub line: u64,
    /// The plays that led there, the last one first: how each was played, and its script.
    pub plays: Vec<(String, String)>,
    pub output: String,
}

impl Failure {
    pub fn new(what: impl Into<String>) -> Self {
        Failure { what: what.into(), line: 0, plays: Vec::new(), output: String::new() }
    }

    /// Adds the play before.
    pub fn after(mut self, how: impl Into<String>, script: &str) -> Self {
        self.plays.push((how.into(), script.to_string()));
        self
    }
}

impl fmt::Display for Failure {
    fn fmt(&self, f: &mut fmt::Formatter<'_>) -> fmt::Result {
        writeln!(f, "UNEXPLAINED at line {}: {}", self.line, self.what)?;
        for (how, script) in self.plays.iter().rev() {
            writeln!(f, "--- play: {how}\n{}", script.trim_end())?;
        }
        write!(f, "--- output of the last play\n{}", self.output)
    }
}
