//! A second drive, whose sectors are in memory, for scripts without cuts: what it prints is compared with what the drive prints. Commands end in the order
//! in which they came, one a turn; so scripts must leave time for all commands under way before they ask on.
use crate::chip::Geometry;
use crate::failure::Failure;
use crate::harness::{Harness, Options, MODES};
use crate::random::{mix, Random};
use crate::script::{self, Command};
use std::collections::VecDeque;
use std::fmt::Write;

struct SecondDrive {
    sectors: Vec<u8>,
    queue: VecDeque<Command>,
    output: String,
}

impl SecondDrive {
    fn reason(&self, tag: u8, span: Option<(u32, u32)>) -> u8 {
        let busy = self.queue.iter().any(|command| command.tag() == Some(tag));
        if tag > 7 || busy {
            return 1;
        }
        match span {
            Some((_, many)) if !(1..=8).contains(&many) => 2,
            Some((from, many)) if from as usize + many as usize > self.sectors.len() => 3,
            _ => 0,
        }
    }

    fn ask(&mut self, command: Command) {
        let Some(tag) = command.tag() else { return };
        match self.reason(tag, command.span()) {
            0 => self.queue.push_back(command),
            why => {
                let _ = writeln!(self.output, "refused {tag} {why}");
            }
        }
    }

    /// Ends the command that came first.
    fn turn(&mut self) {
        let Some(command) = self.queue.pop_front() else { return };
        let _ = write!(self.output, "told {}", command.tag().unwrap_or(0));
        let (from, many) = command.span().unwrap_or((0, 0));
        for sector in &mut self.sectors[from as usize..(from + many) as usize] {
            match command {
                Command::Write { fill, .. } => *sector = fill,
                Command::Trim { .. } => *sector = 0,
                _ => {
                    let _ = write!(self.output, " {sector:02x}");
                }
            }
        }
        self.output.push('\n');
    }

    fn line(&mut self, line: &str, number: usize) {
        match script::parse(line) {
            None => {
                let _ = writeln!(self.output, "line {number}?");
            }
            Some(Command::Turn { count }) => (0..count.min(8)).for_each(|_| self.turn()),
            Some(command) => self.ask(command),
        }
    }
}

/// What a script without cuts prints, but for the last line.
pub fn play(script: &str, geometry: Geometry) -> String {
    let mut drive = SecondDrive { sectors: vec![0; geometry.sectors() as usize], queue: VecDeque::new(), output: String::new() };
    script::lines(script).enumerate().for_each(|(i, line)| drive.line(line, i + 1));
    drive.output
}

/// A line of a batch; one in some is refused or no command.
fn random_line(random: &mut Random, sectors: u64) -> String {
    let (tag, many, fill) = (random.below(8), 1 + random.below(8), random.below(256));
    let near = if random.one_in(3) { sectors } else { 40 };
    let from = random.below(near).min(sectors - many);
    match random.below(24) {
        0..=9 => format!("write {tag} {from} {many} {fill:02x}"),
        10..=15 => format!("read {tag} {from} {many}"),
        16..=18 => format!("trim {tag} {from} {many}"),
        19..=20 => format!("flush {tag}"),
        21 => format!("read {tag} {} {many}", sectors + 1 - many),
        22 => format!("trim {} {from} {}", random.below(12), [0, 9, u32::MAX][random.below(3) as usize]),
        _ => format!("write {tag} {from} {many} {fill:x}"),
    }
}

/// A script of batches of up to eight commands, each followed by turns enough to end them.
pub fn random_script(seed: u64, batches: u64, geometry: Geometry) -> String {
    let mut random = Random(seed);
    let mut text = String::new();
    for _ in 0..batches {
        for _ in 0..1 + random.below(8) {
            text += &random_line(&mut random, u64::from(geometry.sectors()));
            text.push('\n');
        }
        text += "turn 4000\n";
    }
    text
}

/// Plays a random script on both drives and compares what they print, line by line.
pub fn compare(number: u64, batches: u64, harness: &mut Harness) -> Result<(), Failure> {
    let geometry = harness.chip.geometry;
    let script = random_script(mix(&[11, number]), batches, geometry);
    let options = Options::fresh(MODES[(number % 3) as usize], number).to_the_end();
    let played = harness.play(&script, &options, false);
    let expected = play(&script, geometry);
    let printed: Vec<&str> = script::lines(&played.output).collect();
    let (last, printed) = printed.split_last().unwrap_or((&"", &[]));
    let wrong = printed.iter().copied().zip(script::lines(&expected)).find(|(a, b)| a != b);
    let how = format!("{geometry} {options:?}");
    if let Some((a, b)) = wrong {
        let failure = Failure::new(format!("the drive prints `{a}`, the second drive `{b}`")).after(how, &script);
        return Err(Failure { output: played.output, ..failure });
    }
    if printed.len() != script::lines(&expected).count() || !last.starts_with("erased ") {
        return Err(Failure { output: played.output, ..Failure::new("the drives print a different number of lines").after(how, &script) });
    }
    harness.totals.outputs += 1;
    harness.totals.lives += 1;
    Ok(())
}

#[cfg(test)]
mod tests {
    use super::*;

    #[test]
    fn a_script_with_all_kinds_of_lines() {
        let script = "write 3 100 2 7a\nread 4 100 2\nflush 4\nturn 20\ntrim 0 100 1\nflush 5\nturn 20\nread 1 100 2\nturn 20\nread 9 0 1\nwrite 1 0 9 00\nread 1 319 2\nturn\n";
        let expected = "refused 4 1\ntold 3\ntold 4 7a 7a\ntold 0\ntold 5\ntold 1 00 7a\nrefused 9 1\nrefused 1 2\nrefused 1 3\nline 13?\n";
        assert_eq!(play(script, Geometry::new(32, 16)), expected);
    }
}
