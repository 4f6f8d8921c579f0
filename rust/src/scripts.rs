//! The scripts in which the power goes at every ask. All are for 32 blocks of 16 pages, which has 320 sectors.
use crate::random::Random;
use crate::script;
use std::fmt::Write;

/// What is played before, the script, what is done at each of its asks, and how often blocks fail.
#[derive(Clone)]
pub struct Case {
    pub name: &'static str,
    pub prefix: String,
    pub script: String,
    /// Whether the coming-up behind each cut is cut at each of its asks too.
    pub every_second: bool,
    pub one_in: u64,
}

impl Case {
    fn new(name: &'static str, prefix: String, script: String) -> Self {
        Case { name, prefix, script, every_second: false, one_in: 0 }
    }

    fn every_second(mut self) -> Self {
        self.every_second = true;
        self
    }

    fn failing(mut self, one_in: u64) -> Self {
        self.one_in = one_in;
        self
    }
}

/// Turns until all commands are told. They are more than a command may take, so that one that isn't told is noticed.
pub const ALL_TOLD: &str = "turn 2000\n";

fn lines(parts: &[&str]) -> String {
    parts.iter().map(|part| format!("{part}\n")).collect()
}

/// Writes all sectors once, each group of eight with another byte, and flushes.
pub fn filled() -> String {
    let mut text = String::new();
    for i in 0..40 {
        let _ = writeln!(text, "write {} {} 8 {:02x}", i % 8, 8 * i, 0x80 + i);
        if i % 8 == 7 {
            text += ALL_TOLD;
        }
    }
    text + "flush 0\nturn 2000\n"
}

/// Fills the drive and overwrites some sectors, so that the oldest records are looked at before each fresh one.
pub fn collecting(seed: u64, writes: u64) -> String {
    let mut random = Random(seed);
    let mut text = filled();
    for i in 0..writes {
        let (tag, from, fill) = (i % 8, random.below(320), random.below(256));
        let _ = writeln!(text, "write {tag} {from} 1 {fill:02x}");
        if i % 8 == 7 {
            text += ALL_TOLD;
        }
    }
    text + "turn 2000\nflush 0\nturn 2000\n"
}

/// Comes up so often again that all free blocks have been taken since: the next that becomes free is the next that is taken.
fn rotated(text: String) -> String {
    text + &"cut 0\nturn 1\n".repeat(12)
}

/// Many short lives.
fn restarted() -> String {
    let mut text = collecting(5, 40);
    for i in 0..12 {
        let _ = writeln!(text, "write 1 {} 2 {:02x}\ncut {}\nturn 9\nread 0 {} 2\nturn 9", 8 * i, 0xc0 + i, 2 + 5 * i, 8 * i);
    }
    text
}

fn first_writes() -> String {
    let mut text = String::new();
    for i in 0..12u32 {
        let _ = writeln!(text, "write {} {} 1 {:02x}\nturn {}", i % 8, i % 5, 0x10 + i, 1 + i % 3);
        if i % 4 == 3 {
            text += "flush 7\nturn 4\nread 6 0 5\nturn 4\n";
        }
    }
    text
}

fn eight_at_once() -> String {
    let mut text = String::new();
    for i in 0..7u32 {
        let _ = writeln!(text, "write 0 {} 8 {:02x}\nwrite 1 {} 8 {:02x}\nturn {}", 4 * i, 0x20 + i, 4 * i + 4, 0x30 + i, 1 + i % 4);
        let _ = writeln!(text, "flush 2\nread 3 {} 8\nturn 12", 4 * i);
    }
    text
}

fn two_tags() -> String {
    let mut text = String::new();
    for i in 0..6u32 {
        let _ = writeln!(text, "write 0 40 1 {:02x}\nwrite 1 40 1 {:02x}\nread 2 40 1\ntrim 3 40 1\nturn {}", 0x40 + i, 0x50 + i, i % 4);
        let _ = writeln!(text, "flush 4\nturn 9\nread 5 40 1\nturn 3");
    }
    text
}

fn trims() -> String {
    let mut text = lines(&["write 0 0 8 61", "write 1 8 8 62", "turn 9", "flush 2", "turn 9"]);
    for i in 0..6u32 {
        let _ = writeln!(text, "trim 0 {} {}\nturn 4\nwrite 1 {} 1 {:02x}\nturn 4", 2 * i, 1 + i % 4, 2 * i + 1, 0x63 + i);
        if i % 2 == 0 {
            text += "flush 2\nturn 4\n";
        }
    }
    text + &lines(&["trim 0 0 8", "trim 1 8 8", "turn 9", "read 2 0 8", "read 3 8 8", "turn 9"])
}

fn flushes_often() -> String {
    let mut text = String::new();
    for i in 0..14u32 {
        let _ = writeln!(text, "write 0 {} 1 {:02x}\nflush 1\nturn 5", i % 3, 0x70 + i);
    }
    text + "read 0 0 3\nturn 5\n"
}

fn flushes_never() -> String {
    let mut text = String::new();
    for i in 0..24u32 {
        let _ = writeln!(text, "write {} {} 2 {:02x}", i % 8, i % 7, 0x90 + i);
        if i % 5 == 4 {
            text += "turn 9\n";
        }
    }
    text + "turn 2000\nread 0 0 8\nturn 9\nflush 1\nturn 9\n"
}

/// Seals at the last page of a block and at the first of the next.
fn block_ends(step: u32) -> String {
    let mut text = String::new();
    for i in 0..22u32 {
        let _ = writeln!(text, "write 0 {} 1 {:02x}\nturn 2", i % 6, 0xa0 + i);
        if i % step == step - 1 {
            text += "flush 1\nturn 2\n";
        }
    }
    text
}

fn reads_between() -> String {
    let mut text = String::new();
    for i in 0..6u32 {
        let _ = writeln!(text, "write 0 {i} 4 {:02x}\nread 1 {i} 8\nwrite 2 {} 4 {:02x}\nread 3 {i} 8\nturn 2", 0xb0 + i, i + 2, 0xc0 + i);
        let _ = writeln!(text, "flush 4\nread 5 {i} 4\nturn 9");
    }
    text
}

/// Single sectors, overwritten again and again.
fn collecting_singles() -> String {
    let mut text = String::new();
    for i in 0..13u32 {
        let _ = writeln!(text, "write 0 {} 1 {:02x}\nturn 8", (37 * i) % 48, 0xd0 + i);
        if i % 3 == 2 {
            text += "flush 1\nturn 8\n";
        }
    }
    text
}

fn collecting_eights() -> String {
    let mut text = String::new();
    for i in 0..5u32 {
        let _ = writeln!(text, "write 0 {} 8 {:02x}\nturn 3\nwrite 1 {} 8 {:02x}\nread 2 {} 8\nturn 30", 16 * i, 0xe0 + i, 16 * i + 4, 0xf0 + i, 16 * i);
        text += "flush 3\nturn 9\n";
    }
    text
}

fn collecting_trims() -> String {
    let mut text = String::new();
    for i in 0..7u32 {
        let _ = writeln!(text, "trim 0 {} 3\nwrite 1 {} 2 {:02x}\nturn 20\nflush 2\nturn 9", 5 * i, 5 * i + 2, 0x18 + i);
    }
    text
}

/// All of them.
pub fn cases() -> Vec<Case> {
    let none = String::new;
    vec![
        Case::new("block ends, collecting", collecting(3, 30), block_ends(7)).every_second(),
        Case::new("collecting singles", rotated(collecting(1, 12)), collecting_singles()).every_second(),
        Case::new("collecting, failing", rotated(collecting(6, 95)), collecting_singles()).failing(12).every_second(),
        Case::new("block ends", none(), block_ends(5)).every_second(),
        Case::new("collecting eights", rotated(collecting(2, 70)), collecting_eights()),
        Case::new("collecting trims", rotated(collecting(4, 16)), collecting_trims()),
        Case::new("restarted", restarted(), collecting_singles()),
        Case::new("failing", none(), block_ends(4)).failing(8),
        Case::new("first writes", none(), first_writes()),
        Case::new("eight at once", none(), eight_at_once()),
        Case::new("two tags", filled(), two_tags()),
        Case::new("trims", none(), trims()),
        Case::new("flushes often", none(), flushes_often()),
        Case::new("flushes never", filled(), flushes_never()),
        Case::new("reads between", none(), reads_between()),
    ]
}

/// Reads of these sectors, up to eight at a time under eight tags, each told before the next.
pub fn reads(sectors: &[u32]) -> String {
    let mut text = String::new();
    let (mut at, mut tag) = (0, 0);
    while at < sectors.len() {
        let mut many = 1;
        while many < 8 && sectors.get(at + many) == Some(&(sectors[at] + many as u32)) {
            many += 1;
        }
        let _ = writeln!(text, "read {tag} {} {many}", sectors[at]);
        at += many;
        tag = (tag + 1) % 8;
        if tag == 0 || at == sectors.len() {
            text += ALL_TOLD;
        }
    }
    text
}

/// The sectors that the commands of a script name.
pub fn named(text: &str) -> Vec<u32> {
    let mut sectors: Vec<u32> = Vec::new();
    for line in script::lines(text) {
        if let Some((from, many)) = script::parse(line).and_then(script::Command::span) {
            sectors.extend(from..from + many);
        }
    }
    sectors.sort_unstable();
    sectors.dedup();
    sectors
}

#[cfg(test)]
mod tests {
    use super::*;

    #[test]
    fn scripts_are_of_commands_and_not_long() {
        for case in cases() {
            let count = script::lines(&case.script).count();
            assert!((30..=60).contains(&count), "{} has {count} lines", case.name);
            for line in script::lines(&case.script).chain(script::lines(&case.prefix)) {
                assert!(script::parse(line).is_some(), "{}: {line}", case.name);
            }
        }
    }

    #[test]
    fn sectors_are_read_in_groups() {
        assert_eq!(reads(&[3, 4, 5, 9]), "read 0 3 3\nread 1 9 1\nturn 2000\n");
        assert_eq!(named("write 0 3 2 07\ntrim 0 9 1\nflush 1\nread 0 4 1"), [3, 4, 9]);
    }
}
