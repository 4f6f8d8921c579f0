//! Random sessions: all commands under eight tags, cuts anywhere, failing blocks, on chips of several sizes.
use crate::chip::Geometry;
use crate::failure::Failure;
use crate::harness::{Harness, Mode, MODES};
use crate::random::{mix, Random};
use crate::session::{Session, MOST_CUT_RISES};
use crate::shrink::shrink;
use std::time::Duration;

const GEOMETRIES: [(u32, u32); 10] =
    [(32, 16), (33, 24), (48, 16), (32, 16), (64, 256), (32, 16), (33, 24), (48, 16), (32, 16), (256, 64)];

/// How many lives a session has at most, those that end while coming up aside.
const LIVES: u64 = 24;

/// Writes the lines of a session.
struct Writer {
    random: Random,
    lines: Vec<String>,
    sectors: u32,
    /// Sectors that most commands begin at.
    favourites: Vec<u32>,
    seeds: bool,
}

impl Writer {
    fn line(&mut self, line: String) {
        self.lines.push(line);
    }

    fn many(&mut self) -> u32 {
        match self.random.below(8) {
            0..=3 => 1,
            4 => 8,
            _ => 1 + self.random.below(8) as u32,
        }
    }

    /// So many sectors from here on are there.
    fn from(&mut self, many: u32) -> u32 {
        let at = self.random.below(self.favourites.len() as u64) as usize;
        let anywhere = self.random.below(u64::from(self.sectors)) as u32;
        let from = if self.random.one_in(4) { anywhere } else { self.favourites[at] };
        from.min(self.sectors - many)
    }

    fn command(&mut self) {
        let (tag, many, fill) = (self.random.below(8), self.many(), self.random.below(256));
        let from = self.from(many);
        let line = match self.random.below(40) {
            0..=15 => format!("write {tag} {from} {many} {fill:02x}"),
            16..=20 => format!("read {tag} {from} {many}"),
            21..=23 => format!("trim {tag} {from} {many}"),
            24..=27 => format!("flush {tag}"),
            28..=38 => format!("turn {}", [0, 1, 1, 2, 3, 5, 9, 20, 60, 2000][self.random.below(10) as usize]),
            _ => self.odd_line(tag, from),
        };
        self.line(line);
    }

    /// Lines that are refused or no commands, and seeds.
    fn odd_line(&mut self, tag: u64, from: u32) -> String {
        let sectors = self.sectors;
        match self.random.below(8) {
            0 => format!("read {} {from} 1", 8 + tag),
            1 => format!("write {tag} {from} 0 01"),
            2 => format!("trim {tag} {from} 9"),
            3 => format!("write {tag} {} 8 02", sectors - 7),
            4 => format!("read {tag} {sectors} 1"),
            5 => "write 0 1 2".to_string(),
            6 if self.seeds => format!("seed {}", self.random.below(1 << 32)),
            _ => String::new(),
        }
    }

    /// Reads of the favourites, until they are told.
    fn read_favourites(&mut self) {
        for (i, from) in self.favourites.clone().into_iter().enumerate() {
            self.line(format!("read {} {} 8", i % 8, from.min(self.sectors - 8)));
            if i % 8 == 7 || i + 1 == self.favourites.len() {
                self.line("turn 2000".to_string());
            }
        }
    }

    /// Writes all sectors, and some of them again anywhere, so that from then on the oldest records are looked at and many have to be copied.
    fn fill(&mut self) {
        let (groups, commands) = (self.sectors / 8, self.sectors / 8 * 14 / 10);
        for i in 0..commands {
            let anywhere = self.random.below(u64::from(self.sectors - 7)) as u32;
            let from = if i < groups { 8 * i } else { anywhere };
            let fill = self.random.below(256);
            self.line(format!("write {} {from} 8 {fill:02x}", i % 8));
            if i % 8 == 7 || i + 1 == commands {
                self.line("turn 2000".to_string());
            }
        }
        self.line("flush 0".to_string());
        self.line("turn 2000".to_string());
    }

    fn resume(&mut self) {
        let seed = self.random.next() >> 1;
        self.line(format!("resume {seed}"));
    }

    /// A life that comes up and is cut somewhere later.
    fn life(&mut self) {
        self.resume();
        self.line("turn 1".to_string());
        if !self.random.one_in(3) {
            self.read_favourites();
        }
        let commands = 4 + self.random.below(40);
        let cut_at = self.random.below(commands);
        for i in 0..commands {
            if i == cut_at {
                let asks = if self.random.one_in(10) { 0 } else { 1 + self.random.below([6, 40, 300][i as usize % 3]) };
                self.line(format!("cut {asks}"));
            }
            self.command();
        }
        self.line("turn 2000".to_string());
    }

    /// A life that is cut while it comes up, if it asks so often.
    fn cut_rise(&mut self, most: u64) {
        self.resume();
        let asks = 1 + self.random.below(most);
        self.line(format!("cut {asks}"));
        self.line("turn 1".to_string());
    }
}

/// The session with this number.
pub fn session(number: u64) -> Session {
    let mut random = Random(mix(&[7, number]));
    let (blocks, pages) = GEOMETRIES[(number % 10) as usize];
    let geometry = Geometry::new(blocks, pages);
    let mode = MODES[(number / 10 % 3) as usize];
    let one_in = [0, 0, 200, 20][random.below(4) as usize];
    let bad = if random.one_in(2) { Vec::new() } else { (0..blocks / 16).map(|_| random.below(u64::from(blocks)) as u32).collect() };
    let sectors = geometry.sectors();
    let favourites = (0..1 + random.below(6)).map(|_| random.below(u64::from(sectors)) as u32).collect();
    let mut writer = Writer { random, lines: Vec::new(), sectors, favourites, seeds: mode != Mode::Plain };
    writer.resume();
    if !writer.random.one_in(3) {
        writer.fill();
    }
    let most = u64::from(3 * blocks + 3 * pages);
    for _ in 0..1 + writer.random.below(LIVES) {
        writer.life();
        let cuts = writer.random.below(2 * (MOST_CUT_RISES + 1)).saturating_sub(MOST_CUT_RISES + 1);
        (0..=cuts).skip(1).for_each(|_| writer.cut_rise(most));
    }
    writer.resume();
    writer.line("turn 1".to_string());
    writer.read_favourites();
    Session { geometry, mode, one_in, bad, lines: writer.lines }
}

/// Chips of all sizes that were needed so far.
#[derive(Default)]
pub struct Harnesses(Vec<Harness>);

impl Harnesses {
    pub fn of(&mut self, geometry: Geometry) -> &mut Harness {
        let at = self.0.iter().position(|h| h.chip.geometry == geometry).unwrap_or_else(|| {
            self.0.push(Harness::new(geometry));
            self.0.len() - 1
        });
        &mut self.0[at]
    }

    pub fn iter(&self) -> impl Iterator<Item = &Harness> {
        self.0.iter()
    }
}

/// Plays a session, and says how many lives it had; if it fails, with the shortest list of lines found in some time that still fails.
pub fn play(number: u64, harnesses: &mut Harnesses, time: Duration) -> Result<u64, Failure> {
    let session = session(number);
    let harness = harnesses.of(session.geometry);
    match session.play(harness) {
        Ok(history) => Ok(history.statistics().rises),
        Err(failure) => {
            let mut short = session.clone();
            short.lines = shrink(&session.lines, time, |lines| {
                let shorter = Session { lines: lines.to_vec(), ..session.clone() };
                shorter.play(harness).is_err()
            });
            let mut shortest = short.play(harness).err().unwrap_or(failure);
            shortest.what = format!("session {number}: {}", shortest.what);
            Err(shortest)
        }
    }
}
