//! Whether what a drive told can be explained by sectors that held one content after another. Knows nothing of how the drive works.
//!
//! Sectors don't depend on each other: commands take them one by one in any order, and a cut leaves each a content for itself. So it is enough to keep, for
//! each sector, all states that explain what was told of it.
use crate::chip::Geometry;
use crate::script::{self, Command};
use crate::sector::{Access, Sector};
use crate::trace::{self, Cursor, Event, Shown};
use std::collections::BTreeMap;

/// A command is told within so many turns.
pub const MOST_TURNS: u64 = 1024;
/// The work of a coming-up.
const RISE_WORK: u64 = 256;

/// How a play ended.
#[derive(Clone, Copy, PartialEq, Eq, Debug)]
pub enum End {
    /// All lines were played.
    Whole,
    /// At the first cut.
    AtCut,
}

/// What can't be explained, and at which line of the script.
#[derive(Clone, PartialEq, Eq, Debug)]
pub struct Unexplained {
    pub line: u64,
    pub what: String,
}

/// How much was checked.
#[derive(Clone, Copy, PartialEq, Eq, Debug, Default)]
pub struct Statistics {
    pub rises: u64,
    pub cuts: u64,
    pub told: u64,
    pub refused: u64,
    pub sectors_read: u64,
    /// The most turns until a command was told.
    pub most_turns: u64,
}

/// A command under way, and how many turns its life had had when it was asked.
#[derive(Clone, Copy, Debug)]
struct Pending {
    command: Command,
    asked: u64,
}

/// All that was seen of one drive, over any number of plays.
#[derive(Clone)]
pub struct History {
    geometry: Geometry,
    /// What each sector holds, if it isn't among those that are open.
    settled: Vec<u8>,
    /// Sectors that commands name, or whose content isn't certain.
    open: BTreeMap<u32, Sector>,
    pending: [Option<Pending>; 8],
    up: bool,
    turns: u64,
    work: u64,
    cut_rises: u64,
    statistics: Statistics,
}

fn work_of(command: Command) -> u64 {
    match command {
        Command::Write { many, .. } | Command::Trim { many, .. } => u64::from(many),
        Command::Flush { .. } => 1,
        _ => 0,
    }
}

impl History {
    /// Of a drive on a new chip.
    pub fn new(geometry: Geometry) -> Self {
        History {
            geometry,
            settled: vec![0; geometry.sectors() as usize],
            open: BTreeMap::new(),
            pending: [None; 8],
            up: false,
            turns: 0,
            work: 0,
            cut_rises: 0,
            statistics: Statistics::default(),
        }
    }

    pub fn statistics(&self) -> Statistics {
        self.statistics
    }

    /// The work that was done.
    pub fn work(&self) -> u64 {
        self.work
    }

    /// How many comings-up in a row were cut last.
    pub fn cut_rises(&self) -> u64 {
        self.cut_rises
    }

    /// Whether the drive may be worn out.
    fn may_be_worn(&self) -> bool {
        self.work >= self.geometry.most_work()
    }

    /// Checks a play of a script: its traced output, and how it ended. Where there was one before, it is a new life of the same drive.
    pub fn check(&mut self, script: &str, output: &str, end: End) -> Result<(), Unexplained> {
        let at = |line: u64| move |what: String| Unexplained { line, what };
        let cuts = self.statistics.cuts;
        self.cut();
        let events = trace::events(output).map_err(at(0))?;
        let mut cursor = Cursor { left: &events, at_cut: end == End::AtCut };
        for (line, number) in script::lines(script).zip(1u64..) {
            if self.statistics.cuts > cuts && cursor.has_ended() {
                return Ok(());
            }
            self.play_line(script::parse(line), number, &mut cursor).map_err(at(number))?;
        }
        match (cursor.left, end) {
            ([Event::Erased], End::Whole) => Ok(()),
            ([] | [Event::Erased], End::AtCut) if self.statistics.cuts > cuts => Ok(()),
            (rest, _) => Err(at(0)(format!("at the end: {:?}", rest.first()))),
        }
    }

    /// One line of the script, and all that was printed for it.
    fn play_line(&mut self, command: Option<Command>, number: u64, cursor: &mut Cursor) -> Result<(), String> {
        if cursor.peek() != Some(&Event::Line(number)) {
            return Err(format!("the line isn't played; there is {:?}", cursor.peek()));
        }
        cursor.skip();
        match command {
            None => cursor.expect(&Event::Unknown(number))?,
            Some(Command::Seed) => {}
            Some(Command::Cut { asks }) => {
                if asks == 0 {
                    cursor.expect(&Event::Cut { turn: None })?;
                    self.lose_power();
                }
            }
            Some(Command::Turn { count }) => self.play_turns(count, cursor)?,
            Some(command) => self.play_command(command, command.tag().unwrap_or(u8::MAX), cursor)?,
        }
        match cursor.peek() {
            None | Some(Event::Line(_) | Event::Erased) => Ok(()),
            Some(event) => Err(format!("nothing explains {event:?}")),
        }
    }

    /// The drive comes up, if it isn't up; false if the play ends at a cut meanwhile.
    fn come_up(&mut self, cursor: &mut Cursor) -> bool {
        while !self.up {
            self.work += RISE_WORK;
            self.statistics.rises += 1;
            if cursor.peek() != Some(&Event::Cut { turn: None }) {
                self.up = true;
                self.cut_rises = 0;
                break;
            }
            cursor.skip();
            self.lose_power();
            self.cut_rises += 1;
            if cursor.has_ended() {
                return false;
            }
        }
        true
    }

    /// The power goes, as was printed.
    fn lose_power(&mut self) {
        self.statistics.cuts += 1;
        self.cut();
    }

    /// A life ends: each sector holds one content that a cut may leave, and nothing is under way.
    fn cut(&mut self) {
        self.pending = [None; 8];
        self.up = false;
        self.turns = 0;
        let numbers: Vec<u32> = self.open.keys().copied().collect();
        for number in numbers {
            self.open.get_mut(&number).expect("open").cut();
            self.settle(number);
        }
    }

    /// Keeps nothing but a byte of a sector whose content is certain.
    fn settle(&mut self, number: u32) {
        if let Some(byte) = self.open.get(&number).and_then(Sector::settled) {
            self.settled[number as usize] = byte;
            self.open.remove(&number);
        }
    }
}

/// Commands.
impl History {
    /// Why a command has to be refused, 0 if it hasn't.
    fn reason(&self, command: Command, tag: u8) -> u8 {
        if tag > 7 || self.pending[usize::from(tag)].is_some() {
            return 1;
        }
        match command.span() {
            Some((_, many)) if many == 0 || many > 8 => 2,
            Some((from, many)) if u64::from(from) + u64::from(many) > u64::from(self.geometry.sectors()) => 3,
            _ => 0,
        }
    }

    fn play_command(&mut self, command: Command, tag: u8, cursor: &mut Cursor) -> Result<(), String> {
        if !self.come_up(cursor) {
            return Ok(());
        }
        let reason = self.reason(command, tag);
        if let Some(&Event::Refused { tag: named, why }) = cursor.peek() {
            cursor.skip();
            self.statistics.refused += 1;
            let worn = why == 4 && reason == 0 && command.is_change() && self.may_be_worn();
            if named != tag || (why != reason && !worn) || why == 0 {
                return Err(format!("refused {named} {why}, where {reason} applies after work of {}", self.work));
            }
            return Ok(());
        }
        if reason != 0 {
            return Err(format!("it should be refused by {reason}"));
        }
        self.begin(command, tag, cursor);
        Ok(())
    }

    /// A command is accepted.
    fn begin(&mut self, command: Command, tag: u8, cursor: &Cursor) {
        self.work += work_of(command);
        let (from, many) = command.span().unwrap_or((0, 0));
        for i in 0..many {
            let access = match command {
                Command::Write { fill, .. } => Some(Access::Write(fill)),
                Command::Trim { .. } => Some(Access::Write(0)),
                _ => cursor.foretold(tag).and_then(|shown| *shown.get(i as usize)?).map(Access::Read),
            };
            if let Some(access) = access {
                self.open(from + i).begin(tag, access);
            }
        }
        if command.is_flush() {
            self.open.values_mut().for_each(|sector| sector.begin_flush(tag));
        }
        self.pending[usize::from(tag)] = Some(Pending { command, asked: self.turns });
    }

    /// A sector as one of those that are open.
    fn open(&mut self, number: u32) -> &mut Sector {
        let present = self.settled[number as usize];
        let flushes = self.pending.iter().flatten().filter(|p| p.command.is_flush()).filter_map(|p| p.command.tag());
        self.open.entry(number).or_insert_with(|| Sector::new(present, flushes))
    }
}

/// Turns.
impl History {
    fn play_turns(&mut self, count: u32, cursor: &mut Cursor) -> Result<(), String> {
        let mut left = u64::from(count);
        while left > 0 {
            if !self.come_up(cursor) {
                return Ok(());
            }
            let before = self.turns;
            let goes_on = self.play_until_cut(left, cursor)?;
            left -= (self.turns - before).min(left);
            if !goes_on {
                self.lose_power();
                if cursor.has_ended() {
                    return Ok(());
                }
                continue;
            }
            return self.end_turns(left);
        }
        Ok(())
    }

    /// What was told in so many turns; false where the power goes, before what that leaves is noted.
    fn play_until_cut(&mut self, most: u64, cursor: &mut Cursor) -> Result<bool, String> {
        let last = self.turns + most;
        loop {
            let turn = match cursor.peek() {
                Some(Event::Told { turn, .. } | Event::Cut { turn: Some(turn) }) => *turn,
                _ => return Ok(true),
            };
            if turn <= self.turns || turn > last {
                return Err(format!("turn {turn} after turn {}, of {most} turns", self.turns));
            }
            self.turns = turn;
            let event = cursor.peek();
            cursor.skip();
            match event {
                Some(Event::Told { tag, shown, .. }) => self.tell(*tag, shown)?,
                _ => return Ok(false),
            }
        }
    }

    /// The turns that are left in a line, in which nothing was told. One where nothing is under way is the line's last.
    fn end_turns(&mut self, left: u64) -> Result<(), String> {
        let idle = self.pending.iter().all(Option::is_none);
        self.turns += if idle { left.min(1) } else { left };
        let oldest = self.pending.iter().flatten().map(|p| p.asked).min().unwrap_or(self.turns);
        let age = self.turns - oldest;
        if age > MOST_TURNS && !self.may_be_worn() {
            return Err(format!("a command isn't told after {age} turns"));
        }
        Ok(())
    }

    /// A command is told.
    fn tell(&mut self, tag: u8, shown: &[Shown]) -> Result<(), String> {
        let pending = self.pending.get_mut(usize::from(tag)).and_then(Option::take);
        let Some(Pending { command, asked }) = pending else {
            return Err(format!("told {tag}, which isn't under way"));
        };
        let age = self.turns.saturating_sub(asked);
        if age > MOST_TURNS && !self.may_be_worn() {
            return Err(format!("told {tag} after {age} turns"));
        }
        self.statistics.most_turns = self.statistics.most_turns.max(age);
        self.statistics.told += 1;
        if command.is_flush() {
            self.end_flush(tag);
        }
        let (from, many) = command.span().unwrap_or((0, 0));
        let is_read = matches!(command, Command::Read { .. });
        if shown.len() != if is_read { many as usize } else { 0 } {
            return Err(format!("told {tag} with {} sectors", shown.len()));
        }
        if shown.contains(&None) {
            return Err(format!("told {tag} with a sector that is mixed"));
        }
        self.statistics.sectors_read += shown.len() as u64;
        (0..many).try_for_each(|i| self.end_sector(from + i, tag, shown.get(i as usize).copied().flatten()))
    }

    fn end_flush(&mut self, tag: u8) {
        let numbers: Vec<u32> = self.open.keys().copied().collect();
        for number in numbers {
            self.open.get_mut(&number).expect("open").end_flush(tag);
            self.settle(number);
        }
    }

    /// A command that names a sector is told, and told this byte of it if it is a read.
    fn end_sector(&mut self, number: u32, tag: u8, shown: Option<u8>) -> Result<(), String> {
        let sector = self.open.get_mut(&number).expect("a sector that a command names is open");
        let before = sector.possible();
        if !sector.end(tag) {
            let told = shown.map_or("nothing".to_string(), |byte| format!("{byte:02x}"));
            return Err(format!("told {tag} of sector {number}: {told}, but it may hold {before:02x?} only"));
        }
        self.settle(number);
        Ok(())
    }
}

#[cfg(test)]
#[path = "checker_tests.rs"]
mod tests;
