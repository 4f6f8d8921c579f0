//! What a play with a trace printed, as events.
use crate::script::byte;

/// What a read told of a sector: its byte, or none where its bytes aren't all the same.
pub type Shown = Option<u8>;

#[derive(Clone, PartialEq, Eq, Debug)]
pub enum Event {
    /// The line with this number is played from here on.
    Line(u64),
    /// A command has ended, in the turn with this number of its life.
    Told { turn: u64, tag: u8, shown: Vec<Shown> },
    Refused { tag: u8, why: u8 },
    /// The power went, in a turn or elsewhere.
    Cut { turn: Option<u64> },
    /// A line that is no command.
    Unknown(u64),
    Erased,
}

fn shown(word: &str) -> Option<Shown> {
    if word == "mixed" { Some(None) } else { byte(word).map(Some) }
}

fn told(turn: Option<u64>, words: &[&str]) -> Option<Event> {
    let (tag, rest) = words.split_first()?;
    let shown = rest.iter().map(|word| shown(word)).collect::<Option<Vec<Shown>>>()?;
    Some(Event::Told { turn: turn?, tag: tag.parse().ok()?, shown })
}

/// The event of a line that isn't about a turn.
fn event(turn: Option<u64>, line: &str) -> Option<Event> {
    let words: Vec<&str> = line.split(' ').collect();
    match words[..] {
        ["#", "line", n] => Some(Event::Line(n.parse().ok()?)),
        ["told", ..] => told(turn, &words[1..]),
        ["refused", tag, why] => Some(Event::Refused { tag: tag.parse().ok()?, why: why.parse().ok()? }),
        ["cut"] => Some(Event::Cut { turn }),
        ["line", n] => Some(Event::Unknown(n.strip_suffix('?')?.parse().ok()?)),
        ["erased", least, most] => least.parse::<u32>().and(most.parse::<u32>()).ok().map(|_| Event::Erased),
        _ => None,
    }
}

/// The events of an output, or the line that is none. Each turn that is named has one event.
pub fn events(output: &str) -> Result<Vec<Event>, String> {
    let mut found = Vec::new();
    let mut turn = None;
    for line in crate::script::lines(output) {
        if let Some(number) = line.strip_prefix("# turn ") {
            if turn.is_some() {
                return Err("a turn is named that prints nothing".to_string());
            }
            turn = Some(number.parse().map_err(|_| format!("printed: {line}"))?);
            continue;
        }
        found.push(event(turn.take(), line).ok_or_else(|| format!("printed: {line}"))?);
    }
    Ok(found)
}

/// The events of a play, one by one.
pub struct Cursor<'a> {
    pub left: &'a [Event],
    /// Whether the play ended at its first cut.
    pub at_cut: bool,
}

impl<'a> Cursor<'a> {
    pub fn peek(&self) -> Option<&'a Event> {
        self.left.first()
    }

    pub fn skip(&mut self) {
        self.left = &self.left[1..];
    }

    /// Skips an event that has to come next.
    pub fn expect(&mut self, event: &Event) -> Result<(), String> {
        if self.peek() != Some(event) {
            return Err(format!("{event:?} should be printed, not {:?}", self.peek()));
        }
        self.skip();
        Ok(())
    }

    /// Whether the play has ended at the cut that was just seen.
    pub fn has_ended(&self) -> bool {
        self.at_cut && matches!(self.left, [] | [Event::Erased])
    }

    /// What a command under this tag will tell in this life, if it is told.
    pub fn foretold(&self, tag: u8) -> Option<&'a [Shown]> {
        let mut life = self.left.iter().take_while(|event| !matches!(event, Event::Cut { .. }));
        life.find_map(|event| match event {
            Event::Told { tag: other, shown, .. } if *other == tag => Some(&shown[..]),
            _ => None,
        })
    }
}

#[cfg(test)]
mod tests {
    use super::*;

    #[test]
    fn all_kinds() {
        let output = "# line 1\n# turn 3\ntold 4 7a mixed\nrefused 1 2\n# turn 4\ncut\ncut\nline 7?\nerased 1 2\n";
        let expected = vec![
            Event::Line(1),
            Event::Told { turn: 3, tag: 4, shown: vec![Some(0x7a), None] },
            Event::Refused { tag: 1, why: 2 },
            Event::Cut { turn: Some(4) },
            Event::Cut { turn: None },
            Event::Unknown(7),
            Event::Erased,
        ];
        assert_eq!(events(output), Ok(expected));
    }

    #[test]
    fn what_is_no_event() {
        assert!(events("hello\n").is_err());
        assert!(events("told 4 7a\n").is_err());
        assert!(events("# turn 3\n# turn 4\ntold 4\n").is_err());
    }
}
