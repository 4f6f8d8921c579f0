//! The lines of a script.

/// What a line asks.
#[derive(Clone, Copy, PartialEq, Eq, Debug)]
pub enum Command {
    Write { tag: u8, from: u32, many: u32, fill: u8 },
    Read { tag: u8, from: u32, many: u32 },
    Trim { tag: u8, from: u32, many: u32 },
    Flush { tag: u8 },
    Turn { count: u32 },
    Cut { asks: u32 },
    Seed,
}

impl Command {
    /// The tag of what is asked of the drive; none for other lines.
    pub fn tag(self) -> Option<u8> {
        match self {
            Command::Write { tag, .. } | Command::Read { tag, .. } | Command::Trim { tag, .. } | Command::Flush { tag } => Some(tag),
            _ => None,
        }
    }

    /// The sectors that it names: the first, and how many.
    pub fn span(self) -> Option<(u32, u32)> {
        match self {
            Command::Write { from, many, .. } | Command::Read { from, many, .. } | Command::Trim { from, many, .. } => Some((from, many)),
            _ => None,
        }
    }

    /// Whether it changes what sectors hold.
    pub fn is_change(self) -> bool {
        matches!(self, Command::Write { .. } | Command::Trim { .. })
    }

    pub fn is_flush(self) -> bool {
        matches!(self, Command::Flush { .. })
    }
}

/// The lines; what stands behind the last line break is a line if it isn't empty.
pub fn lines(script: &str) -> impl Iterator<Item = &str> {
    script.strip_suffix('\n').unwrap_or(script).split('\n').take(if script.is_empty() { 0 } else { usize::MAX })
}

/// A decimal number without noughts in front, below 4,294,967,296.
fn number(word: &str) -> Option<u32> {
    let plain = !word.is_empty() && word.bytes().all(|b| b.is_ascii_digit()) && (word == "0" || !word.starts_with('0'));
    if plain { word.parse().ok() } else { None }
}

fn tag(word: &str) -> Option<u8> {
    u8::try_from(number(word)?).ok()
}

/// Two small hexadecimal digits.
pub fn byte(word: &str) -> Option<u8> {
    let plain = word.len() == 2 && word.bytes().all(|b| matches!(b, b'0'..=b'9' | b'a'..=b'f'));
    if plain { u8::from_str_radix(word, 16).ok() } else { None }
}

/// The command of a line, if it is one.
pub fn parse(line: &str) -> Option<Command> {
    let words: Vec<&str> = line.split(' ').collect();
    Some(match words[..] {
        ["write", t, from, many, fill] => Command::Write { tag: tag(t)?, from: number(from)?, many: number(many)?, fill: byte(fill)? },
        ["read", t, from, many] => Command::Read { tag: tag(t)?, from: number(from)?, many: number(many)? },
        ["trim", t, from, many] => Command::Trim { tag: tag(t)?, from: number(from)?, many: number(many)? },
        ["flush", t] => Command::Flush { tag: tag(t)? },
        ["turn", count] => Command::Turn { count: number(count)? },
        ["cut", asks] => Command::Cut { asks: number(asks)? },
        ["seed", seed] => number(seed).map(|_| Command::Seed)?,
        _ => return None,
    })
}

#[cfg(test)]
mod tests {
    use super::*;

    #[test]
    fn good_lines() {
        assert_eq!(parse("write 3 100 2 7a"), Some(Command::Write { tag: 3, from: 100, many: 2, fill: 0x7a }));
        assert_eq!(parse("read 255 4294967295 8"), Some(Command::Read { tag: 255, from: u32::MAX, many: 8 }));
        assert_eq!(parse("flush 5"), Some(Command::Flush { tag: 5 }));
        assert_eq!(parse("cut 0"), Some(Command::Cut { asks: 0 }));
    }

    #[test]
    fn bad_lines() {
        for line in ["", " ", "write  3 100 2 7a", "write 3 100 2 7A", "write 3 100 2 7", "flush 256", "turn 020", "turn 4294967296", "cut -1", "flush 5 ", "seed", "turn 1 2"] {
            assert_eq!(parse(line), None, "{line}");
        }
    }

    #[test]
    fn lines_of_a_script() {
        assert_eq!(lines("a\n\nb").collect::<Vec<_>>(), ["a", "", "b"]);
        assert_eq!(lines("a\n").collect::<Vec<_>>(), ["a"]);
        assert_eq!(lines("").count(), 0);
    }
}
