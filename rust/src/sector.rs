//! What one sector may hold: all states that explain what was told of it so far.

/// A set of bytes.
#[derive(Clone, Copy, PartialEq, Eq, Debug, Default)]
pub struct ByteSet([u64; 4]);

impl ByteSet {
    pub fn of(byte: u8) -> Self {
        let mut set = ByteSet::default();
        set.insert(byte);
        set
    }

    pub fn insert(&mut self, byte: u8) {
        self.0[usize::from(byte / 64)] |= 1 << (byte % 64);
    }

    pub fn contains(&self, byte: u8) -> bool {
        self.0[usize::from(byte / 64)] >> (byte % 64) & 1 == 1
    }

    fn intersect(&mut self, other: &ByteSet) {
        for (mine, theirs) in self.0.iter_mut().zip(other.0) {
            *mine &= theirs;
        }
    }

    fn unite(&mut self, other: &ByteSet) {
        for (mine, theirs) in self.0.iter_mut().zip(other.0) {
            *mine |= theirs;
        }
    }

    pub fn bytes(&self) -> impl Iterator<Item = u8> + '_ {
        (0..=255).filter(|byte| self.contains(*byte))
    }
}

/// What a command under way does with the sector when it takes it.
#[derive(Clone, Copy, PartialEq, Eq, Debug)]
pub enum Access {
    Write(u8),
    /// A read that will tell this byte.
    Read(u8),
}

/// One explanation: which commands under way have taken the sector, what it holds, which contents a cut may leave, and for each flush under way which
/// contents it would leave to a cut. Contents between which no flush stands need no order.
#[derive(Clone, PartialEq, Eq, Debug)]
struct State {
    taken: u8,
    present: u8,
    kept: ByteSet,
    marks: Vec<(u8, ByteSet)>,
}

impl State {
    fn resting(present: u8) -> Self {
        State { taken: 0, present, kept: ByteSet::of(present), marks: Vec::new() }
    }

    fn has_taken(&self, tag: u8) -> bool {
        self.taken >> tag & 1 == 1
    }

    /// A write takes the sector.
    fn written(&self, tag: u8, byte: u8) -> State {
        let mut next = self.clone();
        next.taken |= 1 << tag;
        next.present = byte;
        next.kept.insert(byte);
        next.marks.iter_mut().for_each(|(_, set)| set.insert(byte));
        next
    }
}

/// The commands under way that name the sector, and all states that it may be in.
#[derive(Clone, Debug)]
pub struct Sector {
    pending: Vec<(u8, Access)>,
    states: Vec<State>,
}

impl Sector {
    /// A sector that holds a byte for good, while flushes under these tags are under way.
    pub fn new(present: u8, flushes: impl Iterator<Item = u8>) -> Self {
        let mut state = State::resting(present);
        state.marks = flushes.map(|tag| (tag, ByteSet::of(present))).collect();
        Sector { pending: Vec::new(), states: vec![state] }
    }

    /// A command that names the sector is under way from here on.
    pub fn begin(&mut self, tag: u8, access: Access) {
        self.pending.push((tag, access));
        self.close();
    }

    /// Adds all states that come of a command taking the sector now.
    fn close(&mut self) {
        let mut at = 0;
        while at < self.states.len() {
            self.note_reads(at);
            for &(tag, access) in &self.pending {
                if let (Access::Write(byte), false) = (access, self.states[at].has_taken(tag)) {
                    let next = self.states[at].written(tag, byte);
                    if !self.states.contains(&next) {
                        self.states.push(next);
                    }
                }
            }
            at += 1;
        }
        self.drop_copies();
    }

    /// A read that will tell what the sector holds now takes it now: that excludes nothing.
    fn note_reads(&mut self, at: usize) {
        let state = &mut self.states[at];
        for &(tag, access) in &self.pending {
            if access == Access::Read(state.present) {
                state.taken |= 1 << tag;
            }
        }
    }

    fn drop_copies(&mut self) {
        let mut kept: Vec<State> = Vec::with_capacity(self.states.len());
        for state in self.states.drain(..) {
            if !kept.contains(&state) {
                kept.push(state);
            }
        }
        self.states = kept;
    }

    /// A command that names the sector is told; false if nothing explains that.
    pub fn end(&mut self, tag: u8) -> bool {
        self.pending.retain(|(other, _)| *other != tag);
        self.states.retain(|state| state.has_taken(tag));
        self.states.iter_mut().for_each(|state| state.taken &= !(1 << tag));
        self.drop_copies();
        !self.states.is_empty()
    }

    /// A flush is under way from here on.
    pub fn begin_flush(&mut self, tag: u8) {
        for state in &mut self.states {
            state.marks.push((tag, ByteSet::of(state.present)));
        }
    }

    /// A flush is told: a cut leaves nothing older than what was held when it was asked.
    pub fn end_flush(&mut self, tag: u8) {
        for state in &mut self.states {
            if let Some(at) = state.marks.iter().position(|(other, _)| *other == tag) {
                let (_, set) = state.marks.remove(at);
                state.kept.intersect(&set);
            }
        }
        self.drop_copies();
    }

    /// The power goes: the sector holds one of the contents that are left, and what was under way is gone.
    pub fn cut(&mut self) {
        let mut left = ByteSet::default();
        self.states.iter().for_each(|state| left.unite(&state.kept));
        self.pending.clear();
        self.states = left.bytes().map(State::resting).collect();
    }

    /// What the sector holds for good, if that is certain and no command names it.
    pub fn settled(&self) -> Option<u8> {
        match &self.states[..] {
            [only] if self.pending.is_empty() && only.kept == ByteSet::of(only.present) => Some(only.present),
            _ => None,
        }
    }

    /// What it may hold now.
    pub fn possible(&self) -> Vec<u8> {
        let mut set = ByteSet::default();
        self.states.iter().for_each(|state| set.insert(state.present));
        set.bytes().collect()
    }
}

#[cfg(test)]
#[path = "sector_tests.rs"]
mod tests;
