//! The states of a sector beside a plain search: each content with its number, each command with what it took, every order tried.
use super::*;
use crate::random::Random;

#[derive(Clone, Copy, PartialEq, Debug)]
enum Ask {
    Write(u8),
    Read,
    Flush,
}

#[derive(Clone, Copy, Debug)]
enum Event {
    Asked(u8, Ask),
    Told(u8, u8),
    Cut,
}

/// A command under way: what it is, whether it has taken the sector, what it read, and the number of the content when it was asked.
#[derive(Clone, PartialEq, Debug)]
struct Way {
    tag: u8,
    ask: Ask,
    taken: bool,
    got: u8,
    mark: usize,
}

#[derive(Clone, PartialEq, Debug)]
struct Explicit {
    contents: Vec<u8>,
    low: usize,
    ways: Vec<Way>,
}

impl Explicit {
    fn present(&self) -> u8 {
        self.contents[self.contents.len() - 1]
    }

    /// The state once a command has taken the sector, if it has still to.
    fn take(&self, at: usize) -> Option<Explicit> {
        let mut next = self.clone();
        match (self.ways[at].taken, self.ways[at].ask) {
            (true, _) | (_, Ask::Flush) => return None,
            (_, Ask::Write(byte)) => next.contents.push(byte),
            (_, Ask::Read) => next.ways[at].got = self.present(),
        }
        next.ways[at].taken = true;
        Some(next)
    }

    fn tell(mut self, tag: u8, byte: u8) -> Option<Explicit> {
        let at = self.ways.iter().position(|way| way.tag == tag)?;
        let way = self.ways.remove(at);
        match way.ask {
            Ask::Flush => self.low = self.low.max(way.mark),
            Ask::Write(_) => way.taken.then_some(())?,
            Ask::Read => (way.taken && way.got == byte).then_some(())?,
        }
        Some(self)
    }
}

/// All states that come of an event.
fn explicit_step(states: Vec<Explicit>, event: Event) -> Vec<Explicit> {
    let mut next: Vec<Explicit> = match event {
        Event::Asked(tag, ask) => states
            .into_iter()
            .map(|mut state| {
                state.ways.push(Way { tag, ask, taken: false, got: 0, mark: state.contents.len() - 1 });
                state
            })
            .collect(),
        Event::Told(tag, byte) => states.into_iter().filter_map(|state| state.tell(tag, byte)).collect(),
        Event::Cut => {
            let left = states.iter().flat_map(|state| state.contents[state.low..].to_vec());
            left.map(|byte| Explicit { contents: vec![byte], low: 0, ways: Vec::new() }).collect()
        }
    };
    let mut at = 0;
    while at < next.len() {
        for way in 0..next[at].ways.len() {
            if let Some(state) = next[at].take(way).filter(|state| !next.contains(state)) {
                next.push(state);
            }
        }
        at += 1;
    }
    next
}

/// A random run of one sector: commands under few tags, told with any byte, and cuts.
fn random_run(random: &mut Random) -> Vec<Event> {
    let mut under_way: Vec<u8> = Vec::new();
    let mut run = Vec::new();
    for _ in 0..3 + random.below(10) {
        let free = (0..4u8).find(|tag| !under_way.contains(tag));
        match (random.below(9), free) {
            (0..=4, Some(tag)) => {
                let ask = [Ask::Write(1 + random.below(2) as u8), Ask::Write(3), Ask::Read, Ask::Read, Ask::Flush][random.below(5) as usize];
                under_way.push(tag);
                run.push(Event::Asked(tag, ask));
            }
            (5..=7, _) if !under_way.is_empty() => {
                let tag = under_way.remove(random.below(under_way.len() as u64) as usize);
                run.push(Event::Told(tag, random.below(4) as u8));
            }
            (8, _) => {
                under_way.clear();
                run.push(Event::Cut);
            }
            _ => {}
        }
    }
    run
}

/// What a read that is asked at this event will tell in its life.
fn foretold(rest: &[Event], tag: u8) -> Option<u8> {
    rest.iter().take_while(|event| !matches!(event, Event::Cut)).find_map(|event| match event {
        Event::Told(other, byte) if *other == tag => Some(*byte),
        _ => None,
    })
}

/// One event; false if nothing explains it.
fn step(sector: &mut Sector, asked: &mut Vec<(u8, Ask)>, event: Event, rest: &[Event]) -> bool {
    match event {
        Event::Asked(tag, ask) => {
            asked.retain(|(other, _)| *other != tag);
            asked.push((tag, ask));
            match ask {
                Ask::Write(byte) => sector.begin(tag, Access::Write(byte)),
                Ask::Read => foretold(rest, tag).into_iter().for_each(|byte| sector.begin(tag, Access::Read(byte))),
                Ask::Flush => sector.begin_flush(tag),
            }
            true
        }
        Event::Told(tag, _) if asked.contains(&(tag, Ask::Flush)) => {
            sector.end_flush(tag);
            true
        }
        Event::Told(tag, _) => sector.end(tag),
        Event::Cut => {
            sector.cut();
            true
        }
    }
}

/// How many events are explained, by the states of a sector and by the plain search.
fn explained(run: &[Event]) -> (usize, usize) {
    let (mut sector, mut asked) = (Sector::new(0, std::iter::empty()), Vec::new());
    let by_states = (0..run.len()).take_while(|i| step(&mut sector, &mut asked, run[*i], &run[i + 1..])).count();
    let mut states = vec![Explicit { contents: vec![0], low: 0, ways: Vec::new() }];
    let by_search = run.iter().take_while(|event| {
        states = explicit_step(std::mem::take(&mut states), **event);
        !states.is_empty()
    });
    (by_states, by_search.count())
}

#[test]
fn the_states_explain_what_a_plain_search_does() {
    let mut random = Random(1);
    let (mut whole, mut broken) = (0, 0);
    for _ in 0..20_000 {
        let run = random_run(&mut random);
        let (by_states, by_search) = explained(&run);
        assert_eq!(by_states, by_search, "{run:?}");
        if by_states == run.len() { whole += 1 } else { broken += 1 }
    }
    assert!(whole > 1000 && broken > 1000, "{whole} explained, {broken} not");
}
