//! A line on standard error that says how far a run is.
use std::io::{IsTerminal, Write};
use std::sync::atomic::{AtomicU64, Ordering};
use std::sync::Mutex;
use std::time::{Duration, Instant};

pub struct Progress {
    what: &'static str,
    done: AtomicU64,
    start: Instant,
    shown: Mutex<Instant>,
    pause: Duration,
    terminal: bool,
}

impl Progress {
    pub fn new(what: &'static str) -> Self {
        let terminal = std::io::stderr().is_terminal();
        let pause = if terminal { Duration::from_millis(200) } else { Duration::from_secs(30) };
        let now = Instant::now();
        Progress { what, done: AtomicU64::new(0), start: now, shown: Mutex::new(now), pause, terminal }
    }

    /// So many more are done.
    pub fn add(&self, many: u64) {
        let done = self.done.fetch_add(many, Ordering::Relaxed) + many;
        if let Ok(mut shown) = self.shown.try_lock() {
            if shown.elapsed() >= self.pause {
                *shown = Instant::now();
                self.show(done);
            }
        }
    }

    /// How many are done.
    pub fn done(&self) -> u64 {
        self.done.load(Ordering::Relaxed)
    }

    fn show(&self, done: u64) {
        let (begin, end) = if self.terminal { ("\r", "   ") } else { ("", "\n") };
        eprint!("{begin}{done} {} in {:.0} s{end}", self.what, self.start.elapsed().as_secs_f64());
        let _ = std::io::stderr().flush();
    }

    /// The line is over; how many were done, and in which time.
    pub fn finish(&self) -> (u64, Duration) {
        if self.terminal {
            eprint!("\r{:60}\r", "");
        }
        (self.done(), self.start.elapsed())
    }
}
