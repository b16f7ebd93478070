// Says on standard error how far a run is, every few seconds.
use std::time::{Duration, Instant};

pub struct Progress {
    what: &'static str,
    of: u64,
    said: Instant,
}

impl Progress {
    pub fn new(of: u64, what: &'static str) -> Self {
        eprintln!("{of} {what}");
        Self { what, of, said: Instant::now() }
    }

    pub fn at(&mut self, done: u64) {
        if self.said.elapsed() >= Duration::from_secs(5) {
            eprintln!("{done} of {} {}", self.of, self.what);
            self.said = Instant::now();
        }
    }
}
