//! Where a run of some seconds stands.

use std::time::{Duration, Instant};

/// Seconds from one line to the next.
const EVERY: u64 = 10;

/// The time that a run has, and when its next line is due; the first is due at once.
#[derive(Clone, Copy, Debug)]
pub struct Progress {
    since: Instant,
    seconds: u64,
    due: u64,
}

impl Progress {
    pub fn new(seconds: u64) -> Self {
        Self { since: Instant::now(), seconds, due: 0 }
    }

    pub fn since(&self) -> Instant {
        self.since
    }

    /// Whether there is time left. A sum of times could pass the greatest, so they are compared.
    pub fn goes_on(&self) -> bool {
        self.since.elapsed() < Duration::from_secs(self.seconds)
    }

    /// Says how far the run has come, if a line is due and its end isn't.
    pub fn tell(&mut self, rounds: u64, answers: u64) {
        let (now, seconds) = (self.since.elapsed().as_secs(), self.seconds);
        if now >= self.due && now < seconds {
            let s = if rounds == 1 { "" } else { "s" };
            println!("{now} of {seconds} s: {rounds} round{s}, {answers} answers, all the same");
            self.due = (now / EVERY + 1) * EVERY;
        }
    }
}
