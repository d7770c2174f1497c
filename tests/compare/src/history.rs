//! A history of steps on the hub under test, and beside it on the peer, by whose memory they are chosen.

use peer::generate::{Reach, Requests};
use peer::replay::{Backend, Memory, Replay, Said};
use peer::script::Step;

use crate::difference::Difference;

pub struct History<B> {
    pub requests: Requests,
    pub tried: Replay<B>,
    pub steps: Vec<Step>,
}

impl<B: Backend + Clone> History<B> {
    pub fn new(hub: &B, seed: u64, reach: Reach) -> Self {
        let (requests, tried) = (Requests::new(seed, reach), Replay::new(hub.clone()));
        Self { requests, tried, steps: Vec::new() }
    }

    /// The hub's memory.
    pub fn memory(&self) -> &Memory {
        self.tried.memory()
    }

    /// Does a step; what the hub says to it.
    pub fn make(&mut self, step: Step) -> Said {
        self.requests.make(&step);
        let said = self.tried.step(&step);
        self.steps.push(step);
        said
    }

    /// Does the next steps of the seed.
    pub fn go_on(&mut self, steps: usize) {
        for (step, _) in self.requests.by_ref().take(steps) {
            self.tried.step(&step);
            self.steps.push(step);
        }
    }

    pub fn difference(self, test: &'static str, seed: u64, what: String) -> Difference {
        Difference { test, seed, what, steps: self.steps }
    }
}
