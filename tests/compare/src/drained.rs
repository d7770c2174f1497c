//! Long jobs whose printer takes records now and then: what it took, joined with what the area holds, is what the parts
//! gave; no record is taken twice and none is missed.

use peer::generate::Reach;
use peer::model::{AREA, WIDTHS};
use peer::replay::{Backend, Memory, Said};
use peer::script::Step;
use peer::{interpret, Answer, Code, Entry, State};

use crate::difference::Difference;
use crate::history::History;

/// Requests of one seed, and the slots that they go to.
const REQUESTS: usize = 120;
const SLOTS: usize = 3;

/// What the jobs of some seeds came to.
#[derive(Clone, Copy, Debug, Default)]
pub struct Drained {
    pub takes: u64,
    /// Parts that were accepted beyond the 4,096th byte of their job.
    pub beyond: u64,
    /// Parts that found no room, and were accepted after a take.
    pub resent: u64,
}

/// What the parts of a job gave, and how much of it was taken.
#[derive(Clone, Debug, Default)]
struct Job {
    given: Vec<u8>,
    taken: usize,
    /// The number of a part that found no room.
    waits: u32,
}

/// Follows the jobs of one seed.
pub fn compare<B: Backend + Clone>(
    hub: &B,
    seed: u64,
    drained: &mut Drained,
) -> Result<(), Difference> {
    let mut history = History::new(hub, seed, Reach::Script);
    let mut jobs = vec![Job::default(); SLOTS];
    for at in 0..REQUESTS {
        let step = history.requests.printing(at % SLOTS);
        let before = history.memory().clone();
        let said = history.make(step.clone());
        let told = follow(&mut jobs, &step, &said, &before, drained)
            .and_then(|()| holds(&jobs, history.memory()));
        if let Err(what) = told {
            return Err(history.difference("drained", seed, what));
        }
    }
    Ok(())
}

/// What a request has a job give, or a printer take; what is wrong, in words.
fn follow(
    jobs: &mut [Job],
    step: &Step,
    said: &Said,
    before: &Memory,
    drained: &mut Drained,
) -> Result<(), String> {
    let done = *said == Said::Answer(Answer::only(Code::Done));
    match *step {
        Step::Open { slot, .. } if done => jobs[slot as usize] = Job::default(),
        Step::Take { slot, total, .. } if done => {
            drained.takes += 1;
            return jobs[slot as usize].taken_to(total, before.area(slot as usize));
        }
        Step::Submit { slot, number, ref part, .. } => {
            let job = &mut jobs[slot as usize];
            match said {
                Said::Answer(answer) if answer.is_done() => {
                    job.given.extend(given(before, slot as usize, part));
                    drained.beyond += u64::from(job.given.len() > AREA);
                    drained.resent += u64::from(std::mem::take(&mut job.waits) == number);
                }
                Said::Answer(answer) if answer.code == Code::Room as u32 => job.waits = number,
                _ => {}
            }
        }
        _ => {}
    }
    Ok(())
}

impl Job {
    /// The printer reads on to this total, from an area as it was before the take.
    fn taken_to(&mut self, total: u64, area: &[u8]) -> Result<(), String> {
        let total = usize::try_from(total).unwrap_or(usize::MAX);
        let next = self.given.get(self.taken..total);
        let read = area.get(..total.saturating_sub(self.taken));
        if next.is_none() || next != read {
            return Err(format!("up to {total} the printer reads what no part gave"));
        }
        self.taken = total;
        Ok(())
    }
}

/// The record bytes of a part as the rules give them, whatever stands in its area.
fn given(memory: &Memory, slot: usize, part: &[u8]) -> Vec<u8> {
    let Entry { descriptor, state, .. } = memory.table[slot];
    let (mut state, mut area) = (State { used: 0, ..state }, [0; AREA]);
    interpret(part, &memory.widths[..WIDTHS], &mut area, &descriptor, &mut state);
    area[..state.used as usize].to_vec()
}

/// Whether every area holds what its job gave and nobody took.
fn holds(jobs: &[Job], memory: &Memory) -> Result<(), String> {
    for (slot, job) in jobs.iter().enumerate() {
        let Entry { state, taken, .. } = memory.table[slot];
        if taken as usize != job.taken {
            return Err(format!("slot {slot}: {} bytes were taken, not {taken}", job.taken));
        }
        if memory.area(slot).get(..state.used as usize) != job.given.get(job.taken..) {
            return Err(format!("slot {slot}: taken and held bytes aren't what the parts gave"));
        }
    }
    Ok(())
}
