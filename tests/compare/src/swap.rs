//! Two requests on different slots, in either order from equal memory whose stored number is the walked count: the
//! same answers and the same memory, that number with it.

use peer::generate::{Reach, Requests};
use peer::replay::{Backend, Said};
use peer::script::Step;

use crate::difference::Difference;
use crate::history::History;

/// Pairs of one seed.
pub const PAIRS: usize = 100;

/// What the pairs of a seed came to.
#[derive(Clone, Copy, Debug, Default)]
pub struct Swapped {
    pub pairs: u64,
    /// Pairs of which both were accepted, so that both changed memory.
    pub accepted: u64,
    /// Of those the ones of opens and closes, so that both changed the stored number.
    pub counted: u64,
    /// Of those the ones with a take.
    pub drained: u64,
}

impl Swapped {
    fn add(&mut self, pair: [(&Step, &Said); 2]) {
        let accepted = pair.iter().all(|(_, said)| is_done(said));
        let counts = |step: &Step| matches!(step, Step::Open { .. } | Step::Close { .. });
        let drains = |step: &Step| matches!(step, Step::Take { .. });
        self.pairs += 1;
        self.accepted += u64::from(accepted);
        self.counted += u64::from(accepted && pair.iter().all(|(step, _)| counts(step)));
        self.drained += u64::from(accepted && pair.iter().any(|(step, _)| drains(step)));
    }

    pub fn join(&mut self, other: Self) {
        self.pairs += other.pairs;
        self.accepted += other.accepted;
        self.counted += other.counted;
        self.drained += other.drained;
    }
}

/// Swaps the pairs of one seed, with other steps between them.
pub fn compare<B: Backend + Clone>(hub: &B, seed: u64) -> Result<Swapped, Difference> {
    let mut history = History::new(hub, seed, Reach::Memory);
    let mut swapped = Swapped::default();
    for at in 0..PAIRS {
        history.go_on(at % 4);
        mend(&mut history);
        let (first, second) = pair(&mut history.requests, at);
        let mut back = history.tried.clone();
        let (other_two, other_one) = (back.step(&second), back.step(&first));
        let (one, two) = (history.make(first.clone()), history.make(second.clone()));
        swapped.add([(&first, &one), (&second, &two)]);
        if one != other_one || two != other_two || history.memory() != back.memory() {
            let what = format!(
                "the last two requests: in this order {one:?} {two:?}, in the other {other_one:?} {other_two:?}"
            );
            return Err(history.difference("swap", seed, what));
        }
    }
    Ok(swapped)
}

/// The stored number becomes the walked count, if it isn't.
fn mend<B: Backend + Clone>(history: &mut History<B>) {
    let (stored, walked) = (history.memory().stored, history.memory().walked());
    if stored != walked {
        history.make(Step::Store(walked));
    }
}

/// Two requests on different slots; every sixth pair is of closes and opens, by turns.
fn pair(requests: &mut Requests, at: usize) -> (Step, Step) {
    let first = request(requests, at, (at / 6).is_multiple_of(2));
    loop {
        let second = request(requests, at, (at / 12).is_multiple_of(2));
        if slot(&second) != slot(&first) {
            return (first, second);
        }
    }
}

/// Every third is any; the others are such as the peer would accept, if a few looks find them.
fn request(requests: &mut Requests, at: usize, closes: bool) -> Step {
    if at % 6 == 5 {
        return requests.due(closes);
    }
    let mut step = requests.request();
    for _ in 0..4 {
        if at.is_multiple_of(3) || is_done(&requests.replay().clone().step(&step)) {
            break;
        }
        step = requests.request();
    }
    step
}

fn slot(step: &Step) -> Option<u32> {
    match *step {
        Step::Open { slot, .. } | Step::Close { slot, .. } => Some(slot),
        Step::Submit { slot, .. } | Step::Take { slot, .. } => Some(slot),
        _ => None,
    }
}

fn is_done(said: &Said) -> bool {
    matches!(said, Said::Answer(answer) if answer.is_done())
}
