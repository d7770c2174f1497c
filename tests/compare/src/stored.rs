//! From a fresh start, by requests alone, the stored number is the walked count after every request.

use peer::generate::Reach;
use peer::model::MOST_OPEN;
use peer::replay::{Backend, Replay, Said};
use peer::script::Step;
use peer::{Answer, Code};

use crate::difference::Difference;
use crate::history::History;

/// Requests of one seed.
const REQUESTS: usize = 200;

/// What the requests of some seeds came to.
#[derive(Clone, Copy, Debug, Default)]
pub struct Counted {
    pub requests: u64,
    /// Requests that left every slot open.
    pub full: u64,
    /// Requests that left none open.
    pub none: u64,
}

/// Opens all slots of one seed, closes all, and so on, with any other requests between.
pub fn compare<B: Backend + Clone>(
    hub: &B,
    seed: u64,
    counted: &mut Counted,
) -> Result<(), Difference> {
    let mut history = History::new(hub, seed, Reach::Script);
    let mut closes = false;
    for at in 0..REQUESTS {
        let requests = &mut history.requests;
        let step = if at.is_multiple_of(2) { requests.due(closes) } else { requests.request() };
        let said = history.make(step);
        let stored = match told(&mut history.tried, &said) {
            Ok(stored) => stored,
            Err(what) => return Err(history.difference("stored", seed, what)),
        };
        closes = if closes { stored > 0 } else { stored == MOST_OPEN };
        counted.requests += 1;
        counted.full += u64::from(stored == MOST_OPEN);
        counted.none += u64::from(stored == 0);
    }
    Ok(())
}

/// The stored number, if the hub's walk and the peer's count as much; what is wrong, in words.
fn told<B: Backend>(tried: &mut Replay<B>, said: &Said) -> Result<u32, String> {
    if *said == Said::Answer(Answer::only(Code::Stored)) {
        return Err("the last request is refused for a number that is right".to_string());
    }
    let (stored, walked) = (tried.memory().stored, tried.memory().walked());
    let count = tried.step(&Step::Count);
    if stored != walked || count != Said::Count(walked) {
        return Err(format!("stored {stored}, walked {walked}, the hub says {count:?}"));
    }
    Ok(stored)
}
