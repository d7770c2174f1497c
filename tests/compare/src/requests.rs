//! The same requests to the hub under test and to the peer; answers and all memory compared after each.

use peer::generate::{Reach, Requests};
use peer::replay::{Backend, Replay, Said};
use peer::script::Step;

use crate::codes::Codes;
use crate::difference::Difference;

/// Steps of one seed.
pub const STEPS: usize = 400;

/// Compares one seed's steps; adds the answers to `codes`.
pub fn compare<B: Backend + Clone>(
    hub: &B,
    seed: u64,
    steps: usize,
    codes: &mut Codes,
) -> Result<(), Difference> {
    // Entries that no script can say make every other seed; a script shows the rest exactly.
    let reach = if seed.is_multiple_of(2) { Reach::Script } else { Reach::Memory };
    let mut requests = Requests::new(seed, reach);
    let mut tried = Replay::new(hub.clone());
    let mut made: Vec<Step> = Vec::new();
    let found = |what: String, steps: &[Step]| {
        Err(Difference { test: "requests", seed, what, steps: steps.to_vec() })
    };
    if tried.memory() != requests.replay().memory() {
        return found("the fresh table differs".to_string(), &made);
    }
    for at in 0..steps {
        let Some((step, said)) = requests.next() else { break };
        let got = tried.step(&step);
        made.push(step);
        if got != said {
            return found(format!("step {at}: the peer says {said:?}, the hub {got:?}"), &made);
        }
        if tried.memory() != requests.replay().memory() {
            return found(format!("step {at}: all say {said:?}, but the memory differs"), &made);
        }
        match said {
            Said::Answer(answer) => codes.add(answer.code),
            Said::Check(code) => codes.add(code),
            Said::Count(_) => codes.add(0),
            _ => {}
        }
    }
    Ok(())
}
