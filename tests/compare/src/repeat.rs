//! An accepted request sent again at any later time, beside any stored number: no byte changes, and the answer says so.

use std::collections::BTreeMap;

use peer::generate::{Reach, Rng};
use peer::replay::{Backend, Replay, Said};
use peer::script::Step;
use peer::{Code, Entry};

use crate::difference::Difference;
use crate::history::History;

/// Requests of one seed.
pub const REQUESTS: usize = 150;

/// What the repeats of some seeds came to.
#[derive(Clone, Debug, Default)]
pub struct Repeated {
    /// How often each kind of request was repeated with which code.
    pub answers: BTreeMap<(&'static str, u32), u64>,
    /// Repeats beside a stored number that wasn't the walked count.
    pub wrong: u64,
}

/// Repeats accepted requests of one seed; only requests and stored numbers change its memory.
pub fn compare<B: Backend + Clone>(
    hub: &B,
    seed: u64,
    repeated: &mut Repeated,
) -> Result<(), Difference> {
    let mut rng = Rng::new(seed);
    let mut history = History::new(hub, seed, Reach::Script);
    history.make(Step::Fill(rng.byte()));
    history.make(Step::Widths(rng.pick(&[0, 20, 144])));
    let keeps = rng.chance(1, 2);
    let mut accepted: Vec<Step> = Vec::new();
    for _ in 0..REQUESTS {
        if !keeps && rng.chance(1, 6) {
            store(&mut history);
        }
        let step = history.requests.request();
        let said = history.make(step.clone());
        if matches!(said, Said::Answer(answer) if answer.is_done()) {
            accepted.push(step);
        }
        for _ in 0..2 {
            if accepted.is_empty() {
                break;
            }
            let again = accepted[rng.size(accepted.len())].clone();
            if let Err(what) = repeat(&mut history.tried, &again, repeated) {
                history.steps.push(again);
                return Err(history.difference("repeat", seed, what));
            }
        }
    }
    Ok(())
}

/// Another number is stored, or the right one again.
fn store<B: Backend + Clone>(history: &mut History<B>) {
    let (stored, walked) = (history.memory().stored, history.memory().walked());
    let step = if stored == walked { history.requests.store() } else { Step::Store(walked) };
    history.make(step);
}

/// Sends an accepted request again; what is wrong, in words.
fn repeat<B: Backend>(
    tried: &mut Replay<B>,
    again: &Step,
    repeated: &mut Repeated,
) -> Result<(), String> {
    let before = tried.memory().clone();
    let said = tried.step(again);
    let (kind, code) = acknowledged(again, &before.table);
    if !matches!(&said, Said::Answer(answer) if (answer.code, answer.first, answer.second) == (code, 0, 0))
    {
        return Err(format!(
            "the last request, accepted before, is answered {said:?}, not {code} 0 0"
        ));
    }
    if *tried.memory() != before {
        return Err("the last request, accepted before, changes memory".to_string());
    }
    *repeated.answers.entry((kind, code)).or_default() += 1;
    repeated.wrong += u64::from(before.stored != before.walked());
    Ok(())
}

/// The code that the papers give to a request accepted before: 1, 13 or 14 for an open, 1 or 16 else.
fn acknowledged(step: &Step, table: &[Entry]) -> (&'static str, u32) {
    let entry = |slot: u32| table[slot as usize];
    let (kind, code) = match *step {
        Step::Open { slot, key, .. } => match entry(slot) {
            now if now.is_open() && now.key == key => ("open", Code::Taken),
            now if now.is_open() => ("open", Code::Busy),
            _ => ("open", Code::OldKey),
        },
        Step::Submit { slot, key, .. } => match entry(slot) {
            now if now.is_open() && now.key == key => ("submit", Code::Taken),
            _ => ("submit", Code::NoJob),
        },
        Step::Take { slot, key, .. } => match entry(slot) {
            now if now.is_open() && now.key == key => ("take", Code::Taken),
            _ => ("take", Code::NoJob),
        },
        Step::Close { slot, key } if entry(slot).key == key => ("close", Code::Taken),
        _ => ("close", Code::NoJob),
    };
    (kind, code as u32)
}
