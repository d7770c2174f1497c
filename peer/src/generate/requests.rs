//! Sequences of requests, steered by running them on this crate's hub.

mod takes;

use super::checks;
use super::ground::Ground;
use super::numbers::{self, Reach};
use super::parts;
use super::rng::Rng;
use super::stored;
use crate::model::{Descriptor, Entry, AREA, RECORDS, SLOTS, WIDTHS};
use crate::replay::{Peer, Replay, Said};
use crate::script::{Lend, Step};
use crate::sheet::EIGHT_LINES;

/// The lengths that a hub asks for.
const RIGHT: Lend = Lend { table: SLOTS, records: RECORDS, widths: WIDTHS };
/// Requests remembered for a retry.
const RECENT: usize = 40;

/// An endless sequence of steps, each with what this crate's hub says to it.
#[derive(Clone, Debug)]
pub struct Requests {
    rng: Rng,
    reach: Reach,
    /// Whether the stored number is left to the requests, so that it stays the count.
    keeps: bool,
    replay: Replay<Peer>,
    recent: Vec<Step>,
    /// Steps decided on already, the next one last.
    waiting: Vec<Step>,
    /// Slots of which something is taken after that.
    drains: Vec<usize>,
}

impl Requests {
    /// The sequence of a seed. One seed in three leaves the stored number to the requests.
    pub fn new(seed: u64, reach: Reach) -> Self {
        let mut rng = Rng::new(seed);
        let keeps = rng.chance(1, 3);
        let (recent, waiting, drains) = (Vec::new(), Vec::new(), Vec::new());
        Self { rng, reach, keeps, replay: Replay::new(Peer), recent, waiting, drains }
    }

    /// This crate's hub as the steps so far have left it.
    pub fn replay(&self) -> &Replay<Peer> {
        &self.replay
    }

    /// A request that suits the memory as it stands, for whoever asks to do with it as they like.
    pub fn request(&mut self) -> Step {
        match self.rng.below(24) {
            0..=11 => self.submit(),
            12..=16 => self.open(),
            17..=20 => self.take(),
            _ => self.close(),
        }
    }

    /// A close or an open that is done beside the right number, if a few looks find one.
    pub fn due(&mut self, closes: bool) -> Step {
        let at = self.slot(|entry| entry.is_open() == closes && !entry.is_damaged());
        if closes {
            return Step::Close { slot: at as u32, key: self.entry(at).key };
        }
        self.reopen(at)
    }

    /// An open of a closed slot.
    fn reopen(&mut self, slot: usize) -> Step {
        let key = self.entry(slot).key.saturating_add(1);
        let descriptor = numbers::descriptor(&mut self.rng);
        Step::Open { slot: slot as u32, key, descriptor }
    }

    /// A stored number, mostly a wrong one.
    pub fn store(&mut self) -> Step {
        let walked = self.replay.memory().walked();
        Step::Store(stored::number(&mut self.rng, walked))
    }

    /// Does a step, as if the sequence had chosen it.
    pub fn make(&mut self, step: &Step) -> Said {
        self.remember(step);
        let said = self.replay.step(step);
        self.make_room(step, &said);
        said
    }

    /// Wrong lengths are lent, and wrong numbers stored, for a few steps only.
    fn choose(&mut self) -> Step {
        if let Some(step) = self.waiting.pop() {
            return step;
        }
        if let Some(slot) = self.drains.pop() {
            return self.take_of(slot);
        }
        if self.replay.lend() != RIGHT && self.rng.chance(1, 5) {
            return Step::Lend(RIGHT);
        }
        let walked = self.replay.memory().walked();
        if self.replay.memory().stored != walked && self.rng.chance(1, 10) {
            return Step::Store(walked);
        }
        match self.rng.below(118) {
            0..=42 => self.submit(),
            43 | 44 => self.swapped(),
            45..=59 => self.open(),
            60..=66 => self.close(),
            67..=74 => self.direct(),
            75 => self.check(),
            76 | 77 => self.check_at(),
            78..=82 => self.set(),
            83..=87 => self.retry(),
            88..=90 => Step::Show { slot: self.rng.size(SLOTS) },
            91 | 92 => Step::Count,
            93 => self.bytes(),
            94 | 95 => self.width(),
            96 => Step::Widths(self.rng.pick(&[0, 0, 1, 20, 144, 144, 300, 4_000, 65_535])),
            97 => self.lend(),
            98 => self.repair(),
            99..=103 if !self.keeps => self.stored(),
            99..=104 => Step::Stored,
            105..=115 => self.take(),
            116 => self.litter(),
            _ if self.rng.chance(1, 4) => Step::Fresh,
            _ => Step::Fill(self.rng.byte()),
        }
    }

    fn entry(&self, slot: usize) -> &Entry {
        &self.replay.memory().table[slot]
    }

    /// A slot whose entry is as wanted, if a few looks find one.
    fn slot(&mut self, wanted: impl Fn(&Entry) -> bool) -> usize {
        let mut slot = self.rng.size(SLOTS);
        for _ in 0..24 {
            if wanted(self.entry(slot)) {
                break;
            }
            slot = self.rng.size(SLOTS);
        }
        slot
    }

    /// A slot as a request names it, now and then one that isn't there.
    fn named(&mut self, slot: usize) -> u32 {
        if self.rng.chance(1, 40) {
            self.rng.pick(&[16, 17, 19, 255, 65_536, u32::MAX])
        } else {
            slot as u32
        }
    }

    /// The right key, or another one.
    fn key(&mut self, right: u32) -> u32 {
        match self.rng.below(40) {
            0 => self.rng.pick(&[0, 1, u32::MAX]),
            1 => right.wrapping_add(1),
            2 => right.wrapping_sub(1),
            _ => right,
        }
    }

    fn open(&mut self) -> Step {
        let slot = if self.rng.chance(4, 5) {
            self.slot(|entry| !entry.is_open())
        } else {
            self.slot(|entry| entry.is_open() && !entry.is_damaged())
        };
        let entry = *self.entry(slot);
        let above = entry.key.saturating_add(self.rng.between(1, 5));
        let key = match self.rng.below(8) {
            0 | 1 => self.key(entry.key),
            _ => above,
        };
        let mut descriptor = numbers::descriptor(&mut self.rng);
        if self.rng.chance(1, 7) {
            numbers::spoil_descriptor(&mut self.rng, &mut descriptor);
        }
        Step::Open { slot: self.named(slot), key, descriptor }
    }

    fn submit(&mut self) -> Step {
        let slot = if self.rng.chance(19, 20) {
            self.slot(|entry| entry.is_open() && !entry.is_damaged())
        } else {
            self.rng.size(SLOTS)
        };
        let Entry { key, next, .. } = *self.entry(slot);
        let number = match self.rng.below(24) {
            0 => next.wrapping_sub(1),
            1 => next.wrapping_add(self.rng.between(1, 3)),
            2 => self.rng.pick(&[0, 0, 65_536, 65_537, u32::MAX]),
            3 => self.rng.between(1, 65_535),
            _ => next,
        };
        let part = self.part(slot);
        Step::Submit { slot: self.named(slot), key: self.key(key), number, part }
    }

    /// Two requests of one slot in the wrong order; then both again, in the right one.
    fn swapped(&mut self) -> Step {
        let first = match self.rng.below(3) {
            0 => self.open(),
            1 => self.close(),
            _ => self.submit(),
        };
        let (slot, key, number) = match first {
            Step::Open { slot, key, .. } => (slot, key, 1),
            Step::Submit { slot, key, number, .. } => (slot, key, number.wrapping_add(1)),
            Step::Close { slot, key } => (slot, key, self.entry(slot as usize % SLOTS).next),
            _ => return first,
        };
        let part = self.part(slot as usize % SLOTS);
        let second = Step::Submit { slot, key, number, part };
        self.waiting = vec![second.clone(), first];
        second
    }

    /// A part for a slot, as its job stands.
    fn part(&mut self, slot: usize) -> Vec<u8> {
        let Entry { descriptor, state, .. } = *self.entry(slot);
        let widths = &self.replay.memory().widths[..WIDTHS];
        parts::part(&mut self.rng, &Ground { descriptor, state, widths })
    }

    /// Full areas are closed sooner.
    fn close(&mut self) -> Step {
        let slot = if self.rng.chance(2, 3) {
            self.slot(|entry| entry.is_open() && entry.state.used > AREA as u32 / 2)
        } else {
            self.rng.size(SLOTS)
        };
        let key = self.entry(slot).key;
        Step::Close { slot: self.named(slot), key: self.key(key) }
    }

    /// A stored number, and a request to which it matters.
    fn stored(&mut self) -> Step {
        let closes = self.rng.chance(1, 2);
        self.waiting = vec![self.due(closes)];
        self.store()
    }

    fn direct(&mut self) -> Step {
        let slot = if self.rng.chance(4, 5) {
            self.slot(|entry| entry.descriptor != Descriptor::default())
        } else {
            self.rng.size(SLOTS)
        };
        Step::Direct { slot, part: self.part(slot) }
    }

    fn check(&mut self) -> Step {
        Step::Check { part: checks::checked_part(&mut self.rng, EIGHT_LINES) }
    }

    fn check_at(&mut self) -> Step {
        let increment = checks::increment(&mut self.rng);
        Step::CheckAt { increment, part: checks::checked_part(&mut self.rng, increment) }
    }

    /// An entry in range, damaged, or closed with anything in it.
    fn set(&mut self) -> Step {
        let slot = self.rng.size(SLOTS);
        let key = self.entry(slot).key.saturating_add(self.rng.between(0, 1));
        let mut entry = numbers::entry(&mut self.rng, key);
        if self.rng.chance(1, 3) {
            numbers::spoil_entry(&mut self.rng, self.reach, &mut entry);
        }
        if self.rng.chance(1, 4) {
            entry.mark = 0;
        }
        self.placed(slot, entry)
    }

    /// An entry put in its slot; it stays open or closed where the stored number is to stay right.
    fn placed(&self, slot: usize, mut entry: Entry) -> Step {
        let was_open = self.entry(slot).is_open();
        if self.keeps && entry.is_open() != was_open {
            entry.mark = was_open.into();
        }
        Step::Set { slot, entry }
    }

    /// A damaged entry is made whole, which no request can do.
    fn repair(&mut self) -> Step {
        let slot = self.slot(Entry::is_damaged);
        let key = self.entry(slot).key;
        let entry = Entry { mark: 0, ..numbers::entry(&mut self.rng, key) };
        self.placed(slot, entry)
    }

    /// A request sent again, some time later.
    fn retry(&mut self) -> Step {
        if self.recent.is_empty() {
            return Step::Count;
        }
        let at = self.rng.size(self.recent.len());
        self.recent[at].clone()
    }

    fn bytes(&mut self) -> Step {
        let slot = self.rng.size(SLOTS);
        let from = self.rng.size(AREA + 1);
        let to = from + self.rng.size((AREA - from).min(64) + 1);
        Step::Bytes { slot, from, to }
    }

    fn width(&mut self) -> Step {
        let code_point = self.rng.pick(&[0x40, 0x40, 0xC1, 0xC2, 0xC9, 0x00, 0xFF]);
        let width = self.rng.pick(&[0, 1, 72, 144, 145, 288, 4_095, 32_767, 65_535]);
        Step::Width { font: self.rng.below(4) as u8, code_point, width }
    }

    fn lend(&mut self) -> Step {
        let mut lend = RIGHT;
        match self.rng.below(4) {
            0 => lend.table = self.rng.pick(&[0, 1, 15, 17, 20]),
            1 => lend.records = self.rng.pick(&[0, 4_096, 65_535, 65_537, 65_540]),
            2 => lend.widths = self.rng.pick(&[0, 256, 1_023, 1_025, 1_028]),
            _ => lend = Lend { table: 17, records: 65_535, widths: 1_025 },
        }
        Step::Lend(lend)
    }

    fn remember(&mut self, step: &Step) {
        let is_request = matches!(
            step,
            Step::Open { .. } | Step::Submit { .. } | Step::Take { .. } | Step::Close { .. }
        );
        if !is_request {
            return;
        }
        if self.recent.len() == RECENT {
            let oldest = self.rng.size(RECENT);
            self.recent.swap_remove(oldest);
        }
        self.recent.push(step.clone());
    }
}

impl Iterator for Requests {
    type Item = (Step, Said);

    fn next(&mut self) -> Option<Self::Item> {
        let step = self.choose();
        let said = self.make(&step);
        Some((step, said))
    }
}
