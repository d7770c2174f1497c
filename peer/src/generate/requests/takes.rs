//! Takes, and the areas that they are tried on.

use super::Requests;
use crate::answer::Code;
use crate::generate::totals;
use crate::model::{Descriptor, Entry, State, AREA, SLOTS};
use crate::reader::{CLASS, PREFIX, TRN};
use crate::record::{ends, HEADER};
use crate::replay::Said;
use crate::script::Step;
use crate::sheet;

/// Takes of an area laid out for them.
const TRIES: usize = 4;

impl Requests {
    /// A take, mostly of a job that has records.
    pub(super) fn take(&mut self) -> Step {
        let slot = match self.rng.below(16) {
            0 => self.rng.size(SLOTS),
            1 => self.slot(Entry::is_damaged),
            2 => self.slot(|entry| !entry.is_open() && entry.state.used > 0),
            _ => self.printed(),
        };
        self.take_of(slot)
    }

    /// A slot whose open job has records, if there is one, else any open job.
    fn printed(&mut self) -> usize {
        let has_records = |slot: &usize| {
            let entry = self.entry(*slot);
            entry.is_open() && !entry.is_damaged() && self.ends(*slot).next().is_some()
        };
        let slots: Vec<usize> = (0..SLOTS).filter(has_records).collect();
        if slots.is_empty() {
            self.slot(|entry| entry.is_open() && !entry.is_damaged())
        } else {
            self.rng.pick(&slots)
        }
    }

    /// Where a slot's records end.
    fn ends(&self, slot: usize) -> impl Iterator<Item = usize> + '_ {
        let used = AREA.min(self.entry(slot).state.used as usize);
        ends(&self.replay.memory().area(slot)[..used])
    }

    pub(super) fn take_of(&mut self, slot: usize) -> Step {
        let entry = *self.entry(slot);
        let total = totals::total(&mut self.rng, &entry, self.replay.memory().area(slot));
        Step::Take { slot: self.named(slot), key: self.key(entry.key), total }
    }

    /// A step of a long job in this slot, whose printer takes records now and then; first of all
    /// what is waited for.
    pub fn printing(&mut self, slot: usize) -> Step {
        if let Some(step) = self.waiting.pop() {
            return step;
        }
        let Entry { key, next: number, .. } = *self.entry(slot);
        if !self.entry(slot).is_open() {
            return self.reopen(slot);
        }
        match self.rng.below(60) {
            0 => Step::Close { slot: slot as u32, key },
            1..=9 => self.take_of(slot),
            _ => Step::Submit { slot: slot as u32, key, number, part: self.part(slot) },
        }
    }

    /// After a part found no room: the printer takes some records, and the part is sent again.
    pub(super) fn make_room(&mut self, step: &Step, said: &Said) {
        let Step::Submit { slot, key, .. } = *step else { return };
        let full = matches!(said, Said::Answer(answer) if answer.code == Code::Room as u32);
        if !full || !self.waiting.is_empty() || self.rng.chance(1, 3) {
            return;
        }
        let mut ends: Vec<usize> = self.ends(slot as usize).collect();
        // Half the time everything goes, else some of the first records.
        let fewer = if self.rng.chance(1, 2) { 0 } else { self.rng.size(ends.len()) };
        ends.truncate(ends.len() - fewer);
        let Some(&end) = ends.last() else { return };
        let total = u64::from(self.entry(slot as usize).taken) + end as u64;
        self.waiting = vec![step.clone(), Step::Take { slot, key, total }];
    }

    /// An area whose records stop being whole somewhere, and takes of it.
    pub(super) fn litter(&mut self) -> Step {
        let slot = self.printed();
        self.drains = vec![slot; TRIES];
        let (used, off) = (self.entry(slot).state.used, self.rng.between(1, 17));
        match self.rng.below(8) {
            0 => {
                let bytes = [0, 1, 2, 15, 16, 17, self.rng.byte()];
                let used = self.rng.between(0, AREA as u32);
                self.waiting = vec![self.ready(slot, used)];
                Step::Fill(self.rng.pick(&bytes))
            }
            1 => self.ready(slot, used.saturating_sub(off).min(AREA as u32)),
            2 => self.ready(slot, used.saturating_add(off).min(AREA as u32)),
            3 | 4 => self.edge(slot),
            _ => self.spelled(slot),
        }
    }

    /// A job of which so much is taken that a record ends at the greatest total, or just beside it.
    fn edge(&mut self, slot: usize) -> Step {
        let ends: Vec<usize> = self.ends(slot).collect();
        let end = if ends.is_empty() { 0 } else { self.rng.pick(&ends) as u32 };
        let taken = (u32::MAX - end).saturating_add(self.rng.pick(&[0, 0, 1, 2, 16]));
        let entry = Entry { taken, ..*self.entry(slot) };
        if self.rng.chance(1, 2) {
            let total = u32::MAX.into();
            self.waiting = vec![Step::Take { slot: slot as u32, key: entry.key, total }];
        }
        Step::Set { slot, entry }
    }

    /// A record, then rubbish: a second text begins inside the first, and its characters after it.
    fn spelled(&mut self, slot: usize) -> Step {
        let first = self.rng.between(HEADER as u32, 40) as usize;
        let rubbish = totals::rubbish(&mut self.rng);
        let end = HEADER + first;
        let used = match self.rng.below(4) {
            0 => end + self.rng.size(rubbish.len() + 20),
            1 => end - self.rng.size(2),
            _ => end + rubbish.len(),
        };
        let within = Step::Direct { slot, part: trn(&rubbish) };
        let text = Step::Direct { slot, part: trn(&vec![0xC1; first]) };
        let ready = [used, end - HEADER].map(|used| self.ready(slot, used as u32));
        let [last, inside] = ready;
        self.waiting = vec![last, within, inside, text];
        self.ready(slot, 0)
    }

    /// The slot's job at the start of a wide page, with so many bytes used.
    fn ready(&mut self, slot: usize, used: u32) -> Step {
        let descriptor = Descriptor { size_i: 32_767, ..sheet::descriptor(sheet::SIX_LINES) };
        let state = State { used, ..State::start(&descriptor) };
        let taken = totals::taken(&mut self.rng);
        let key = self.entry(slot).key;
        self.placed(slot, Entry { key, mark: 1, descriptor, state, next: 1, taken })
    }
}

fn trn(text: &[u8]) -> Vec<u8> {
    [&[PREFIX, CLASS, text.len() as u8 + 2, TRN], text].concat()
}
