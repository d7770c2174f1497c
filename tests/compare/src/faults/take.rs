//! Hubs that take records otherwise than they should.

use peer::hub::Lent;
use peer::model::{AREA, RECORDS, SLOTS, WIDTHS};
use peer::record::{ends, record_at};
use peer::replay::Backend;
use peer::{Answer, Code, Entry};

use super::Fault;

/// What is wrong with what is taken after an open or a close, done to an entry that was `before`.
pub(super) fn kept(fault: Fault, entry: &mut Entry, before: &Entry) {
    match fault {
        Fault::OpenTaken if entry.is_open() => entry.taken = before.taken,
        Fault::CloseTaken if !entry.is_open() => entry.taken = 0,
        _ => {}
    }
}

/// What is wrong with an accepted part of an entry that was `before`.
pub(super) fn submitted(fault: Fault, answer: &mut Answer, entry: &mut Entry, before: &Entry) {
    let written = u64::from(entry.taken) + u64::from(entry.state.used);
    match fault {
        Fault::SubmitTaken => entry.taken = 0,
        Fault::SubmitRoom if answer.second > 0 && written > AREA as u64 => {
            *entry = *before;
            *answer = Answer::only(Code::Room);
        }
        _ => {}
    }
}

/// An area and its entry, as they were.
struct Place {
    at: usize,
    entry: Entry,
    area: Vec<u8>,
}

impl Place {
    /// A slot of memory that is lent in its right lengths.
    fn of(lent: &Lent<'_>, slot: u32) -> Option<Self> {
        let at = slot as usize;
        let right = lent.table.len() == SLOTS && lent.records.len() == RECORDS;
        let entry = *lent.table.get(at).filter(|_| right)?;
        Some(Self { at, entry, area: lent.records[AREA * at..][..AREA].to_vec() })
    }

    fn used(&self) -> usize {
        AREA.min(self.entry.state.used as usize)
    }

    /// The bytes that a take to this total would read, if they are in use.
    fn read(&self, total: u64) -> Option<usize> {
        let read = usize::try_from(total.checked_sub(self.entry.taken.into())?).ok()?;
        Some(read).filter(|read| *read <= self.used())
    }

    fn put(&self, lent: &mut Lent<'_>) {
        lent.table[self.at] = self.entry;
        lent.records[AREA * self.at..][..AREA].copy_from_slice(&self.area);
    }

    /// Takes to this total without a question.
    fn drain(mut self, lent: &mut Lent<'_>, total: u64, read: usize) -> Answer {
        let used = self.used();
        self.area.copy_within(read..used, 0);
        self.entry.state.used = (used - read) as u32;
        self.entry.taken = total as u32;
        self.put(lent);
        Answer::only(Code::Done)
    }
}

/// Asks a hub that has this fault; `down` if a request of a greater slot came before it.
pub(super) fn asked(
    hub: &mut impl Backend,
    fault: Fault,
    mut lent: Lent<'_>,
    (slot, key, total): (u32, u32, u64),
    down: bool,
) -> Answer {
    if let Some(code) = early(fault, &lent, slot) {
        return Answer::only(code);
    }
    let before = Place::of(&lent, slot);
    let sees = if fault == Fault::TakeCut { total & 0xFFFF_FFFF } else { total };
    let Lent { table, records, widths } = &mut lent;
    let answer = hub.take(Lent { table, records, widths }, slot, key, sees);
    match before {
        Some(before) if answer.is_done() => done(fault, &mut lent, before, total, down),
        Some(before) => refused(fault, &mut lent, before, key, total).unwrap_or(answer),
        None => answer,
    }
}

/// What is wrong before anything is asked.
fn early(fault: Fault, lent: &Lent<'_>, slot: u32) -> Option<Code> {
    match fault {
        Fault::TakeWidths if lent.widths.len() != WIDTHS => Some(Code::Lent),
        Fault::TakeSlotFirst if slot as usize >= SLOTS => Some(Code::Slot),
        _ => None,
    }
}

/// What is wrong after a take that was done.
fn done(fault: Fault, lent: &mut Lent<'_>, before: Place, total: u64, down: bool) -> Answer {
    let at = before.at;
    let (used, left) = (before.used(), lent.table[at].state.used as usize);
    let area = &mut lent.records[AREA * at..][..AREA];
    match fault {
        Fault::TakeZeroes => area[left..used].fill(0),
        Fault::TakeShort if left > 0 => area[left - 1] = before.area[left - 1],
        Fault::TakeMovesAll => area[left..AREA - used + left].copy_from_slice(&before.area[used..]),
        Fault::TakeStays => area.copy_from_slice(&before.area),
        Fault::TakeOrder if down => area[0] ^= 1,
        Fault::TakeForgets => lent.table[at].taken = before.entry.taken,
        Fault::TakeNext => lent.table[at].next = 1,
        Fault::TakeUsed if total > used as u64 => return undone(lent, &before),
        Fault::TakeKinds if !whole(&before.area[..used]).contains(&(used - left)) => {
            return undone(lent, &before);
        }
        Fault::TakeGreatest if total == u32::MAX.into() => return undone(lent, &before),
        Fault::TakeOne if ends(&before.area[..used]).next() != Some(used - left) => {
            return undone(lent, &before);
        }
        _ => {}
    }
    Answer::only(Code::Done)
}

fn undone(lent: &mut Lent<'_>, before: &Place) -> Answer {
    before.put(lent);
    Answer::only(Code::Total)
}

/// What is wrong with a refusal; nothing, if it stands.
fn refused(
    fault: Fault,
    lent: &mut Lent<'_>,
    before: Place,
    key: u32,
    total: u64,
) -> Option<Answer> {
    let Entry { mark, key: last, taken, .. } = before.entry;
    let closed = fault == Fault::TakeClosed && mark == 0;
    if key != last || before.entry.is_damaged() || before.entry.is_open() == closed {
        return None;
    }
    if total <= taken.into() {
        return again(fault, lent, before.at, total < taken.into());
    }
    let read = before.read(total)?;
    let above = total > u32::MAX.into();
    let is_end = ends(&before.area[..before.used()]).any(|end| end == read);
    let takes = match fault {
        Fault::TakeInside => !above,
        Fault::TakeUsedUp => !above && read == before.used(),
        Fault::TakeWraps => is_end,
        Fault::TakeClosed => !above && is_end,
        _ => false,
    };
    takes.then(|| before.drain(lent, total, read))
}

/// What is wrong with a total at or below the one taken.
fn again(fault: Fault, lent: &mut Lent<'_>, at: usize, below: bool) -> Option<Answer> {
    match fault {
        Fault::TakeEarly if below => Some(Answer::only(Code::Total)),
        Fault::TakeAgain if !below => Some(Answer::only(Code::Done)),
        Fault::TakeClosed => Some(Answer::only(Code::Taken)),
        Fault::TakeBack if below => {
            lent.table[at].taken -= 1;
            None
        }
        _ => None,
    }
}

/// Where records end that are whole by their kinds, too.
fn whole(bytes: &[u8]) -> Vec<usize> {
    let (mut at, mut places) = (0, Vec::new());
    while let Some((_, length)) = record_at(&bytes[at..]) {
        at += length;
        places.push(at);
    }
    places
}
