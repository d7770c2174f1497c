//! Hubs with one thing wrong, which the tests have to find.

mod number;
mod parts;
mod take;

use peer::hub::Lent;
use peer::model::{AREA, GREATEST_DISTANCE, LONGEST_PART, SLOTS};
use peer::replay::Backend;
use peer::sheet::{self, SIX_LINES, WIDTHS_144};
use peer::{Answer, Code, Descriptor, Entry, State};

use parts::{is_second, no_room};

/// What is wrong, and which test is to find it.
#[derive(Clone, Copy, Debug, PartialEq, Eq)]
pub enum Fault {
    FreshKey,
    OpenKey,
    CloseForgets,
    CountOff,
    RecordByte,
    NeighbourByte,
    RefusalTouches,
    AddedOff,
    InkRoom,
    PartElements,
    PartRecord,
    PartState,
    PartRefusal,
    PartPlace,
    CheckCode,
    CheckSix,
    CheckDefault,
    CheckOrder,
    CheckBound,
    OpenAtSixteen,
    CloseAtSeventeen,
    CloseAtNone,
    StoredCut,
    StoredWalked,
    StoredEarly,
    RefusalStores,
    OpenBusy,
    OpenNotAtFifteen,
    CloseUncounted,
    CloseNotAtSixteen,
    Order,
    StoredOrder,
    Retaken,
    Reclosed,
    Recounted,
    StoredFirst,
    TakeZeroes,
    TakeMovesAll,
    TakeForgets,
    TakeNext,
    TakeInside,
    TakeUsedUp,
    TakeKinds,
    TakeOne,
    TakeUsed,
    TakeCut,
    TakeGreatest,
    TakeWraps,
    TakeClosed,
    TakeWidths,
    TakeSlotFirst,
    OpenTaken,
    CloseTaken,
    SubmitRoom,
    TakeShort,
    TakeStays,
    SubmitTaken,
    TakeOrder,
    TakeEarly,
    TakeAgain,
    TakeBack,
}

/// Every fault, its name for `--break`, and the test that is to find it.
pub const FAULTS: [(Fault, &str, &str); 61] = [
    (Fault::FreshKey, "fresh-key", "requests"),
    (Fault::OpenKey, "open-key", "requests"),
    (Fault::CloseForgets, "close-forgets", "requests"),
    (Fault::CountOff, "count-off", "requests"),
    (Fault::RecordByte, "record-byte", "requests"),
    (Fault::NeighbourByte, "neighbour-byte", "requests"),
    (Fault::RefusalTouches, "refusal-touches", "requests"),
    (Fault::AddedOff, "added-off", "requests"),
    (Fault::InkRoom, "ink-room", "requests"),
    (Fault::PartElements, "part-elements", "parts"),
    (Fault::PartRecord, "part-record", "parts"),
    (Fault::PartState, "part-state", "parts"),
    (Fault::PartRefusal, "part-refusal", "parts"),
    (Fault::PartPlace, "part-place", "parts"),
    (Fault::CheckCode, "check-code", "parts"),
    (Fault::CheckSix, "check-six", "parts"),
    (Fault::CheckDefault, "check-default", "parts"),
    (Fault::CheckOrder, "check-order", "parts"),
    (Fault::CheckBound, "check-bound", "parts"),
    (Fault::OpenAtSixteen, "open-at-16", "requests"),
    (Fault::CloseAtSeventeen, "close-at-17", "requests"),
    (Fault::CloseAtNone, "close-at-0", "requests"),
    (Fault::StoredCut, "stored-cut", "requests"),
    (Fault::StoredWalked, "stored-walked", "requests"),
    (Fault::StoredEarly, "stored-early", "requests"),
    (Fault::RefusalStores, "refusal-stores", "requests"),
    (Fault::OpenBusy, "open-busy", "stored"),
    (Fault::OpenNotAtFifteen, "open-not-at-15", "stored"),
    (Fault::CloseUncounted, "close-uncounted", "stored"),
    (Fault::CloseNotAtSixteen, "close-not-at-16", "stored"),
    (Fault::Order, "order", "swap"),
    (Fault::StoredOrder, "stored-order", "swap"),
    (Fault::Retaken, "retaken", "repeat"),
    (Fault::Reclosed, "reclosed", "repeat"),
    (Fault::Recounted, "recounted", "repeat"),
    (Fault::StoredFirst, "stored-first", "repeat"),
    (Fault::TakeZeroes, "take-zeroes", "requests"),
    (Fault::TakeMovesAll, "take-moves-all", "requests"),
    (Fault::TakeForgets, "take-forgets", "requests"),
    (Fault::TakeNext, "take-next", "requests"),
    (Fault::TakeInside, "take-inside", "requests"),
    (Fault::TakeUsedUp, "take-used-up", "requests"),
    (Fault::TakeKinds, "take-kinds", "requests"),
    (Fault::TakeOne, "take-one", "requests"),
    (Fault::TakeUsed, "take-used", "requests"),
    (Fault::TakeCut, "take-cut", "requests"),
    (Fault::TakeGreatest, "take-greatest", "requests"),
    (Fault::TakeWraps, "take-wraps", "requests"),
    (Fault::TakeClosed, "take-closed", "requests"),
    (Fault::TakeWidths, "take-widths", "requests"),
    (Fault::TakeSlotFirst, "take-slot-first", "requests"),
    (Fault::OpenTaken, "open-taken", "requests"),
    (Fault::CloseTaken, "close-taken", "requests"),
    (Fault::SubmitRoom, "submit-room", "requests"),
    (Fault::TakeShort, "take-short", "drained"),
    (Fault::TakeStays, "take-stays", "drained"),
    (Fault::SubmitTaken, "submit-taken", "drained"),
    (Fault::TakeOrder, "take-order", "swap"),
    (Fault::TakeEarly, "take-early", "repeat"),
    (Fault::TakeAgain, "take-again", "repeat"),
    (Fault::TakeBack, "take-back", "repeat"),
];

/// A hub with a fault.
#[derive(Clone, Debug)]
pub struct Broken<B> {
    hub: B,
    fault: Fault,
    /// The slot asked for before, which no hub should remember.
    before: u32,
}

impl<B> Broken<B> {
    pub fn new(hub: B, fault: Fault) -> Self {
        Self { hub, fault, before: 0 }
    }

    fn is(&self, fault: Fault) -> bool {
        self.fault == fault
    }
}

/// The entry of a slot, a fresh one if there is none.
fn entry(table: &[Entry], slot: u32) -> Entry {
    table.get(slot as usize).copied().unwrap_or(Entry::FRESH)
}

impl<B: Backend> Backend for Broken<B> {
    fn fresh(&mut self) -> [Entry; SLOTS] {
        let mut table = self.hub.fresh();
        table[SLOTS - 1].key += u32::from(self.is(Fault::FreshKey));
        table
    }

    fn open(
        &mut self,
        table: &mut [Entry],
        stored: &mut u32,
        slot: u32,
        key: u32,
        d: &Descriptor,
    ) -> Answer {
        let before = entry(table, slot);
        let sees = number::open_sees(self.fault, *stored, table);
        let ask = |seen: &mut u32| self.hub.open(&mut *table, seen, slot, key, d);
        let mut answer = number::asked(stored, sees, ask);
        number::opened(self.fault, &mut answer, stored, table, self.before > slot);
        if answer.is_done() {
            let entry = &mut table[slot as usize];
            entry.key = entry.key.wrapping_add(self.is(Fault::OpenKey).into());
            take::kept(self.fault, entry, &before);
        }
        self.before = slot;
        answer
    }

    fn submit(&mut self, lent: Lent<'_>, slot: u32, key: u32, number: u32, part: &[u8]) -> Answer {
        let Lent { table, records, widths } = lent;
        let at = slot as usize;
        let before = entry(table, slot);
        let lent = Lent { table: &mut *table, records: &mut *records, widths };
        let mut answer = self.hub.submit(lent, slot, key, number, part);
        match self.fault {
            Fault::RecordByte if answer.second > 0 => {
                records[AREA * at + table[at].state.used as usize - 1] ^= 1;
            }
            Fault::NeighbourByte if answer.is_done() => {
                records[AREA * ((at + 1) % SLOTS)] ^= 1;
            }
            Fault::RefusalTouches if answer.code == Code::Room as u32 => {
                records[AREA * at + AREA - 1] ^= 1;
            }
            Fault::AddedOff if answer.is_done() => answer.second += 1,
            Fault::InkRoom if answer.is_done() => {
                if let Some(start) = no_room(part, &before) {
                    table[at] = before;
                    answer = Answer::at(Code::Room.into(), start);
                }
            }
            Fault::Order if answer.is_done() && self.before > slot => records[AREA * at] ^= 1,
            Fault::Retaken if answer.code == Code::Taken as u32 => table[at].next += 1,
            fault if answer.is_done() => {
                take::submitted(fault, &mut answer, &mut table[at], &before);
            }
            _ => {}
        }
        self.before = slot;
        answer
    }

    fn take(&mut self, lent: Lent<'_>, slot: u32, key: u32, total: u64) -> Answer {
        let down = self.before > slot;
        self.before = slot;
        take::asked(&mut self.hub, self.fault, lent, (slot, key, total), down)
    }

    fn close(&mut self, table: &mut [Entry], stored: &mut u32, slot: u32, key: u32) -> Answer {
        let before = entry(table, slot);
        let sees = number::close_sees(self.fault, *stored, table);
        let ask = |seen: &mut u32| self.hub.close(&mut *table, seen, slot, key);
        let mut answer = number::asked(stored, sees, ask);
        number::closed(self.fault, &mut answer, stored, table);
        if answer.is_done() {
            take::kept(self.fault, &mut table[slot as usize], &before);
        }
        if answer.is_done() && self.is(Fault::CloseForgets) {
            table[slot as usize].key = 0;
        }
        self.before = slot;
        if answer.code == Code::Taken as u32 && self.is(Fault::Reclosed) {
            return Answer::only(Code::Done);
        }
        answer
    }

    fn count(&mut self, table: &[Entry]) -> u32 {
        let count = self.hub.count(table);
        count + u32::from(self.is(Fault::CountOff) && count > 3)
    }

    fn direct(
        &mut self,
        part: &[u8],
        widths: &[u16],
        area: &mut [u8],
        d: &Descriptor,
        s: &mut State,
    ) -> Answer {
        let mut answer = self.hub.direct(part, widths, area, d, s);
        match self.fault {
            Fault::PartElements if answer.first > 20 && answer.is_done() => answer.first -= 1,
            Fault::PartRecord if answer.second > 0 => area[s.used as usize - 1] ^= 1,
            Fault::PartState if answer.second > 0 => s.margin += 1,
            Fault::PartRefusal if answer.code == Code::Pairing as u32 => s.suppression ^= 1,
            Fault::PartPlace if is_second(part, answer) => answer.first -= 2,
            _ => {}
        }
        answer
    }

    fn check(&mut self, part: &[u8]) -> u32 {
        if self.is(Fault::CheckSix) {
            return self.hub.check_at(part, SIX_LINES);
        }
        match self.hub.check(part) {
            code if code == Code::Position as u32 && self.is(Fault::CheckCode) => {
                Code::Outside as u32
            }
            code => code,
        }
    }

    fn check_at(&mut self, part: &[u8], increment: u32) -> u32 {
        match self.fault {
            // The first lines are as asked for, but all ones bring back the old increment.
            Fault::CheckDefault if increment <= GREATEST_DISTANCE => {
                let six = sheet::descriptor(SIX_LINES);
                let mut start = State { increment, ..State::start(&six) };
                self.hub.direct(part, &WIDTHS_144, &mut [0; AREA], &six, &mut start).code
            }
            Fault::CheckOrder if part.len() > LONGEST_PART => Code::Long as u32,
            Fault::CheckBound if increment == GREATEST_DISTANCE + 1 => {
                self.hub.check_at(part, GREATEST_DISTANCE)
            }
            _ => self.hub.check_at(part, increment),
        }
    }
}
