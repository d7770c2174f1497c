//! A hub that owns its memory.

use std::fmt;

use crate::bytes;
use crate::ffi::{self, Lent};
use crate::shapes::{Descriptor, Entry, Table};
use crate::{Answer, Records, AREA, RECORDS, SLOTS, TABLE, WIDTHS};

/// Sixteen slots for jobs, the number of open ones, and their records.
///
/// A request takes the hub by `&mut`, so two never run on one table at once; threads
/// share a hub behind a lock. Promised is what requests alone have made of the memory:
/// what the host writes to it the library takes as it finds it.
#[derive(Clone)]
pub struct Hub {
    table: Box<Table>,
    /// The stored number, lent with the table; only requests and a recount write to it.
    open_jobs: u32,
    records: Box<[u8; RECORDS]>,
}

impl Hub {
    /// A fresh table with no open jobs, and zeroed records.
    pub fn new() -> Self {
        Self { table: Box::new(ffi::fresh()), open_jobs: 0, records: Box::new([0; RECORDS]) }
    }

    /// A hub on memory that was kept: [`table_bytes`](Self::table_bytes) and
    /// [`record_bytes`](Self::record_bytes) of one moment, or what a host in C kept.
    ///
    /// The number of open jobs isn't kept: it is counted here, so that it is right beside
    /// any table.
    ///
    /// Any bytes are taken. An open entry with a number out of range is answered 12. A
    /// wrong number that is in range, or a wrong record byte, is not seen: where files may
    /// go bad, keep a checksum with them.
    ///
    /// Before entries had [`Entry::taken`], a table was 16 times 108 bytes. Nothing was taken
    /// then, so four zeros behind each entry make it one of these:
    ///
    /// ```
    /// # use halviruso::{Code, Descriptor, Hub, Point, RECORDS, TABLE};
    /// # let sheet = Descriptor { size: Point { i: 1_440, b: 1_440 }, ..Descriptor::default() };
    /// # let mut hub = Hub::new();
    /// # assert_eq!(hub.open(15, 7, sheet).code, Code::DONE);
    /// # let now = hub.table_bytes();
    /// # let older: Vec<u8> = now.chunks(112).flat_map(|entry| &entry[..108]).copied().collect();
    /// # let records = [0; RECORDS];
    /// let mut table = [0; TABLE];
    /// for (entry, older) in table.chunks_mut(112).zip(older.chunks(108)) {
    ///     entry[..108].copy_from_slice(older);
    /// }
    /// let mut hub = Hub::from_memory(&table, &records);
    /// # assert_eq!((older.len(), hub.open_jobs()), (1_728, 1));
    /// # assert_eq!(hub.close(15, 7).code, Code::DONE);
    /// ```
    pub fn from_memory(table: &[u8; TABLE], records: &[u8; RECORDS]) -> Self {
        let table = Box::new(bytes::to_table(table));
        let open_jobs = ffi::count(&table);
        Self { table, open_jobs, records: Box::new(*records) }
    }

    /// Opens a job in a slot under a key, which must be above every key that the slot has had.
    pub fn open(&mut self, slot: u32, key: u32, descriptor: Descriptor) -> Answer {
        ffi::open(&mut self.table, &mut self.open_jobs, slot, key, descriptor)
    }

    /// Submits part `number` of the job; the first is 1. Send it again, with the same number, until it is answered.
    ///
    /// Font f's code point c is `widths[256 * f + c]` wide. What a job holds is promised
    /// for one width table through all of its parts; another job may have another.
    pub fn submit(
        &mut self,
        widths: &[u16; WIDTHS],
        slot: u32,
        key: u32,
        number: u32,
        part: &[u8],
    ) -> Answer {
        let Self { table, records, .. } = self;
        ffi::submit(Lent { table, records: &mut records[..], widths }, slot, key, number, part)
    }

    /// Takes records out of the job's area, from its start: the printer has read `total`
    /// record bytes since the job was opened, this time's and all before.
    ///
    /// The unread ones move down to the start, and later parts use the room. Bytes past the
    /// new end keep what they held. [`Entry::taken`] is then `total`: a take that is sent
    /// again is answered 1, and moves nothing twice. A total beyond what was written, or one
    /// that ends inside a record, is answered 30 ([`Code::BAD_TOTAL`](crate::Code::BAD_TOTAL)).
    ///
    /// A printer reads whole records from the start of the area, and counts on from `taken`.
    /// It takes before the close: a closed job answers 16, and its records stay.
    ///
    /// ```
    /// use halviruso::{Code, Descriptor, Hub, Point, WIDTHS};
    ///
    /// let sheet = Descriptor { size: Point { i: 1_440, b: 1_440 }, ..Descriptor::default() };
    /// let (widths, mut hub) = ([144; WIDTHS], Hub::new());
    /// assert_eq!(hub.open(3, 7, sheet).code, Code::DONE);
    /// assert_eq!(hub.submit(&widths, 3, 7, 1, b"\xC1\xC2").code, Code::DONE);
    /// assert_eq!(hub.submit(&widths, 3, 7, 2, b"\xC3").code, Code::DONE);
    ///
    /// // The printer draws the first record; what it hasn't stepped over is the rest.
    /// let mut records = hub.records(3);
    /// let before = records.rest().len();
    /// let drawn = records.next();
    /// assert!(drawn.is_some());
    /// let read = before - records.rest().len();
    /// let total = u64::from(hub.entry(3).unwrap().taken) + read as u64;
    /// assert_eq!((total, hub.take(3, 7, total).code), (18, Code::DONE));
    ///
    /// // The second record is the first one now. No reply in time? The same take again is safe.
    /// assert_eq!(hub.records(3).count(), 1);
    /// assert_eq!(hub.take(3, 7, total).code, Code::ALREADY_TAKEN);
    /// // It ends at 35, and nowhere before.
    /// assert_eq!(hub.take(3, 7, 34).code, Code::BAD_TOTAL);
    /// assert_eq!(hub.take(3, 7, 35).code, Code::DONE);
    /// ```
    pub fn take(&mut self, slot: u32, key: u32, total: u64) -> Answer {
        ffi::take(&mut self.table, &mut self.records[..], slot, key, total)
    }

    /// Closes the job of this key. Its records stay until the slot's next job writes over them.
    pub fn close(&mut self, slot: u32, key: u32) -> Answer {
        ffi::close(&mut self.table, &mut self.open_jobs, slot, key)
    }

    /// How many jobs are open, damaged ones included, without a walk over the table.
    ///
    /// It is [`count`](Self::count) after every request. Only a mark that the host writes
    /// itself, by [`entry_mut`](Self::entry_mut), makes the two differ; then
    /// [`recount`](Self::recount).
    pub fn open_jobs(&self) -> u32 {
        self.open_jobs
    }

    /// How many jobs are open, damaged ones included, by a walk over the table: right
    /// whoever has written to it.
    pub fn count(&self) -> u32 {
        ffi::count(&self.table)
    }

    /// Makes [`open_jobs`](Self::open_jobs) what [`count`](Self::count) says, and answers it.
    ///
    /// For a host that has written marks itself, and after an answer of 32
    /// ([`Code::STORED_NUMBER`](crate::Code::STORED_NUMBER)), which has changed nothing: the request
    /// can be sent again.
    pub fn recount(&mut self) -> u32 {
        self.open_jobs = self.count();
        self.open_jobs
    }

    /// The records of a slot's job in the order of its parts, of a closed job too; none above slot 15.
    /// Those that were [taken](Self::take) are gone.
    ///
    /// Before the first step, `rest` has their bytes.
    pub fn records(&self, slot: u32) -> Records<'_> {
        let used = self.entry(slot).map_or(0, |entry| entry.state.used as usize);
        let area: &[u8] = self.area(slot).map_or(&[], |area| area);
        // A damaged entry can say more than there is.
        Records::new(&area[..used.min(area.len())])
    }

    /// The whole table, slot by slot.
    pub fn table(&self) -> &[Entry; SLOTS] {
        &self.table.entries
    }

    /// A slot's entry, of an open job or of the last one; `None` above slot 15.
    pub fn entry(&self, slot: u32) -> Option<&Entry> {
        self.table.entries.get(slot as usize)
    }

    /// A slot's entry, to write to; `None` above slot 15.
    ///
    /// A damaged job, whose every request is answered 12, is given up by setting `mark`
    /// to 0. Its key stays, so that keys only rise and the job's late requests do no harm;
    /// if it is in doubt too, set it to the greatest key that the slot has had. The job's
    /// records are not promised any more. The slot's next job is one like any other.
    ///
    /// Whoever has written a mark calls [`recount`](Self::recount), so that
    /// [`open_jobs`](Self::open_jobs) is right again.
    pub fn entry_mut(&mut self, slot: u32) -> Option<&mut Entry> {
        self.table.entries.get_mut(slot as usize)
    }

    /// All of a slot's 4,096 record bytes, in use or not; `None` above slot 15.
    pub fn area(&self, slot: u32) -> Option<&[u8; AREA]> {
        self.records.chunks_exact(AREA).nth(slot as usize)?.try_into().ok()
    }

    /// A slot's record bytes, to write to; `None` above slot 15. With the entry, one job is put back.
    pub fn area_mut(&mut self, slot: u32) -> Option<&mut [u8; AREA]> {
        self.records.chunks_exact_mut(AREA).nth(slot as usize)?.try_into().ok()
    }

    /// The table as bytes, to keep together with [`record_bytes`](Self::record_bytes).
    ///
    /// Each number is little-endian, in the order of `include/halviruso.h`: on x86-64
    /// the bytes that a host in C has in memory.
    pub fn table_bytes(&self) -> [u8; TABLE] {
        bytes::of_table(&self.table)
    }

    /// The whole record buffer; slot s owns the 4,096 bytes from 4,096 times s.
    pub fn record_bytes(&self) -> &[u8; RECORDS] {
        &self.records
    }
}

impl Default for Hub {
    fn default() -> Self {
        Self::new()
    }
}

impl fmt::Debug for Hub {
    /// The entries of open jobs; 65,536 record bytes help nobody.
    fn fmt(&self, f: &mut fmt::Formatter<'_>) -> fmt::Result {
        let open = (0..SLOTS).zip(&self.table.entries).filter(|(_, entry)| entry.is_open());
        f.debug_map().entries(open).finish()
    }
}

#[cfg(test)]
mod tests {
    use super::*;
    use crate::{Code, Point, Record};

    const SHEET: Descriptor = Descriptor {
        size: Point { i: 12_240, b: 15_840 },
        initial: Point { i: 0, b: 0 },
        margin: 0,
        increment: 240,
        adjustment: 0,
        direction: 0,
        font: 0,
        colour: 0xFF07,
        rule: 14,
        hidden: 0,
    };

    /// A job in slot 15 with a rule and a character.
    fn opened() -> Hub {
        let mut hub = Hub::new();
        assert_eq!(hub.open(15, 1, SHEET).code, Code::DONE);
        let answer = hub.submit(&[144; WIDTHS], 15, 1, 1, b"\x2B\xD3\x04\xE4\x05\xA0\xC1");
        assert_eq!((answer.code, answer.first, answer.second), (Code::DONE, 2, 33));
        hub
    }

    #[test]
    fn a_damaged_entry_cannot_make_records_panic() {
        let mut hub = opened();
        for used in [4_096, 4_097, 65_536, u32::MAX] {
            hub.table.entries[15].state.used = used;
            // What follows the two records is zeros, and a length of 0 ends the walk.
            assert_eq!(hub.records(15).count(), 2);
        }
        assert_eq!(hub.submit(&[144; WIDTHS], 15, 1, 2, b"").code, Code::DAMAGED);
        assert_eq!(hub.close(15, 1).code, Code::DAMAGED);
        assert_eq!(hub.count(), 1);
    }

    #[test]
    fn a_stored_number_that_cannot_be_right_is_refused_and_left() {
        for number in [0, 1, 15, 16, 17, u32::MAX] {
            let mut hub = opened();
            hub.open_jobs = number;
            let (code, left) = match number {
                0..=15 => (Code::DONE, number + 1),
                _ => (Code::STORED_NUMBER, number),
            };
            assert_eq!((hub.open(0, 1, SHEET).code, hub.open_jobs()), (code, left));
            hub.open_jobs = number;
            let (code, left) = match number {
                1..=16 => (Code::DONE, number - 1),
                _ => (Code::STORED_NUMBER, number),
            };
            assert_eq!((hub.close(15, 1).code, hub.open_jobs()), (code, left));
        }
    }

    #[test]
    fn records_end_at_the_bytes_used() {
        let mut hub = opened();
        for (used, whole) in [(0, 0), (15, 0), (16, 1), (32, 1), (33, 2)] {
            hub.table.entries[15].state.used = used;
            assert_eq!(hub.records(15).count(), whole, "{used} bytes used");
        }
    }

    #[test]
    fn hostile_record_bytes_end_the_walk() {
        let mut hub = opened();
        for (length, kind) in [(0, 1), (15, 1), (17, 2), (16, 9), (65_535, 1)] {
            let [low, high] = u16::to_le_bytes(length);
            hub.records[15 * AREA..][..4].copy_from_slice(&[low, high, kind, 0]);
            assert_eq!(hub.records(15).count(), 0, "length {length}, kind {kind}");
        }
    }

    #[test]
    fn slots_above_15_have_nothing() {
        let mut hub = opened();
        for slot in [16, u32::MAX] {
            assert_eq!((hub.entry(slot), hub.area(slot)), (None, None));
            assert!(hub.entry_mut(slot).is_none() && hub.area_mut(slot).is_none());
            assert_eq!(hub.records(slot).count(), 0);
        }
        assert!(hub.entry_mut(15).is_some() && hub.area_mut(15).is_some());
        assert_eq!(hub.area(15).map(|area| &area[..]), hub.record_bytes().get(15 * AREA..));
    }

    #[test]
    fn a_rule_with_no_ink_is_an_element_and_has_no_record() {
        let mut hub = opened();
        let before = hub.clone();
        let answer = hub.submit(&[144; WIDTHS], 15, 1, 2, b"\x2B\xD3\x04\xE4\x00\x00");
        assert_eq!((answer.code, answer.first, answer.second), (Code::DONE, 1, 0));
        assert_eq!(hub.record_bytes(), before.record_bytes());
        assert_eq!(hub.records(15).count(), 2);
    }

    #[test]
    fn a_rule_s_record_and_the_entry_are_seen() {
        let hub = opened();
        let rule = Record::Rule { i: 0, b: 0, axis: 0, colour: 0xFF07, length: 1_440, width: 14 };
        assert_eq!(hub.records(15).next(), Some(rule));
        let entry = hub.entry(15).expect("slot 15 has an entry");
        assert_eq!((entry.key, entry.next, entry.is_open(), entry.state.i()), (1, 2, true, 144));
        assert_eq!(entry.descriptor, SHEET);
    }
}
