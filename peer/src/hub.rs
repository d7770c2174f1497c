//! The job table: slots, keys and part numbers, and beside it the stored number of open jobs.

use crate::answer::{Answer, Code};
use crate::interpret::interpret_in_range;
use crate::model::{Descriptor, Entry, AREA, GREATEST_NEXT, MOST_OPEN, RECORDS, SLOTS};
use crate::take::drain;

/// All memory that a submit is lent; a take has the widths left out.
#[derive(Debug)]
pub struct Lent<'a> {
    /// The job table, sixteen entries.
    pub table: &'a mut [Entry],
    /// The record buffer, 65,536 bytes.
    pub records: &'a mut [u8],
    /// The width table, 1,024 numbers.
    pub widths: &'a [u16],
}

/// Opens a job in a slot, and counts it.
pub fn open(
    table: &mut [Entry],
    stored: &mut u32,
    slot: u32,
    key: u32,
    descriptor: &Descriptor,
) -> Answer {
    let entry = match entry_of(table, slot) {
        Ok(entry) => entry,
        Err(code) => return Answer::only(code),
    };
    if entry.is_open() {
        return Answer::only(if entry.key == key { Code::Taken } else { Code::Busy });
    }
    if key <= entry.key {
        return Answer::only(Code::OldKey);
    }
    if !descriptor.in_range() {
        return Answer::only(Code::Descriptor);
    }
    // With a slot still closed there are fewer open jobs than slots.
    if *stored >= MOST_OPEN {
        return Answer::only(Code::Stored);
    }
    *stored += 1;
    *entry = Entry::opened(key, descriptor);
    Answer::only(Code::Done)
}

/// Places part `number` of a job.
pub fn submit(lent: Lent<'_>, slot: u32, key: u32, number: u32, part: &[u8]) -> Answer {
    let (Ok(widths), RECORDS) = (lent.widths.try_into(), lent.records.len()) else {
        return Answer::only(Code::Lent);
    };
    let entry = match entry_of(lent.table, slot) {
        Ok(entry) => entry,
        Err(code) => return Answer::only(code),
    };
    if !entry.is_open() || entry.key != key {
        return Answer::only(Code::NoJob);
    }
    if let Err(code) = judge(number, entry.next) {
        return Answer::only(code);
    }
    let (areas, _) = lent.records.as_chunks_mut::<AREA>();
    let area = &mut areas[slot as usize];
    let answer = interpret_in_range(part, widths, area, &entry.descriptor, &mut entry.state);
    if answer.is_done() {
        entry.next += 1;
    }
    answer
}

/// Takes records that were read: `total` bytes of them since the job opened.
pub fn take(lent: Lent<'_>, slot: u32, key: u32, total: u64) -> Answer {
    if lent.records.len() != RECORDS {
        return Answer::only(Code::Lent);
    }
    let entry = match entry_of(lent.table, slot) {
        Ok(entry) => entry,
        Err(code) => return Answer::only(code),
    };
    if !entry.is_open() || entry.key != key {
        return Answer::only(Code::NoJob);
    }
    let (areas, _) = lent.records.as_chunks_mut::<AREA>();
    match drain(&mut areas[slot as usize], entry, total) {
        Ok(()) => Answer::only(Code::Done),
        Err(code) => Answer::only(code),
    }
}

/// Closes a job, and counts it no more; of its entry only the open mark changes.
pub fn close(table: &mut [Entry], stored: &mut u32, slot: u32, key: u32) -> Answer {
    let entry = match entry_of(table, slot) {
        Ok(entry) => entry,
        Err(code) => return Answer::only(code),
    };
    if entry.key != key {
        return Answer::only(Code::NoJob);
    }
    if !entry.is_open() {
        // A fresh entry holds key 0, under which no job was closed.
        return Answer::only(if key > 0 { Code::Taken } else { Code::NoJob });
    }
    // This job is open, so there is at least one.
    if !(1..=MOST_OPEN).contains(stored) {
        return Answer::only(Code::Stored);
    }
    *stored -= 1;
    entry.mark = 0;
    Answer::only(Code::Done)
}

/// Open jobs, damaged ones too; none in a table of another length.
pub fn count(table: &[Entry]) -> u32 {
    if table.len() == SLOTS {
        table.iter().map(|entry| u32::from(entry.is_open())).sum()
    } else {
        0
    }
}

/// The entry of a slot: 10, 11, 12.
fn entry_of(table: &mut [Entry], slot: u32) -> Result<&mut Entry, Code> {
    if table.len() != SLOTS {
        return Err(Code::Lent);
    }
    let entry = table.get_mut(slot as usize).ok_or(Code::Slot)?;
    if entry.is_damaged() {
        return Err(Code::Damaged);
    }
    Ok(entry)
}

/// Whether a part number is the next one.
fn judge(number: u32, next: u32) -> Result<(), Code> {
    match number {
        0 | GREATEST_NEXT.. => Err(Code::Number),
        _ if number < next => Err(Code::Taken),
        _ if number > next => Err(Code::Gap),
        _ => Ok(()),
    }
}
