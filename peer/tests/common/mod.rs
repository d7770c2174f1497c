//! A hub with all its memory, for tests.

#![allow(dead_code)]

use peer::hub::{self, Lent};
use peer::model::{position, RECORDS, SLOTS, WIDTHS};
use peer::record::{records, Record};
use peer::sheet::{self, SIX_LINES};
use peer::{Answer, Descriptor, Entry, State};

/// The sheet of document 01's rows.
pub const DESCRIPTOR: Descriptor = sheet::descriptor(SIX_LINES);

/// Bytes of hex digits; spaces don't count.
pub fn hex(digits: &str) -> Vec<u8> {
    let digits: Vec<u8> = digits
        .chars()
        .filter(|digit| *digit != ' ')
        .map(|digit| digit.to_digit(16).expect("a hex digit") as u8)
        .collect();
    digits.chunks(2).map(|pair| pair[0] << 4 | pair[1]).collect()
}

pub fn answer(code: u32, first: u32, second: u32) -> Answer {
    Answer { code, first, second }
}

/// Fresh memory of the right lengths.
pub struct Desk {
    pub table: Vec<Entry>,
    pub stored: u32,
    pub records: Vec<u8>,
    pub widths: Vec<u16>,
}

impl Desk {
    pub fn new() -> Self {
        Self {
            table: vec![Entry::FRESH; SLOTS],
            stored: 0,
            records: vec![0; RECORDS],
            widths: vec![144; WIDTHS],
        }
    }

    /// A job of this descriptor in slot 0 under key 1.
    pub fn job(descriptor: &Descriptor) -> Self {
        let mut desk = Self::new();
        assert_eq!(desk.open(0, 1, descriptor), answer(0, 0, 0));
        desk
    }

    pub fn open(&mut self, slot: u32, key: u32, descriptor: &Descriptor) -> Answer {
        hub::open(&mut self.table, &mut self.stored, slot, key, descriptor)
    }

    pub fn submit(&mut self, slot: u32, key: u32, number: u32, part: &[u8]) -> Answer {
        let (table, records) = (&mut self.table[..], &mut self.records[..]);
        hub::submit(Lent { table, records, widths: &self.widths }, slot, key, number, part)
    }

    pub fn take(&mut self, slot: u32, key: u32, total: u64) -> Answer {
        let (table, records) = (&mut self.table[..], &mut self.records[..]);
        hub::take(Lent { table, records, widths: &self.widths }, slot, key, total)
    }

    pub fn close(&mut self, slot: u32, key: u32) -> Answer {
        hub::close(&mut self.table, &mut self.stored, slot, key)
    }

    /// The next part of slot 0's job.
    pub fn part(&mut self, digits: &str) -> Answer {
        let number = self.table[0].next;
        self.submit(0, 1, number, &hex(digits))
    }

    pub fn state(&mut self) -> &mut State {
        &mut self.table[0].state
    }

    /// I and B of slot 0.
    pub fn place(&self) -> (i32, i32) {
        let State { i, b, .. } = self.table[0].state;
        (position(i).expect("in range"), position(b).expect("in range"))
    }

    /// The records of slot 0.
    pub fn placed(&self) -> Vec<Record<'_>> {
        records(&self.records[..self.table[0].state.used as usize]).collect()
    }
}
