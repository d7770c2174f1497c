//! All memory that a script's requests are lent.

use crate::hub;
use crate::model::{Entry, State, AREA, SLOTS, WIDTHS};
use crate::script::Lend;

/// The memory that a script's requests are lent; beyond the real lengths it is zero and closed.
#[derive(Clone, Debug, PartialEq, Eq)]
pub struct Memory {
    /// The job table, 16 entries and 4 beyond.
    pub table: Vec<Entry>,
    /// The stored number of open jobs, right or wrong.
    pub stored: u32,
    /// The record buffer, 65,536 bytes and 4 beyond.
    pub records: Vec<u8>,
    /// The width table, 1,024 numbers and 4 beyond.
    pub widths: Vec<u16>,
}

impl Memory {
    /// This fresh table, no open jobs stored, zero record bytes, widths of 144.
    pub(super) fn new(fresh: [Entry; SLOTS]) -> Self {
        let beyond = Entry { state: ZERO_STATE, next: 0, ..Entry::FRESH };
        let mut memory = Self {
            table: vec![beyond; Lend::MOST.table],
            stored: 0,
            records: vec![0; Lend::MOST.records],
            widths: vec![0; Lend::MOST.widths],
        };
        memory.table[..SLOTS].copy_from_slice(&fresh);
        memory.widths[..WIDTHS].fill(144);
        memory
    }

    /// Open jobs of the real table, walked, whatever is lent.
    pub fn walked(&self) -> u32 {
        hub::count(&self.table[..SLOTS])
    }

    /// The record bytes of a slot, 0..15.
    pub fn area(&self, slot: usize) -> &[u8] {
        &self.records[AREA * slot..][..AREA]
    }
}

const ZERO_STATE: State = State {
    i: 0,
    b: 0,
    margin: 0,
    increment: 0,
    adjustment: 0,
    direction: 0,
    font: 0,
    colour: 0,
    space: 0,
    suppression: 0,
    chain: 0,
    used: 0,
};
