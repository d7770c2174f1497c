//! Takes from a full area: how much is moved, and how many records are stepped over before.

use std::fs;
use std::hint::black_box;
use std::io;
use std::path::Path;

use peer::hub::Lent;
use peer::model::{AREA, RECORDS, SLOTS};
use peer::{Answer, Entry};

use crate::case::{numbers, SHEET};
use crate::clock::Run;
use crate::contender::Take;

const SLOT: usize = 3;
const KEY: u32 = 1;

/// One take, from a full area of records that are all the same.
///
/// So many of them are taken: the bytes that move are those that stood where they come to,
/// and the area is after a take what it was before. Only the entry is put back.
pub struct Taking {
    pub name: &'static str,
    pub entry: Entry,
    pub area: [u8; AREA],
    pub total: u64,
}

impl Taking {
    /// `taken` records of those that are `length` bytes long each.
    fn new(name: &'static str, length: usize, taken: usize) -> Self {
        let kind = if length == 16 { 2 } else { 1 };
        let mut entry = Entry::opened(KEY, &SHEET);
        entry.state.used = AREA as u32;
        let mut area = [0xC1; AREA];
        for record in area.chunks_exact_mut(length) {
            record[..2].copy_from_slice(&(length as u16).to_le_bytes());
            record[2..4].copy_from_slice(&[kind, 0]);
        }
        Self { name, entry, area, total: (length * taken) as u64 }
    }

    /// Bytes that a take moves.
    pub fn moved(&self) -> usize {
        AREA - self.total as usize
    }

    /// A table and a record buffer in which one job stands.
    pub fn memory(&self) -> (Vec<Entry>, Vec<u8>) {
        let mut table = vec![Entry::FRESH; SLOTS];
        let mut records = vec![0; RECORDS];
        table[SLOT] = self.entry;
        records[AREA * SLOT..][..AREA].copy_from_slice(&self.area);
        (table, records)
    }

    /// Asks for a take up to a total, and hands back what is then in memory.
    pub fn asked(&self, take: Take, total: u64) -> (Answer, Vec<Entry>, Vec<u8>) {
        let (mut table, mut records) = self.memory();
        let lent = Lent { table: &mut table, records: &mut records, widths: &[] };
        let answer = take(lent, SLOT as u32, KEY, total);
        (answer, table, records)
    }

    /// Entry, area and total as bytes, for `once.c`.
    fn bytes(&self) -> Vec<u8> {
        let Entry { key, mark, descriptor, state, next, taken } = &self.entry;
        let words = [&[*key, *mark][..], &numbers(descriptor, state), &[*next, *taken]].concat();
        let mut bytes: Vec<u8> = words.into_iter().flat_map(u32::to_le_bytes).collect();
        bytes.extend(self.area);
        bytes.extend(self.total.to_le_bytes());
        bytes
    }
}

/// The takes that are timed: short records are stepped over one by one, long ones at once.
pub fn takings() -> Vec<Taking> {
    vec![
        Taking::new("one of 256 records", 16, 1),
        Taking::new("128 of 256 records", 16, 128),
        Taking::new("256 of 256 records", 16, 256),
        Taking::new("one of 4 records", 1_024, 1),
        Taking::new("2 of 4 records", 1_024, 2),
        Taking::new("4 of 4 records", 1_024, 4),
    ]
}

/// Leaves them in files.
pub fn write(folder: &Path) -> io::Result<()> {
    for (taking, at) in takings().iter().zip(1..) {
        fs::write(folder.join(format!("{at:02} take {}.take", taking.name)), taking.bytes())?;
    }
    Ok(())
}

/// The same take again and again.
pub fn taking(take: Take, taking: &Taking) -> Run<'_> {
    let (mut table, mut records) = taking.memory();
    Box::new(move |count| {
        for _ in 0..count {
            table[SLOT] = taking.entry;
            let lent = Lent { table: &mut table, records: &mut records, widths: &[] };
            black_box(take(lent, SLOT as u32, KEY, black_box(taking.total)));
        }
    })
}

/// Moving the bytes and no more.
pub fn moving(taking: &Taking) -> Run<'_> {
    let mut area = taking.area;
    Box::new(move |count| {
        for _ in 0..count {
            area.copy_within(black_box(taking.total as usize).., 0);
            black_box(&mut area);
        }
    })
}

#[cfg(test)]
mod tests {
    use super::*;
    use crate::contender::{PEER, PLAIN};

    /// Else the second take of a run would be another one than the first.
    #[test]
    fn a_take_leaves_the_area_as_it_was() {
        for taking in takings() {
            for take in [PEER.take, PLAIN.take] {
                let (answer, table, records) = taking.asked(take, taking.total);
                assert_eq!((answer.code, table[SLOT].state.used), (0, taking.moved() as u32));
                assert_eq!(records, taking.memory().1, "{}", taking.name);
            }
        }
    }
}
