//! Totals to take, right and wrong, and bytes that a record isn't.

use super::rng::Rng;
use crate::model::{Entry, AREA};
use crate::record::{ends, HEADER, RULE, TEXT};

/// One above the greatest total.
const ABOVE: u64 = 1 << 32;
/// Totals far off.
const FAR: [u64; 5] = [ABOVE, 1 << 63, u64::MAX - 1, u64::MAX, u64::MAX];

/// A total to take from a job: at a record's end, beside one, taken before, or far off.
pub fn total(rng: &mut Rng, entry: &Entry, area: &[u8]) -> u64 {
    let used = area.len().min(entry.state.used as usize);
    let (taken, records) = (u64::from(entry.taken), ends(&area[..used]).collect::<Vec<_>>());
    let last = records.last().map_or(0, |&end| end as u64);
    let end = if records.is_empty() { 0 } else { rng.pick(&records) as u64 };
    // Without records the first ways are all one.
    let ways = if records.is_empty() { 14..28 } else { 0..28 };
    match rng.below(ways.end - ways.start) + ways.start {
        0..=8 => taken + end,
        9..=11 => taken + last,
        12 => taken + end + 1,
        13 => (taken + end).saturating_sub(1),
        14 | 15 => taken + used as u64,
        16 => taken + used as u64 + 1 + rng.below(20),
        17 => taken + last + length(&area[last as usize..]),
        18 => taken,
        19 => taken.saturating_sub(1 + rng.below(40)),
        20 => rng.below(taken + 1),
        21 | 22 => end,
        23 => taken + rng.below(used as u64 + 1),
        24 => ABOVE + (taken + end) % ABOVE,
        25 => ABOVE - 1,
        26 => rng.pick(&FAR),
        _ => rng.bits() >> rng.below(64),
    }
}

/// The length that two bytes say, whatever kind follows.
fn length(bytes: &[u8]) -> u64 {
    bytes.first_chunk().map_or(0, |&two| u16::from_le_bytes(two).into())
}

/// A total already taken, mostly little, or so much that the next one can pass the greatest.
pub(super) fn taken(rng: &mut Rng) -> u32 {
    match rng.below(8) {
        0..=2 => 0,
        3 => rng.between(1, 40),
        4 => rng.between(1, 3 * AREA as u32),
        5 => rng.pick(&[u32::MAX, u32::MAX - 1, u32::MAX - 16, u32::MAX - 32, 0x8000_0000]),
        6 => u32::MAX - rng.between(0, AREA as u32),
        _ => rng.between(0, u32::MAX),
    }
}

/// Starts of records, most of them not whole, each with the bytes that its length asks for, if few.
pub(super) fn rubbish(rng: &mut Rng) -> Vec<u8> {
    let mut bytes = Vec::new();
    for _ in 0..rng.between(1, 3) {
        let length: u16 = rng.pick(&[0, 1, 2, 15, 16, 16, 17, 18, 32, 255, 4_096, 65_535]);
        let kind = rng.pick(&[0, TEXT, TEXT, RULE, RULE, 3, 257, 258, 512, 65_535]);
        bytes.extend([length.to_le_bytes(), kind.to_le_bytes()].concat());
        let rest = usize::from(length).clamp(HEADER, 2 * HEADER) - 4;
        bytes.extend((0..rest).map(|_| rng.byte()));
    }
    bytes
}
