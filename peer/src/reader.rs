//! Cuts a part into elements: free runs and control sequences.

use crate::answer::{Code, Fault};

/// Control sequence prefix.
pub const PREFIX: u8 = 0x2B;
/// Control sequence class.
pub const CLASS: u8 = 0xD3;
/// The bit of TYPE that chains the next sequence.
pub const CHAIN: u8 = 0x01;

/// Absolute Move Inline.
pub const AMI: u8 = 0xC6;
/// Absolute Move Baseline.
pub const AMB: u8 = 0xD2;
/// Relative Move Inline.
pub const RMI: u8 = 0xC8;
/// Relative Move Baseline.
pub const RMB: u8 = 0xD4;
/// Begin Line.
pub const BLN: u8 = 0xD8;
/// Set Inline Margin.
pub const SIM: u8 = 0xC0;
/// Set Baseline Increment.
pub const SBI: u8 = 0xD0;
/// Set Intercharacter Adjustment.
pub const SIA: u8 = 0xC2;
/// Set Variable Space Character Increment.
pub const SVI: u8 = 0xC4;
/// Set Coded Font Local.
pub const SCFL: u8 = 0xF0;
/// Set Text Color.
pub const STC: u8 = 0x74;
/// Set Text Orientation.
pub const STO: u8 = 0xF6;
/// Begin Suppression.
pub const BSU: u8 = 0xF2;
/// End Suppression.
pub const ESU: u8 = 0xF4;
/// Draw I-axis Rule.
pub const DIR: u8 = 0xE4;
/// Draw B-axis Rule.
pub const DBR: u8 = 0xE6;
/// Transparent Data.
pub const TRN: u8 = 0xDA;
/// Repeat String.
pub const RPS: u8 = 0xEE;
/// No Operation.
pub const NOP: u8 = 0xF8;

/// The LENGTHs of a type: least to greatest, without those in the hole.
#[derive(Clone, Copy, Debug)]
pub struct Lengths {
    /// Least LENGTH, 0 for an unknown type.
    pub least: u8,
    /// Greatest LENGTH.
    pub greatest: u8,
    hole_from: u8,
    hole_to: u8,
}

impl Lengths {
    const UNKNOWN: Self = Self::of(0, 0);

    const fn of(least: u8, greatest: u8) -> Self {
        Self { least, greatest, hole_from: u8::MAX, hole_to: 0 }
    }

    const fn without(self, hole_from: u8, hole_to: u8) -> Self {
        Self { hole_from, hole_to, ..self }
    }

    const fn is_unknown(self) -> bool {
        self.least == 0
    }

    /// Whether `length` is the type's.
    pub const fn admits(self, length: u8) -> bool {
        self.least <= length
            && length <= self.greatest
            && !(self.hole_from <= length && length <= self.hole_to)
    }
}

/// The nineteen types and their LENGTHs.
pub const TYPES: [(u8, Lengths); 19] = [
    (AMI, Lengths::of(4, 4)),
    (AMB, Lengths::of(4, 4)),
    (RMI, Lengths::of(4, 4)),
    (RMB, Lengths::of(4, 4)),
    (BLN, Lengths::of(2, 2)),
    (SIM, Lengths::of(4, 4)),
    (SBI, Lengths::of(4, 4)),
    (SIA, Lengths::of(4, 5)),
    (SVI, Lengths::of(4, 4)),
    (SCFL, Lengths::of(3, 3)),
    (STC, Lengths::of(4, 5)),
    (STO, Lengths::of(6, 6)),
    (BSU, Lengths::of(3, 3)),
    (ESU, Lengths::of(3, 3)),
    (DIR, Lengths::of(4, 7).without(5, 6)),
    (DBR, Lengths::of(4, 7).without(5, 6)),
    (TRN, Lengths::of(2, 255)),
    (RPS, Lengths::of(4, 255)),
    (NOP, Lengths::of(2, 255)),
];

/// [`TYPES`] by half of TYPE, so that a sequence costs one load.
static BY_TYPE: [Lengths; 128] = by_type();

const fn by_type() -> [Lengths; 128] {
    let mut rows = [Lengths::UNKNOWN; 128];
    let mut at = 0;
    while at < TYPES.len() {
        rows[TYPES[at].0 as usize / 2] = TYPES[at].1;
        at += 1;
    }
    rows
}

/// One element of a part.
#[derive(Clone, Copy, Debug, PartialEq, Eq)]
pub enum Element<'a> {
    /// Text outside any sequence.
    FreeRun(&'a [u8]),
    /// A control sequence.
    Sequence {
        /// TYPE without its chain bit.
        function: u8,
        /// Whether the next sequence comes without prefix and class.
        chains: bool,
        /// The bytes after TYPE.
        parameters: Parameters<'a>,
    },
}

/// The parameters of a sequence.
#[derive(Clone, Copy, Debug, PartialEq, Eq)]
pub struct Parameters<'a> {
    /// Their bytes.
    pub bytes: &'a [u8],
    /// Where they and the element end, counted from its first byte.
    pub end: usize,
}

impl Parameters<'_> {
    /// Where they begin, counted as their end.
    #[inline(always)]
    pub const fn start(self) -> usize {
        self.end - self.bytes.len()
    }
}

/// Reads the element at the start of `rest`, which isn't empty; gives it and its size.
#[inline(always)]
pub fn read(rest: &[u8], chained: bool) -> Result<(Element<'_>, usize), Fault> {
    if chained {
        return sequence(rest, 0);
    }
    if rest.first() != Some(&PREFIX) {
        let size = run_length(rest);
        return Ok((Element::FreeRun(&rest[..size]), size));
    }
    match rest.get(1) {
        Some(&class) if class != CLASS => Err(Code::Prefix.at(1)),
        _ => sequence(rest, 2),
    }
}

/// Reads the sequence whose LENGTH is at `start`: 0 in a chain, else 2.
#[inline(always)]
fn sequence(rest: &[u8], start: usize) -> Result<(Element<'_>, usize), Fault> {
    let Some(&[length, kind]) = rest.get(start..start + 2) else {
        return Err(Code::Cut.into());
    };
    if length < 2 {
        return Err(Code::Length.at(start));
    }
    let lengths = BY_TYPE[usize::from(kind >> 1)];
    if lengths.is_unknown() {
        return Err(Code::Type.at(start + 1));
    }
    if !lengths.admits(length) {
        return Err(Code::Length.at(start));
    }
    let size = start + usize::from(length);
    let Some(bytes) = rest.get(start + 2..size) else {
        return Err(Code::Cut.into());
    };
    let (function, chains) = (kind & !CHAIN, kind & CHAIN != 0);
    let parameters = Parameters { bytes, end: size };
    Ok((Element::Sequence { function, chains, parameters }, size))
}

/// Bytes before the first X'2B', looked for in blocks that fit a register.
#[inline]
fn run_length(bytes: &[u8]) -> usize {
    const BLOCK: usize = 16;
    let clear = bytes
        .chunks_exact(BLOCK)
        .take_while(|block| block.iter().fold(true, |clear, &byte| clear & (byte != PREFIX)))
        .count()
        * BLOCK;
    let tail = &bytes[clear..];
    clear + tail.iter().position(|&byte| byte == PREFIX).unwrap_or(tail.len())
}

#[cfg(test)]
mod tests {
    use super::*;

    #[test]
    fn the_table_by_index_says_what_the_rows_say() {
        for kind in 0..=255u8 {
            let row = TYPES.iter().find(|(function, _)| *function == kind & !CHAIN);
            for length in 1..=255u8 {
                let named = row.is_some_and(|(_, lengths)| lengths.admits(length));
                assert_eq!(BY_TYPE[usize::from(kind / 2)].admits(length), named);
            }
            assert_eq!(BY_TYPE[usize::from(kind / 2)].is_unknown(), row.is_none());
        }
        assert!(TYPES.iter().all(|(function, _)| function & CHAIN == 0));
    }

    #[test]
    fn a_run_ends_at_the_first_prefix() {
        for length in 0..70 {
            let mut bytes = vec![0xD3; length];
            assert_eq!(run_length(&bytes), length);
            for at in (0..length).rev() {
                bytes[at] = PREFIX;
                assert_eq!(run_length(&bytes), at);
            }
        }
    }
}
