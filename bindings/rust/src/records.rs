//! The records of an area, as a printer reads them.

use std::iter::FusedIterator;

/// Bytes of a rule's record, and of a text's before its characters.
const HEADER: usize = 16;
const TEXT: u16 = 1;
const RULE: u16 = 2;
const NO_SPACE: u16 = 65_535;

/// One record. I and B are those before the element that made it.
#[derive(Clone, Copy, Debug, PartialEq, Eq)]
pub enum Record<'a> {
    /// Characters of one free run, TRN or RPS.
    Text {
        /// I of the first character.
        i: i16,
        /// B of the line.
        b: i16,
        /// Font.
        font: u16,
        /// Colour.
        colour: u16,
        /// Added after every character; negative for direction 1.
        adjustment: i16,
        /// The width of X'40' if it isn't the width table's.
        space: Option<u16>,
        /// The characters.
        characters: &'a [u8],
    },
    /// A rule. The hub writes none with a length or a width of 0; memory kept from before may have some.
    Rule {
        /// I of its start.
        i: i16,
        /// B of its start.
        b: i16,
        /// 0 for DIR, whose length lies along I; 1 for DBR, whose length lies along B.
        axis: u16,
        /// Colour.
        colour: u16,
        /// Length.
        length: u16,
        /// Width, along the other axis.
        width: u16,
    },
}

/// Whole records one after the other; ends where the next is not whole.
///
/// A record is whole if it ends within the bytes and is of kind 1 with a length of
/// 16 or more, or of kind 2 with 16. Any bytes may be walked.
#[derive(Clone, Debug)]
pub struct Records<'a> {
    rest: &'a [u8],
}

impl<'a> Records<'a> {
    /// The records from the start of `bytes`: an area up to the bytes used.
    pub fn new(bytes: &'a [u8]) -> Self {
        Self { rest: bytes }
    }

    /// The bytes not walked yet; after the last record, those that are no whole record.
    pub fn rest(&self) -> &'a [u8] {
        self.rest
    }
}

impl<'a> Iterator for Records<'a> {
    type Item = Record<'a>;

    fn next(&mut self) -> Option<Record<'a>> {
        let header = self.rest.first_chunk()?;
        let bytes = self.rest.get(..usize::from(number(header, 0)))?;
        let record = record(header, bytes)?;
        self.rest = &self.rest[bytes.len()..];
        Some(record)
    }
}

impl FusedIterator for Records<'_> {}

/// The record of these bytes, if they are a whole one.
fn record<'a>(header: &[u8; HEADER], bytes: &'a [u8]) -> Option<Record<'a>> {
    let (i, b) = (signed(header, 4), signed(header, 6));
    match (number(header, 2), bytes.len()) {
        (TEXT, HEADER..) => Some(Record::Text {
            i,
            b,
            font: number(header, 8),
            colour: number(header, 10),
            adjustment: signed(header, 12),
            space: Some(number(header, 14)).filter(|&space| space != NO_SPACE),
            characters: &bytes[HEADER..],
        }),
        (RULE, HEADER) => Some(Record::Rule {
            i,
            b,
            axis: number(header, 8),
            colour: number(header, 10),
            length: number(header, 12),
            width: number(header, 14),
        }),
        _ => None,
    }
}

/// Two bytes, little-endian.
fn number(header: &[u8; HEADER], at: usize) -> u16 {
    u16::from_le_bytes([header[at], header[at + 1]])
}

fn signed(header: &[u8; HEADER], at: usize) -> i16 {
    i16::from_le_bytes([header[at], header[at + 1]])
}

#[cfg(test)]
mod tests {
    use super::*;

    /// A header of eight numbers.
    fn header(numbers: [u16; 8]) -> Vec<u8> {
        numbers.into_iter().flat_map(u16::to_le_bytes).collect()
    }

    fn count(bytes: &[u8]) -> usize {
        Records::new(bytes).count()
    }

    #[test]
    fn text_and_rule_are_read() {
        let mut bytes = header([18, 1, 0xFFFF, 0x8000, 3, 0xFF07, 0xFFF6, 20]);
        bytes.extend([0xC1, 0x40]);
        bytes.extend(header([16, 2, 5, 6, 1, 0xFF00, 1_440, 14]));
        let text = Record::Text {
            i: -1,
            b: -32_768,
            font: 3,
            colour: 0xFF07,
            adjustment: -10,
            space: Some(20),
            characters: &[0xC1, 0x40],
        };
        let rule = Record::Rule { i: 5, b: 6, axis: 1, colour: 0xFF00, length: 1_440, width: 14 };
        assert_eq!(Records::new(&bytes).collect::<Vec<_>>(), [text, rule]);
    }

    #[test]
    fn an_absent_space_and_no_characters() {
        let bytes = header([16, 1, 0, 0, 0, 0, 0, 65_535]);
        let text = Records::new(&bytes).next();
        assert!(matches!(text, Some(Record::Text { space: None, characters: [], .. })));
    }

    #[test]
    fn it_ends_where_a_record_is_not_whole() {
        let good = header([16, 2, 0, 0, 0, 0, 0, 0]);
        let bad =
            [(0, 1), (0, 2), (15, 1), (15, 2), (17, 2), (16, 0), (16, 3), (49, 1), (65_535, 1)];
        for (length, kind) in bad {
            let mut bytes = good.clone();
            bytes.extend(header([length, kind, 0, 0, 0, 0, 0, 0]));
            bytes.extend([0; 32]);
            let mut records = Records::new(&bytes);
            assert_eq!(records.by_ref().count(), 1, "length {length}, kind {kind}");
            assert_eq!(records.rest(), &bytes[16..]);
            assert_eq!(records.next(), None);
        }
    }

    #[test]
    fn a_record_ends_within_the_bytes() {
        let mut bytes = header([48, 1, 0, 0, 0, 0, 0, 0]);
        bytes.extend([0xC1; 32]);
        assert_eq!(count(&bytes), 1);
        for end in 0..48 {
            assert_eq!(count(&bytes[..end]), 0, "{end} bytes");
        }
    }

    #[test]
    fn any_bytes_can_be_walked() {
        let mut seed = 1_u32;
        for round in 0..20_000_usize {
            let bytes: Vec<u8> = (0..round % 100)
                .map(|at| {
                    seed = seed.wrapping_mul(1_664_525).wrapping_add(1_013_904_223);
                    // Small lengths and kinds, so that some steps are taken.
                    (seed >> 24) as u8 & if at % 16 < 4 { 0x13 } else { 0xFF }
                })
                .collect();
            let mut records = Records::new(&bytes);
            let walked: usize = records.by_ref().map(|record| length_of(&record)).sum();
            assert_eq!(walked + records.rest().len(), bytes.len());
        }
    }

    fn length_of(record: &Record) -> usize {
        match record {
            Record::Text { characters, .. } => HEADER + characters.len(),
            Record::Rule { .. } => HEADER,
        }
    }
}
