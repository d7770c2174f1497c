//! Records: a header of sixteen bytes, and the characters of a text.

/// Bytes of a rule's record, and of a text's before its characters.
pub const HEADER: usize = 16;
/// Kind of a text's record.
pub const TEXT: u16 = 1;
/// Kind of a rule's record.
pub const RULE: u16 = 2;

/// Eight numbers, little-endian.
#[inline(always)]
pub(crate) fn header(numbers: [u16; 8]) -> [u8; HEADER] {
    let mut bytes = [0; HEADER];
    for (two, number) in bytes.chunks_exact_mut(2).zip(numbers) {
        two.copy_from_slice(&number.to_le_bytes());
    }
    bytes
}

/// Fills `shown` with `text` over and over: byte i is text byte i modulo the text's length.
#[inline(always)]
pub(crate) fn repeat(shown: &mut [u8], text: &[u8]) {
    let first = text.len().min(shown.len());
    shown[..first].copy_from_slice(&text[..first]);
    // What stands there is whole texts, so it can be doubled.
    let mut done = first;
    while done < shown.len() {
        let more = done.min(shown.len() - done);
        shown.copy_within(..more, done);
        done += more;
    }
}

/// A whole record, read back.
#[derive(Clone, Copy, Debug, PartialEq, Eq)]
pub enum Record<'a> {
    /// Characters.
    Text {
        /// I before the element.
        i: i16,
        /// B before the element.
        b: i16,
        /// Font.
        font: u16,
        /// Colour.
        colour: u16,
        /// Adjustment, negative for direction 1.
        adjustment: i16,
        /// Variable space, 65,535 if absent.
        space: u16,
        /// The characters.
        characters: &'a [u8],
    },
    /// A rule.
    Rule {
        /// I before the element.
        i: i16,
        /// B before the element.
        b: i16,
        /// 0 for DIR, 1 for DBR.
        axis: u16,
        /// Colour.
        colour: u16,
        /// Length.
        length: u16,
        /// Width.
        width: u16,
    },
}

/// The whole record at the start of `bytes` and its length, if there is one.
pub fn record_at(bytes: &[u8]) -> Option<(Record<'_>, usize)> {
    let number = |at: usize| Some(u16::from_le_bytes([*bytes.get(at)?, *bytes.get(at + 1)?]));
    let signed = |at: usize| number(at).map(|number| number as i16);
    let length = usize::from(number(0)?);
    let whole = bytes.get(..length)?;
    let record = match number(2)? {
        TEXT if length >= HEADER => Record::Text {
            i: signed(4)?,
            b: signed(6)?,
            font: number(8)?,
            colour: number(10)?,
            adjustment: signed(12)?,
            space: number(14)?,
            characters: &whole[HEADER..],
        },
        RULE if length == HEADER => Record::Rule {
            i: signed(4)?,
            b: signed(6)?,
            axis: number(8)?,
            colour: number(10)?,
            length: number(12)?,
            width: number(14)?,
        },
        _ => return None,
    };
    Some((record, length))
}

/// The records of `bytes` from its start to where they stop being whole.
pub fn records(bytes: &[u8]) -> impl Iterator<Item = Record<'_>> {
    let mut rest = bytes;
    std::iter::from_fn(move || {
        let (record, length) = record_at(rest)?;
        rest = &rest[length..];
        Some(record)
    })
}

/// The boundaries of `bytes` after its start: the places met by stepping over lengths, whatever
/// the kinds are; a length under 16, or one that passes the end, ends the steps.
pub fn ends(bytes: &[u8]) -> impl Iterator<Item = usize> + '_ {
    let mut at = 0;
    std::iter::from_fn(move || {
        let length = usize::from(u16::from_le_bytes(*bytes[at..].first_chunk()?));
        at += Some(length).filter(|length| (HEADER..=bytes.len() - at).contains(length))?;
        Some(at)
    })
}

#[cfg(test)]
mod tests {
    use super::*;

    #[test]
    fn repeated_text_goes_round() {
        for length in 1..20 {
            let text: Vec<u8> = (0..length).collect();
            for count in 0..100 {
                let mut shown = vec![0xFF; count];
                repeat(&mut shown, &text);
                let round: Vec<u8> = text.iter().copied().cycle().take(count).collect();
                assert_eq!(shown, round);
            }
        }
    }

    #[test]
    fn only_whole_records_are_read() {
        let rule = header([16, RULE, 0xFFFF, 7, 1, 0xFF07, 3, 14]);
        let read = Record::Rule { i: -1, b: 7, axis: 1, colour: 0xFF07, length: 3, width: 14 };
        assert_eq!(record_at(&rule), Some((read, 16)));
        assert_eq!(record_at(&rule[..15]), None);
        for (length, kind) in [(15, TEXT), (0, TEXT), (15, RULE), (17, RULE), (16, 0), (16, 3)] {
            let mut bytes = [0; 32];
            bytes[..16].copy_from_slice(&header([length, kind, 0, 0, 0, 0, 0, 0]));
            assert_eq!(record_at(&bytes), None);
        }
        // Records that are never written now, but may stand in an area.
        let empty = header([16, TEXT, 0, 0, 0, 0, 0xFFFF, 0xFFFF]);
        assert!(matches!(record_at(&empty), Some((Record::Text { adjustment: -1, .. }, 16))));
        let no_ink = header([16, RULE, 0, 0, 0, 0, 0, 0]);
        assert!(matches!(record_at(&no_ink), Some((Record::Rule { length: 0, width: 0, .. }, 16))));
    }
}
