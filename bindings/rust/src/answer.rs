//! What the library answers: a code and two numbers.

use std::fmt;

/// A code of an answer; a number that has no name here is kept as it is.
#[repr(transparent)]
#[derive(Clone, Copy, Debug, PartialEq, Eq, PartialOrd, Ord, Hash)]
pub struct Code(pub u32);

impl Code {
    /// Done.
    pub const DONE: Self = Self(0);
    /// Already taken: a retry is answered so, and changes nothing. For a take: as many bytes were taken already.
    pub const ALREADY_TAKEN: Self = Self(1);
    /// A lent length is wrong; from [`interpret`](crate::interpret) only, since a [`Hub`](crate::Hub) lends the right ones.
    pub const LENT_LENGTH: Self = Self(10);
    /// The slot is above 15.
    pub const NO_SLOT: Self = Self(11);
    /// The entry, or the state given, is out of range.
    pub const DAMAGED: Self = Self(12);
    /// The slot is open under another key.
    pub const BUSY: Self = Self(13);
    /// The key is not above the slot's last.
    pub const OLD_KEY: Self = Self(14);
    /// The descriptor is out of range.
    pub const BAD_DESCRIPTOR: Self = Self(15);
    /// No job is open there under this key.
    pub const NO_JOB: Self = Self(16);
    /// Part numbers are 1 to 65,535.
    pub const BAD_NUMBER: Self = Self(17);
    /// A part before this one is missing.
    pub const GAP: Self = Self(18);
    /// The part is above 8,192 bytes.
    pub const LONG_PART: Self = Self(19);
    /// An element is cut by the part's end: at its first byte.
    pub const CUT: Self = Self(20);
    /// X'2B' is not followed by X'D3': at the byte after X'2B'.
    pub const PREFIX: Self = Self(21);
    /// LENGTH is under 2 or not the type's: at LENGTH.
    pub const LENGTH: Self = Self(22);
    /// The type is unknown: at TYPE.
    pub const TYPE: Self = Self(23);
    /// A value is out of range: at the first byte of the first parameter at fault; RPS without text: the count.
    pub const VALUE: Self = Self(24);
    /// The font is 04 to FE: at the font.
    pub const FONT: Self = Self(25);
    /// BSU and ESU do not pair: at the element's first byte.
    pub const SUPPRESSION: Self = Self(26);
    /// Text or a rule lies off the sheet: at the element's first byte.
    pub const OUTSIDE: Self = Self(27);
    /// I or B passes -32,768..32,767: at the element's first byte.
    pub const POSITION: Self = Self(28);
    /// The record area is full: at the element's first byte. [`Hub::take`](crate::Hub::take) what was printed, and send the part again.
    pub const NO_ROOM: Self = Self(29);
    /// A take beyond what was written, or that ends inside a record.
    pub const BAD_TOTAL: Self = Self(30);
    /// The stored number of open jobs can't be the table's: [`Hub::recount`](crate::Hub::recount), and send again.
    pub const STORED_NUMBER: Self = Self(32);

    /// The code's meaning in the hub's words, if it has one here.
    pub const fn meaning(self) -> Option<&'static str> {
        Some(match self {
            Self::DONE => "done",
            Self::ALREADY_TAKEN => "already taken",
            Self::LENT_LENGTH => "lent length wrong",
            Self::NO_SLOT => "slot above 15",
            Self::DAMAGED => "entry damaged",
            Self::BUSY => "slot busy",
            Self::OLD_KEY => "old key",
            Self::BAD_DESCRIPTOR => "descriptor out of range",
            Self::NO_JOB => "no such job",
            Self::BAD_NUMBER => "bad number",
            Self::GAP => "gap",
            Self::LONG_PART => "part above 8,192 bytes",
            Self::CUT => "element cut by the part's end",
            Self::PREFIX => "X'2B' not followed by X'D3'",
            Self::LENGTH => "LENGTH under 2 or not the type's",
            Self::TYPE => "type unknown",
            Self::VALUE => "value",
            Self::FONT => "font 04..FE",
            Self::SUPPRESSION => "suppression pairing",
            Self::OUTSIDE => "outside",
            Self::POSITION => "position",
            Self::NO_ROOM => "no room",
            Self::BAD_TOTAL => "bad total",
            Self::STORED_NUMBER => "stored number wrong",
            _ => return None,
        })
    }
}

impl fmt::Display for Code {
    fn fmt(&self, f: &mut fmt::Formatter<'_>) -> fmt::Result {
        match self.meaning() {
            Some(meaning) => write!(f, "{}, {meaning}", self.0),
            None => write!(f, "{}, a code without a name", self.0),
        }
    }
}

/// The answer to a request.
#[repr(C)]
#[derive(Clone, Copy, Debug, PartialEq, Eq)]
#[must_use = "only the code says whether the request was taken"]
pub struct Answer {
    /// What became of the request.
    pub code: Code,
    /// Elements (a submit or an interpret that is done), the offset of the byte at fault (20 to 29), else 0.
    ///
    /// That byte is always inside the part, and each [`Code`] says which it is. An element's
    /// first byte is X'2B', in a chain LENGTH, of a free run the first character.
    pub first: u32,
    /// Record bytes added (a submit or an interpret that is done), else 0.
    pub second: u32,
}

impl fmt::Display for Answer {
    fn fmt(&self, f: &mut fmt::Formatter<'_>) -> fmt::Result {
        write!(f, "{}; {}, {}", self.code, self.first, self.second)
    }
}

#[cfg(test)]
mod tests {
    use super::*;

    #[test]
    fn the_twenty_four_codes_have_words() {
        let named: Vec<u32> = (0..=100).filter(|&n| Code(n).meaning().is_some()).collect();
        let paper: Vec<u32> = [0, 1].into_iter().chain(10..=30).chain([32]).collect();
        assert_eq!(named, paper);
    }

    #[test]
    fn an_unknown_number_is_kept() {
        let answer = Answer { code: Code(4_000_000_000), first: 7, second: 9 };
        assert_eq!(answer.code.0, 4_000_000_000);
        assert_eq!(answer.to_string(), "4000000000, a code without a name; 7, 9");
        assert_eq!(Code::OUTSIDE.to_string(), "27, outside");
    }
}
