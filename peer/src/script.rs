//! The lines of a replay script, as values and as text.

mod bad;
mod lines;
mod words;

use std::fmt;

use crate::listing::Hex;
use crate::model::{kept, Descriptor, Entry};

pub use bad::Bad;
pub use lines::forms;

/// Entries, record bytes and widths that the requests of a script are lent.
#[derive(Clone, Copy, Debug, PartialEq, Eq)]
pub struct Lend {
    /// Entries of the table.
    pub table: usize,
    /// Record bytes.
    pub records: usize,
    /// Widths.
    pub widths: usize,
}

impl Lend {
    /// The most that can be lent.
    pub const MOST: Self = Self { table: 20, records: 65_540, widths: 1_028 };
}

/// One line that does something.
#[derive(Clone, Debug, PartialEq, Eq)]
pub enum Step {
    /// Every width becomes this.
    Widths(u16),
    /// One width becomes `width`.
    Width {
        /// Font, 0..3.
        font: u8,
        /// Code point.
        code_point: u8,
        /// Its width.
        width: u16,
    },
    /// Every record byte becomes this.
    Fill(u8),
    /// A fresh table.
    Fresh,
    /// Other lengths from here on, at most [`Lend::MOST`].
    Lend(Lend),
    /// Opens a job.
    Open {
        /// Slot.
        slot: u32,
        /// Key.
        key: u32,
        /// Descriptor.
        descriptor: Descriptor,
    },
    /// Submits a part.
    Submit {
        /// Slot.
        slot: u32,
        /// Key.
        key: u32,
        /// Part number.
        number: u32,
        /// The part.
        part: Vec<u8>,
    },
    /// Takes records that were read.
    Take {
        /// Slot.
        slot: u32,
        /// Key.
        key: u32,
        /// Record bytes read since the job opened.
        total: u64,
    },
    /// Closes a job.
    Close {
        /// Slot.
        slot: u32,
        /// Key.
        key: u32,
    },
    /// Counts open jobs.
    Count,
    /// The stored number of open jobs becomes this, right or wrong.
    Store(u32),
    /// Shows the stored number of open jobs.
    Stored,
    /// Interprets a part directly, from a slot's descriptor and state.
    Direct {
        /// Slot, 0..15.
        slot: usize,
        /// The part.
        part: Vec<u8>,
    },
    /// Checks a part alone.
    Check {
        /// The part.
        part: Vec<u8>,
    },
    /// Checks a part alone at an increment.
    CheckAt {
        /// The increment.
        increment: u32,
        /// The part.
        part: Vec<u8>,
    },
    /// Makes an entry just this. A line can say marks of 0 and 1 and numbers up to
    /// 65,535 in the state; a value can hold any.
    Set {
        /// Slot, 0..15.
        slot: usize,
        /// The entry.
        entry: Entry,
    },
    /// Shows an entry and its records.
    Show {
        /// Slot, 0..15.
        slot: usize,
    },
    /// Shows bytes of a slot's area.
    Bytes {
        /// Slot, 0..15.
        slot: usize,
        /// First byte.
        from: usize,
        /// The byte after the last, at most 4,096.
        to: usize,
    },
}

impl Step {
    /// The step that a line says, without its newline, or what is wrong with the line.
    pub fn parse(line: &str) -> Result<Self, Bad> {
        lines::parse(line)
    }
}

impl fmt::Display for Step {
    fn fmt(&self, f: &mut fmt::Formatter<'_>) -> fmt::Result {
        match self {
            Self::Widths(width) => write!(f, "widths {width}"),
            Self::Width { font, code_point, width } => {
                write!(f, "width {font} {code_point} {width}")
            }
            Self::Fill(byte) => write!(f, "fill {byte}"),
            Self::Fresh => f.write_str("fresh"),
            Self::Lend(Lend { table, records, widths }) => {
                write!(f, "lend {table} {records} {widths}")
            }
            Self::Open { slot, key, descriptor } => write!(f, "open {slot} {key} {descriptor}"),
            Self::Submit { slot, key, number, part } => {
                write!(f, "submit {slot} {key} {number} {}", Hex(part))
            }
            Self::Take { slot, key, total } => write!(f, "take {slot} {key} {total}"),
            Self::Close { slot, key } => write!(f, "close {slot} {key}"),
            Self::Count => f.write_str("count"),
            Self::Store(number) => write!(f, "stored {number}"),
            Self::Stored => f.write_str("stored"),
            Self::Direct { slot, part } => write!(f, "direct {slot} {}", Hex(part)),
            Self::Check { part } => write!(f, "check {}", Hex(part)),
            Self::CheckAt { increment, part } => write!(f, "check-at {increment} {}", Hex(part)),
            Self::Set { slot, entry } => write!(f, "set {slot} {entry}"),
            Self::Show { slot } => write!(f, "show {slot}"),
            Self::Bytes { slot, from, to } => write!(f, "bytes {slot} {from} {to}"),
        }
    }
}

impl fmt::Display for Descriptor {
    fn fmt(&self, f: &mut fmt::Formatter<'_>) -> fmt::Result {
        write!(
            f,
            "{} {} {} {} {} {} {} {} {} {} {} {}",
            self.size_i,
            self.size_b,
            self.initial_i,
            self.initial_b,
            self.margin,
            self.increment,
            self.adjustment,
            self.direction,
            self.font,
            self.colour,
            self.rule,
            self.hidden
        )
    }
}

/// The numbers of `set`, in its order.
impl fmt::Display for Entry {
    fn fmt(&self, f: &mut fmt::Formatter<'_>) -> fmt::Result {
        let signed = |kept_number: u32| i64::from(kept_number) - i64::from(kept(0));
        let s = &self.state;
        write!(f, "{} {} {} ", self.key, self.mark, self.descriptor)?;
        write!(f, "{} {} {} {} ", signed(s.i), signed(s.b), s.margin, s.increment)?;
        write!(f, "{} {} {} {} ", s.adjustment, s.direction, s.font, s.colour)?;
        write!(f, "{} {} {} {} ", s.space, s.suppression, s.chain, self.next)?;
        write!(f, "{} {}", s.used, self.taken)
    }
}

#[cfg(test)]
mod tests {
    use super::*;

    fn is_bad(line: &str) -> bool {
        Step::parse(line).is_err()
    }

    #[test]
    fn numbers_are_those_their_type_holds() {
        for good in ["widths 65535", "fill 255", "width 3 255 0", "lend 20 65540 1028"] {
            assert!(!is_bad(good), "{good}");
        }
        for good in ["close 4294967295 0", "close 007 00", "bytes 15 4096 4096", "direct 15 -"] {
            assert!(!is_bad(good), "{good}");
        }
        for good in ["check -", "check-at 0 -", "check-at 4294967295 -", "check-at 00180 -"] {
            assert!(!is_bad(good), "{good}");
        }
        for good in ["stored", "stored 0", "stored 17", "stored 4294967295", "stored 0016"] {
            assert!(!is_bad(good), "{good}");
        }
        for good in
            ["take 4294967295 4294967295 18446744073709551615", "take 0 0 0", "take 1 01 007"]
        {
            assert!(!is_bad(good), "{good}");
        }
        for bad in ["take 0 1 18446744073709551616", "take 0 1 -1", "take 0 4294967296 1"] {
            assert!(is_bad(bad), "{bad}");
        }
        for bad in ["widths 65536", "fill 256", "width 4 0 0", "width 0 256 0", "lend 21 0 0"] {
            assert!(is_bad(bad), "{bad}");
        }
        for bad in ["lend 0 65541 0", "lend 0 0 1029", "close 4294967296 0", "close -0 0"] {
            assert!(is_bad(bad), "{bad}");
        }
        for bad in ["close +1 0", "bytes 0 2 1", "bytes 0 0 4097", "bytes 16 0 0", "show 16"] {
            assert!(is_bad(bad), "{bad}");
        }
        for bad in ["check-at 4294967296 -", "check-at -1 -", "check-at +180 -", "check-at - -"] {
            assert!(is_bad(bad), "{bad}");
        }
        for bad in ["stored 4294967296", "stored -1", "stored +1", "stored -", "stored 1 2"] {
            assert!(is_bad(bad), "{bad}");
        }
    }

    #[test]
    fn spaces_and_words_are_exact() {
        for bad in ["count ", " count", "Count", "count 1", "close 0", "close 0  1", "close\t0 1"] {
            assert!(is_bad(bad), "{bad:?}");
        }
        for bad in ["count\r", "close 0 ", "fresh#", "direct 0", "direct 0 ", "direct 0 2"] {
            assert!(is_bad(bad), "{bad:?}");
        }
        for bad in ["direct 0 2g", "direct 0 --", "direct 0 2B -", "direct 0 é", "widths ٣"] {
            assert!(is_bad(bad), "{bad:?}");
        }
        for bad in ["check", "check 180 C1", "check-at 180", "check-at C1", "check_at 180 C1"] {
            assert!(is_bad(bad), "{bad:?}");
        }
        for bad in ["Stored", "STORED 1", "stored ", "stored  1", "store 1", "stored#", "stored N"]
        {
            assert!(is_bad(bad), "{bad:?}");
        }
        for bad in ["take 0 1", "take 0 1 2 3", "Take 0 1 2", "take 0 1  2", "take 0 1 -", "take"] {
            assert!(is_bad(bad), "{bad:?}");
        }
        let take = Step::Take { slot: 16, key: 1, total: u64::MAX };
        assert_eq!(Step::parse("take 16 1 18446744073709551615"), Ok(take));
        assert_eq!(Step::parse("stored"), Ok(Step::Stored));
        assert_eq!(Step::parse("stored 007"), Ok(Step::Store(7)));
        let part = vec![0x2B, 0xD3, 0x02, 0xD8];
        let direct = Step::Direct { slot: 1, part: part.clone() };
        assert_eq!(Step::parse("direct 1 2bD302d8"), Ok(direct));
        assert_eq!(Step::parse("check 2bD302d8"), Ok(Step::Check { part: part.clone() }));
        assert_eq!(Step::parse("check-at 7 2bD302d8"), Ok(Step::CheckAt { increment: 7, part }));
    }

    #[test]
    fn set_takes_a_number_taken_or_none() {
        let line = "set 0 1 1 1 2 3 4 5 6 7 8 9 10 11 12 0 0 1 2 3 4 5 6 7 8 0 9 4096";
        let taken = |line: &str| match Step::parse(line) {
            Ok(Step::Set { entry, .. }) => Some((entry.state.used, entry.taken)),
            _ => None,
        };
        assert_eq!(taken(line), Some((4_096, 0)));
        assert_eq!(Step::parse(line), Step::parse(&format!("{line} 0")));
        assert_eq!(taken(&format!("{line} 04294967295")), Some((4_096, u32::MAX)));
        for more in ["4294967296", "-1", "+1", "-", "x", "1 2", "", " 1"] {
            assert!(is_bad(&format!("{line} {more}")), "{more}");
        }
    }

    #[test]
    fn set_takes_marks_of_0_and_1_and_signed_positions() {
        let line = |open: &str, i: &str, chain: &str, used: &str| {
            format!(
                "set 0 1 {open} 1 2 3 4 5 6 7 8 9 10 11 12 {i} 0 1 2 3 4 5 6 7 8 {chain} 9 {used}"
            )
        };
        for (open, i, chain, used) in
            [("0", "-32768", "0", "0"), ("1", "32767", "1", "65535"), ("1", "-0", "0", "1")]
        {
            assert!(!is_bad(&line(open, i, chain, used)));
        }
        for (open, i, chain, used) in [
            ("2", "0", "0", "0"),
            ("0", "-32769", "0", "0"),
            ("0", "32768", "0", "0"),
            ("0", "-", "0", "0"),
            ("0", "--1", "0", "0"),
            ("0", "+1", "0", "0"),
            ("0", "0", "2", "0"),
            ("0", "0", "0", "65536"),
            ("0", "0", "0", "-1"),
        ] {
            assert!(is_bad(&line(open, i, chain, used)), "{open} {i} {chain} {used}");
        }
    }
}
