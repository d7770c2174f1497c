//! What every request answers: a code and two numbers.

/// The meaning of an answer.
#[repr(u32)]
#[derive(Clone, Copy, Debug, PartialEq, Eq)]
pub enum Code {
    /// Done.
    Done = 0,
    /// Already taken.
    Taken = 1,
    /// A lent length is wrong.
    Lent = 10,
    /// The slot is above 15.
    Slot = 11,
    /// The entry, or a starting state, holds a number out of range.
    Damaged = 12,
    /// The slot is open under another key.
    Busy = 13,
    /// The key isn't above the slot's last one.
    OldKey = 14,
    /// The descriptor holds a number out of range.
    Descriptor = 15,
    /// The slot is closed or open under another key.
    NoJob = 16,
    /// The part number is 0 or above 65,535.
    Number = 17,
    /// The part number is above the next one.
    Gap = 18,
    /// The part is above 8,192 bytes.
    Long = 19,
    /// The element is cut by the part's end.
    Cut = 20,
    /// X'2B' isn't followed by X'D3'.
    Prefix = 21,
    /// LENGTH is under 2 or not the type's.
    Length = 22,
    /// The type is unknown.
    Type = 23,
    /// A value is out of range.
    Value = 24,
    /// The font is 04..FE.
    Font = 25,
    /// Suppressions don't pair.
    Pairing = 26,
    /// A character or a rule lies outside the page.
    Outside = 27,
    /// I or B leaves its range.
    Position = 28,
    /// The record would pass the area's end.
    Room = 29,
    /// The total to take is beyond what was written, or ends inside a record.
    Total = 30,
    /// The stored number of open jobs can't be right.
    Stored = 32,
}

impl Code {
    /// A fault at this byte of its element. Kept out of the way of elements that pass.
    #[cold]
    #[inline(never)]
    pub(crate) const fn at(self, at: usize) -> Fault {
        Fault { code: self, at }
    }
}

/// What is wrong with an element, and at which of its bytes.
#[derive(Clone, Copy, Debug, PartialEq, Eq)]
pub struct Fault {
    /// The code, 20 to 29.
    pub code: Code,
    /// The byte at fault, counted from the element's first.
    pub at: usize,
}

impl From<Code> for Fault {
    /// A fault of the element as a whole lies at its first byte.
    fn from(code: Code) -> Self {
        code.at(0)
    }
}

/// A code and two numbers.
#[repr(C)]
#[derive(Clone, Copy, Debug, Default, PartialEq, Eq)]
pub struct Answer {
    /// The code, as a number of [`Code`].
    pub code: u32,
    /// Elements (submit done) or the offset of the byte at fault.
    pub first: u32,
    /// Record bytes added (submit done).
    pub second: u32,
}

impl Answer {
    /// Done, with its two numbers.
    pub const fn done(first: u32, second: u32) -> Self {
        Self { code: Code::Done as u32, first, second }
    }

    /// A code whose numbers are 0 and 0.
    pub const fn only(code: Code) -> Self {
        Self { code: code as u32, first: 0, second: 0 }
    }

    /// A fault of the element that starts at `start`.
    pub const fn at(fault: Fault, start: usize) -> Self {
        Self { code: fault.code as u32, first: (start + fault.at) as u32, second: 0 }
    }

    /// Whether everything asked for was done.
    pub const fn is_done(&self) -> bool {
        self.code == Code::Done as u32
    }
}
