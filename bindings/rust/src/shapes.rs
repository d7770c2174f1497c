//! The numbers that are lent or handed over, laid out as in `include/halviruso.h`.
//!
//! Every number is 32 bits and there is no padding, so whatever memory holds is a value.

use crate::answer::Answer;
use crate::{ORIGIN, SLOTS};

/// Two numbers, one for each axis.
#[repr(C)]
#[derive(Clone, Copy, Debug, Default, PartialEq, Eq)]
pub struct Point {
    /// Along the lines.
    pub i: u32,
    /// Down the page.
    pub b: u32,
}

/// What a job is opened with. Distances are 1/1440 inch.
#[repr(C)]
#[derive(Clone, Copy, Debug, Default, PartialEq, Eq)]
pub struct Descriptor {
    /// The sheet, each 1..32,767.
    pub size: Point,
    /// Where the job begins, each 0..32,767.
    pub initial: Point,
    /// Inline margin, 0..32,767.
    pub margin: u32,
    /// Baseline increment, 0..32,767.
    pub increment: u32,
    /// Intercharacter adjustment, 0..4,095.
    pub adjustment: u32,
    /// Of the adjustment: 0 added, 1 taken off.
    pub direction: u32,
    /// Font, 0..3.
    pub font: u32,
    /// Colour: 0x0000, 0xFF00 or 0xFF07.
    pub colour: u32,
    /// Rule width, 0..192; with 0 a rule that gives none of its own has no ink, and no record.
    pub rule: u32,
    /// The suppression that hides, 1..127; 0: none.
    pub hidden: u32,
}

/// Where a job stands.
#[repr(C)]
#[derive(Clone, Copy, Debug, Default, PartialEq, Eq)]
pub struct State {
    /// I and B, each plus [`ORIGIN`].
    pub at: Point,
    /// Inline margin.
    pub margin: u32,
    /// Baseline increment.
    pub increment: u32,
    /// Intercharacter adjustment.
    pub adjustment: u32,
    /// Its direction: 0 added, 1 taken off.
    pub direction: u32,
    /// Font.
    pub font: u32,
    /// Colour.
    pub colour: u32,
    /// Variable space, or [`ABSENT`](crate::ABSENT).
    pub space: u32,
    /// The open suppression; 0: none.
    pub suppression: u32,
    /// 1 while a chain is open.
    pub chain: u32,
    /// Bytes of the record area in use: written and not taken.
    pub used: u32,
}

impl State {
    /// I as people count it. A damaged entry can hold any number, so it has 64 bits.
    pub fn i(&self) -> i64 {
        i64::from(self.at.i) - i64::from(ORIGIN)
    }

    /// B as people count it.
    pub fn b(&self) -> i64 {
        i64::from(self.at.b) - i64::from(ORIGIN)
    }
}

/// The answer to a part, and the state to go on from.
#[repr(C)]
#[derive(Clone, Copy, Debug, PartialEq, Eq)]
#[must_use = "only the code says whether the part was taken"]
pub struct Interpreted {
    /// 0, 10, 12, 15 or 19 to 29.
    pub answer: Answer,
    /// Where the part ends; with a refusal the state that was given.
    pub state: State,
}

/// One slot of the table.
#[repr(C)]
#[derive(Clone, Copy, Debug, PartialEq, Eq)]
pub struct Entry {
    /// The last key.
    pub key: u32,
    /// 0: closed; 1: open.
    pub mark: u32,
    /// What the job was opened with.
    pub descriptor: Descriptor,
    /// Where it stands.
    pub state: State,
    /// The next part's number.
    pub next: u32,
    /// Record bytes taken since the job was opened: the next [`Hub::take`](crate::Hub::take) says this and what was read since.
    pub taken: u32,
}

impl Entry {
    /// Whether a job is open here, damaged or not.
    pub fn is_open(&self) -> bool {
        self.mark != 0
    }
}

/// The whole table.
#[repr(C)]
#[derive(Clone, Debug)]
pub(crate) struct Table {
    pub(crate) entries: [Entry; SLOTS],
}

#[cfg(test)]
mod tests {
    use super::*;
    use crate::TABLE;
    use std::mem::{align_of, offset_of, size_of};

    #[test]
    fn layout_is_the_header_s() {
        assert_eq!((size_of::<Point>(), size_of::<Descriptor>(), size_of::<State>()), (8, 48, 48));
        assert_eq!((size_of::<Entry>(), size_of::<Table>(), align_of::<Table>()), (112, TABLE, 4));
        assert_eq!((offset_of!(Descriptor, size), offset_of!(Descriptor, hidden)), (0, 44));
        assert_eq!((offset_of!(State, at), offset_of!(State, space)), (0, 32));
        assert_eq!((offset_of!(State, chain), offset_of!(State, used)), (40, 44));
        assert_eq!((offset_of!(Entry, descriptor), offset_of!(Entry, state)), (8, 56));
        assert_eq!((offset_of!(Entry, next), offset_of!(Entry, taken)), (104, 108));
        assert_eq!((size_of::<Interpreted>(), offset_of!(Interpreted, state)), (60, 12));
    }

    #[test]
    fn positions_of_any_number_are_shown() {
        let state = State { at: Point { i: 0, b: u32::MAX }, ..State::default() };
        assert_eq!((state.i(), state.b()), (-32_768, 4_294_934_527));
    }
}
