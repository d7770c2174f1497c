//! The numbers that are lent or handed over, and their ranges.
//!
//! Every field is a `u32`, so that any number in lent memory is a value and is
//! refused, never cut. Positions are kept as the number plus 32,768.

/// Slots of the job table.
pub const SLOTS: usize = 16;
/// The greatest number of open jobs.
pub const MOST_OPEN: u32 = SLOTS as u32;
/// Record bytes of one slot.
pub const AREA: usize = 4_096;
/// Record bytes of all slots.
pub const RECORDS: usize = SLOTS * AREA;
/// Fonts of the width table.
pub const FONTS: usize = 4;
/// Widths of one font.
pub const CODE_POINTS: usize = 256;
/// Numbers in the width table.
pub const WIDTHS: usize = FONTS * CODE_POINTS;
/// Bytes of the longest part.
pub const LONGEST_PART: usize = 8_192;

/// The greatest distance, X'7FFF'.
pub const GREATEST_DISTANCE: u32 = 0x7FFF;
/// The greatest adjustment and variable space, X'0FFF'.
pub const GREATEST_ADJUSTMENT: u32 = 0x0FFF;
/// The greatest rule width, X'00C0'.
pub const GREATEST_RULE_WIDTH: u32 = 0x00C0;
/// The greatest suppression identifier, X'7F'.
pub const GREATEST_SUPPRESSION: u32 = 0x7F;
/// The next part's number once every number is taken.
pub const GREATEST_NEXT: u32 = 65_536;
/// The variable space of a state that has none.
pub const ABSENT: u32 = 65_535;
/// The three colours: the process default by two numbers kept apart, and the device default.
pub const COLOURS: [u32; 3] = [0x0000, 0xFF00, 0xFF07];

/// The least I and B.
pub const LEAST_POSITION: i32 = -32_768;
/// The greatest I and B.
pub const GREATEST_POSITION: i32 = 32_767;

/// A position as it is kept: the number plus 32,768.
pub const fn kept(position: i32) -> u32 {
    position.wrapping_sub(LEAST_POSITION) as u32
}

/// The position that a kept number means, if it is in range.
pub const fn position(kept: u32) -> Option<i32> {
    if kept <= 0xFFFF {
        Some(kept as i32 + LEAST_POSITION)
    } else {
        None
    }
}

/// The page and the defaults that a job is opened with.
#[repr(C)]
#[derive(Clone, Copy, Debug, Default, PartialEq, Eq)]
pub struct Descriptor {
    /// Extent of the page along I, 1..32,767.
    pub size_i: u32,
    /// Extent of the page along B, 1..32,767.
    pub size_b: u32,
    /// First I, 0..32,767.
    pub initial_i: u32,
    /// First B, 0..32,767.
    pub initial_b: u32,
    /// Inline margin, 0..32,767.
    pub margin: u32,
    /// Baseline increment, 0..32,767.
    pub increment: u32,
    /// Intercharacter adjustment, 0..4,095.
    pub adjustment: u32,
    /// Its direction: 0 adds, 1 subtracts.
    pub direction: u32,
    /// Font, 0..3.
    pub font: u32,
    /// Colour, one of [`COLOURS`].
    pub colour: u32,
    /// Rule width, 0..192.
    pub rule: u32,
    /// Hidden suppression, 0..127, 0 for none.
    pub hidden: u32,
}

impl Descriptor {
    /// Whether every number is in its range.
    pub fn in_range(&self) -> bool {
        (1..=GREATEST_DISTANCE).contains(&self.size_i)
            && (1..=GREATEST_DISTANCE).contains(&self.size_b)
            && self.initial_i <= GREATEST_DISTANCE
            && self.initial_b <= GREATEST_DISTANCE
            && self.margin <= GREATEST_DISTANCE
            && self.increment <= GREATEST_DISTANCE
            && self.adjustment <= GREATEST_ADJUSTMENT
            && self.direction <= 1
            && self.font < FONTS as u32
            && COLOURS.contains(&self.colour)
            && self.rule <= GREATEST_RULE_WIDTH
            && self.hidden <= GREATEST_SUPPRESSION
    }
}

/// Where a job's text stands between two elements.
#[repr(C)]
#[derive(Clone, Copy, Debug, PartialEq, Eq)]
pub struct State {
    /// I, kept.
    pub i: u32,
    /// B, kept.
    pub b: u32,
    /// Inline margin.
    pub margin: u32,
    /// Baseline increment.
    pub increment: u32,
    /// Intercharacter adjustment.
    pub adjustment: u32,
    /// Its direction.
    pub direction: u32,
    /// Font.
    pub font: u32,
    /// Colour.
    pub colour: u32,
    /// Variable space, 0..4,095 or [`ABSENT`].
    pub space: u32,
    /// Open suppression, 0 for none.
    pub suppression: u32,
    /// Whether a chain is open: 0 or 1.
    pub chain: u32,
    /// Record bytes in use, 0..4,096: written and not taken.
    pub used: u32,
}

impl State {
    /// The state in which a job of this descriptor begins.
    pub const fn start(d: &Descriptor) -> Self {
        Self {
            i: kept(d.initial_i as i32),
            b: kept(d.initial_b as i32),
            margin: d.margin,
            increment: d.increment,
            adjustment: d.adjustment,
            direction: d.direction,
            font: d.font,
            colour: d.colour,
            space: ABSENT,
            suppression: 0,
            chain: 0,
            used: 0,
        }
    }

    /// Whether every number is in its range.
    pub fn in_range(&self) -> bool {
        position(self.i).is_some()
            && position(self.b).is_some()
            && self.margin <= GREATEST_DISTANCE
            && self.increment <= GREATEST_DISTANCE
            && self.adjustment <= GREATEST_ADJUSTMENT
            && self.direction <= 1
            && self.font < FONTS as u32
            && COLOURS.contains(&self.colour)
            && (self.space <= GREATEST_ADJUSTMENT || self.space == ABSENT)
            && self.suppression <= GREATEST_SUPPRESSION
            && self.chain <= 1
            && self.used <= AREA as u32
    }
}

/// One slot of the job table.
#[repr(C)]
#[derive(Clone, Copy, Debug, PartialEq, Eq)]
pub struct Entry {
    /// Last key.
    pub key: u32,
    /// Open mark: 0 is closed, anything else open, above 1 damaged.
    pub mark: u32,
    /// The job's descriptor.
    pub descriptor: Descriptor,
    /// The job's state.
    pub state: State,
    /// Number of the next part, 1..65,536.
    pub next: u32,
    /// Record bytes taken since the job was opened; every number is in range.
    pub taken: u32,
}

impl Entry {
    /// An entry that was never opened.
    pub const FRESH: Self = Self {
        key: 0,
        mark: 0,
        descriptor: Descriptor {
            size_i: 0,
            size_b: 0,
            initial_i: 0,
            initial_b: 0,
            margin: 0,
            increment: 0,
            adjustment: 0,
            direction: 0,
            font: 0,
            colour: 0,
            rule: 0,
            hidden: 0,
        },
        state: State {
            i: kept(0),
            b: kept(0),
            margin: 0,
            increment: 0,
            adjustment: 0,
            direction: 0,
            font: 0,
            colour: 0,
            space: ABSENT,
            suppression: 0,
            chain: 0,
            used: 0,
        },
        next: 1,
        taken: 0,
    };

    /// A job just opened under `key`.
    pub const fn opened(key: u32, d: &Descriptor) -> Self {
        Self { key, mark: 1, descriptor: *d, state: State::start(d), next: 1, taken: 0 }
    }

    /// Whether a job is open here.
    pub const fn is_open(&self) -> bool {
        self.mark != 0
    }

    /// Whether an open job holds a number out of range. A closed one never is damaged.
    pub fn is_damaged(&self) -> bool {
        self.is_open()
            && !(self.mark == 1
                && self.descriptor.in_range()
                && self.state.in_range()
                && (1..=GREATEST_NEXT).contains(&self.next))
    }
}

#[cfg(test)]
mod tests {
    use super::*;

    #[test]
    fn positions_are_kept_plus_32768() {
        for place in LEAST_POSITION..=GREATEST_POSITION {
            assert_eq!(position(kept(place)), Some(place));
        }
        assert_eq!((kept(-32_768), kept(0), kept(32_767)), (0, 32_768, 65_535));
        assert_eq!((position(65_536), position(u32::MAX)), (None, None));
    }

    #[test]
    fn layout_is_plain_numbers() {
        use std::mem::size_of;
        assert_eq!(size_of::<Descriptor>(), 48);
        assert_eq!(size_of::<State>(), 48);
        assert_eq!(size_of::<Entry>(), 4 * (2 + 12 + 12 + 2));
    }
}
