//! The sheet of document 01's rows, the listing and the check, at any baseline increment.

use crate::answer::{Answer, Code};
use crate::interpret::interpret_in_range;
use crate::model::{Descriptor, State, AREA, WIDTHS};

/// Eight lines to the inch, as the check and the listing have it unless told otherwise.
pub const EIGHT_LINES: u32 = 180;
/// Six lines to the inch, as document 01's rows have it.
pub const SIX_LINES: u32 = 240;

/// Ten characters to the inch in every font.
pub static WIDTHS_144: [u16; WIDTHS] = [144; WIDTHS];

/// 8.5 by 11 inches with this increment, which may be out of range.
pub const fn descriptor(increment: u32) -> Descriptor {
    Descriptor {
        size_i: 12_240,
        size_b: 15_840,
        initial_i: 0,
        initial_b: 0,
        margin: 0,
        increment,
        adjustment: 0,
        direction: 0,
        font: 0,
        colour: 0xFF07,
        rule: 14,
        hidden: 0,
    }
}

/// One part alone on a fresh sheet: 15, then 19 to 29; or its records in `area`, and where it ends.
pub(crate) fn alone(part: &[u8], increment: u32, area: &mut [u8; AREA]) -> (Answer, State) {
    let descriptor = descriptor(increment);
    let mut state = State::start(&descriptor);
    // The start has the increment too, but no one gave a start: 15, not 12.
    if !descriptor.in_range() {
        return (Answer::only(Code::Descriptor), state);
    }
    let answer = interpret_in_range(part, &WIDTHS_144, area, &descriptor, &mut state);
    (answer, state)
}
