//! The code of one part alone, as a host without a table asks for it.

use crate::model::AREA;
use crate::sheet::{alone, EIGHT_LINES};

/// The code of one part on a fresh sheet of eight lines to the inch: 0 or 19 to 29.
pub fn check(part: &[u8]) -> u32 {
    check_at(part, EIGHT_LINES)
}

/// The code of one part on a fresh sheet of this increment: 15 above 32,767, else 0 or 19 to 29.
pub fn check_at(part: &[u8], increment: u32) -> u32 {
    let (answer, _) = alone(part, increment, &mut [0; AREA]);
    answer.code
}
