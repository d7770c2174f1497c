//! What a check is asked with: a part alone, at an increment in range or not.

use super::ground::Ground;
use super::parts::{part, sized_part};
use super::rng::Rng;
use crate::model::{State, GREATEST_DISTANCE, LONGEST_PART};
use crate::sheet::{self, EIGHT_LINES, SIX_LINES};

/// The ends of what is taken and of numbers, and two that would be taken if they were cut.
const EDGES: [u32; 10] = [0, 1, 180, 240, 32_767, 32_768, 65_535, 65_536, 65_716, u32::MAX];

/// An increment, mostly one that is taken.
pub fn increment(rng: &mut Rng) -> u32 {
    match rng.below(8) {
        0..=2 => rng.pick(&[EIGHT_LINES, SIX_LINES]),
        3 => rng.between(0, 600),
        4 => rng.between(0, GREATEST_DISTANCE),
        5 | 6 => rng.pick(&EDGES),
        _ => rng.between(GREATEST_DISTANCE + 1, u32::MAX),
    }
}

/// A part for a fresh sheet of this increment. For one that is refused it is often too long as
/// well, which is to be seen later.
pub fn checked_part(rng: &mut Rng, increment: u32) -> Vec<u8> {
    let is_taken = increment <= GREATEST_DISTANCE;
    let descriptor = sheet::descriptor(if is_taken { increment } else { EIGHT_LINES });
    let state = State::start(&descriptor);
    let ground = Ground { descriptor, state, widths: &sheet::WIDTHS_144 };
    if is_taken || rng.chance(2, 3) {
        part(rng, &ground)
    } else {
        let over = rng.size(3) + 1;
        sized_part(rng, &ground, LONGEST_PART + over)
    }
}
