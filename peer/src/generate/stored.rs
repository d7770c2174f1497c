//! Stored numbers of open jobs, right and wrong.

use super::rng::Rng;
use crate::model::MOST_OPEN;

/// The ends of what is taken, and of numbers.
const EDGES: [u32; 6] = [0, 1, 15, 16, 17, u32::MAX];
/// Numbers far off; most of them would be taken if they were cut.
const FAR: [u32; 10] = [18, 32, 256, 257, 271, 272, 65_536, 65_537, 65_551, 0x8000_0001];

/// A number to store beside so many open jobs, mostly a wrong one.
pub(super) fn number(rng: &mut Rng, open_jobs: u32) -> u32 {
    match rng.below(10) {
        0 => open_jobs,
        1 => open_jobs.wrapping_add(1),
        2 => open_jobs.wrapping_sub(1),
        3..=7 => rng.pick(&EDGES),
        8 => rng.pick(&FAR),
        _ => rng.between(MOST_OPEN + 1, u32::MAX),
    }
}
