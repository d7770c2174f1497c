//! Draining an area: records that were read leave it, and the rest moves down.

use crate::answer::Code;
use crate::model::{Entry, AREA};
use crate::record::ends;

/// Takes records from the start of an open job's area until `total` bytes are taken: 1, 30.
pub(crate) fn drain(area: &mut [u8; AREA], entry: &mut Entry, total: u64) -> Result<(), Code> {
    if total <= u64::from(entry.taken) {
        return Err(Code::Taken);
    }
    let total = u32::try_from(total).map_err(|_| Code::Total)?;
    let (read, used) = ((total - entry.taken) as usize, entry.state.used as usize);
    if !ends(&area[..used]).any(|end| end == read) {
        return Err(Code::Total);
    }
    // Bytes past the new end keep what they held, so nothing is cleared.
    area.copy_within(read..used, 0);
    entry.state.used = (used - read) as u32;
    entry.taken = total;
    Ok(())
}
