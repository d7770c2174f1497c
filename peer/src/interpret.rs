//! One part, all or nothing.

use crate::answer::{Answer, Code};
use crate::model::{Descriptor, State, AREA, LONGEST_PART, WIDTHS};
use crate::place::Work;
use crate::reader;

/// Places one part: its records go to `area` at the bytes used, and `state` goes on.
///
/// Knows nothing of slots, keys or part numbers. A refusal touches neither.
pub fn interpret(
    part: &[u8],
    widths: &[u16],
    area: &mut [u8],
    descriptor: &Descriptor,
    state: &mut State,
) -> Answer {
    let (Ok(widths), Ok(area)) = (widths.try_into(), area.try_into()) else {
        return Answer::only(Code::Lent);
    };
    if !state.in_range() {
        return Answer::only(Code::Damaged);
    }
    if !descriptor.in_range() {
        return Answer::only(Code::Descriptor);
    }
    interpret_in_range(part, widths, area, descriptor, state)
}

/// As [`interpret`](fn@interpret), with descriptor and state known to be in range.
pub(crate) fn interpret_in_range(
    part: &[u8],
    widths: &[u16; WIDTHS],
    area: &mut [u8; AREA],
    descriptor: &Descriptor,
    state: &mut State,
) -> Answer {
    // Records wait here, so that a fault in a later element leaves no trace.
    let mut records = [0; AREA];
    let placed = place_elements(part, widths, &mut records, descriptor, state);
    let (elements, after) = match placed {
        Ok(placed) => placed,
        Err(answer) => return answer,
    };
    let added = state.used as usize..after.used as usize;
    area[added.clone()].copy_from_slice(&records[added.clone()]);
    *state = after;
    Answer::done(elements, added.len() as u32)
}

/// Places every element into `records`; gives their count and the state reached.
#[inline(always)]
fn place_elements(
    part: &[u8],
    widths: &[u16; WIDTHS],
    records: &mut [u8; AREA],
    descriptor: &Descriptor,
    state: &State,
) -> Result<(u32, State), Answer> {
    if part.len() > LONGEST_PART {
        return Err(Answer::only(Code::Long));
    }
    let mut work = Work::new(descriptor, widths, records, state);
    let (mut rest, mut elements) = (part, 0);
    while !rest.is_empty() {
        let placed = reader::read(rest, work.is_chained())
            .and_then(|(element, size)| work.place(element).map(|()| size));
        match placed {
            Ok(size) => rest = &rest[size..],
            Err(fault) => return Err(Answer::at(fault, part.len() - rest.len())),
        }
        elements += 1;
    }
    Ok((elements, work.state()))
}
