//! What a fault looks for in a part.

use peer::model::AREA;
use peer::reader::{read, Element, CHAIN, DBR, DIR, SIA, STO};
use peer::record::HEADER;
use peer::{Answer, Code, Descriptor, Entry};

/// Whether the value at fault is its sequence's second: LENGTH, TYPE and the first stand before it.
pub(super) fn is_second(part: &[u8], answer: Answer) -> bool {
    let before = part.get(..answer.first as usize).and_then(<[u8]>::last_chunk);
    let second = before.is_some_and(|&[length, kind, _, _]| {
        [(5, SIA), (6, STO), (7, DIR), (7, DBR)].contains(&(length, kind & !CHAIN))
    });
    second && answer.code == Code::Value as u32
}

/// Where a rule with no ink finds the area full, which is nothing to it, in an accepted part.
pub(super) fn no_room(part: &[u8], entry: &Entry) -> Option<usize> {
    let Entry { descriptor, state, .. } = entry;
    // Where rules may be hidden they may need no room in any hub.
    if state.used as usize + HEADER <= AREA || descriptor.hidden != 0 {
        return None;
    }
    let (mut start, mut chained) = (0, state.chain != 0);
    while start < part.len() {
        let (element, size) = read(&part[start..], chained).ok()?;
        chained = match element {
            Element::FreeRun(_) => false,
            Element::Sequence { function: DIR | DBR, parameters, .. }
                if !has_ink(parameters.bytes, descriptor) =>
            {
                return Some(start);
            }
            Element::Sequence { chains, .. } => chains,
        };
        start += size;
    }
    None
}

/// Whether neither the length of an accepted rule nor its width is 0.
fn has_ink(parameters: &[u8], d: &Descriptor) -> bool {
    match *parameters {
        [0, 0, ..] => false,
        [_, _, 0, width, 0] => width != 0,
        _ => d.rule != 0,
    }
}
