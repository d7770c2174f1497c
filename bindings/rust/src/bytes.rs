//! The table as bytes: each number little-endian, in the order of `include/halviruso.h`.
//!
//! On x86-64 these are the bytes of the memory itself, so hosts in C read and write the same files.

use crate::ffi;
use crate::shapes::{Descriptor, Entry, State, Table};
use crate::TABLE;

pub(crate) fn of_table(table: &Table) -> [u8; TABLE] {
    let mut bytes = [0; TABLE];
    for (four, number) in bytes.chunks_exact_mut(4).zip(numbers(&mut table.clone())) {
        four.copy_from_slice(&number.to_le_bytes());
    }
    bytes
}

pub(crate) fn to_table(bytes: &[u8; TABLE]) -> Table {
    let mut table = ffi::fresh();
    for (four, number) in bytes.chunks_exact(4).zip(numbers(&mut table)) {
        *number = u32::from_le_bytes([four[0], four[1], four[2], four[3]]);
    }
    table
}

/// A table's numbers, to read or to write, so that their order is said once.
fn numbers(table: &mut Table) -> impl Iterator<Item = &mut u32> {
    table.entries.iter_mut().flat_map(|entry| {
        let Entry { key, mark, descriptor, state, next, taken } = entry;
        let (descriptor, state) = (of_descriptor(descriptor), of_state(state));
        [key, mark].into_iter().chain(descriptor).chain(state).chain([next, taken])
    })
}

fn of_descriptor(descriptor: &mut Descriptor) -> [&mut u32; 12] {
    [
        &mut descriptor.size.i,
        &mut descriptor.size.b,
        &mut descriptor.initial.i,
        &mut descriptor.initial.b,
        &mut descriptor.margin,
        &mut descriptor.increment,
        &mut descriptor.adjustment,
        &mut descriptor.direction,
        &mut descriptor.font,
        &mut descriptor.colour,
        &mut descriptor.rule,
        &mut descriptor.hidden,
    ]
}

fn of_state(state: &mut State) -> [&mut u32; 12] {
    [
        &mut state.at.i,
        &mut state.at.b,
        &mut state.margin,
        &mut state.increment,
        &mut state.adjustment,
        &mut state.direction,
        &mut state.font,
        &mut state.colour,
        &mut state.space,
        &mut state.suppression,
        &mut state.chain,
        &mut state.used,
    ]
}
