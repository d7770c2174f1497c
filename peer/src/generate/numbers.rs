//! Descriptors, states and entries, in range or just out of it.

use super::rng::Rng;
use super::totals;
use crate::model::{kept, Descriptor, Entry, State, ABSENT, COLOURS};
use crate::sheet;

/// Which numbers a generated entry may hold.
#[derive(Clone, Copy, Debug, PartialEq, Eq)]
pub enum Reach {
    /// Those that a line of a script can say.
    Script,
    /// Any that memory can hold.
    Memory,
}

/// A number from `least` to `greatest`, often one of its ends.
fn often_end(rng: &mut Rng, least: u32, greatest: u32) -> u32 {
    match rng.below(5) {
        0 => least,
        1 => greatest,
        2 => rng.between(least, greatest.min(least.saturating_add(3))),
        _ => rng.between(least, greatest),
    }
}

/// A size of page, often a real one.
fn size(rng: &mut Rng) -> u32 {
    match rng.below(4) {
        0 => often_end(rng, 1, 32_767),
        1 => rng.between(28_000, 32_767),
        _ => rng.between(1_000, 16_000),
    }
}

/// A default distance, often small.
fn distance(rng: &mut Rng) -> u32 {
    match rng.below(4) {
        0 => often_end(rng, 0, 32_767),
        1 => 0,
        _ => rng.between(0, 600),
    }
}

/// An amount of adjustment or space, often small.
fn amount(rng: &mut Rng) -> u32 {
    match rng.below(6) {
        0 => often_end(rng, 0, 4_095),
        1 | 2 => rng.between(0, 60),
        _ => 0,
    }
}

/// A rule width, often 0: a rule that doesn't give its own then has no ink.
fn rule(rng: &mut Rng) -> u32 {
    if rng.chance(1, 3) {
        0
    } else {
        often_end(rng, 0, 192)
    }
}

/// A suppression, often none or one of few, so that ids meet.
fn suppression(rng: &mut Rng) -> u32 {
    match rng.below(6) {
        0 => often_end(rng, 0, 127),
        1..=3 => rng.between(1, 3),
        _ => 0,
    }
}

/// A descriptor in range.
pub fn descriptor(rng: &mut Rng) -> Descriptor {
    if rng.chance(1, 4) {
        let increment = rng.pick(&[sheet::EIGHT_LINES, sheet::SIX_LINES]);
        return Descriptor { hidden: suppression(rng), ..sheet::descriptor(increment) };
    }
    Descriptor {
        size_i: size(rng),
        size_b: size(rng),
        initial_i: distance(rng),
        initial_b: distance(rng),
        margin: distance(rng),
        increment: distance(rng),
        adjustment: amount(rng),
        direction: rng.between(0, 1),
        font: rng.between(0, 3),
        colour: rng.pick(&COLOURS),
        rule: rule(rng),
        hidden: suppression(rng),
    }
}

/// A position, mostly on the page.
fn position(rng: &mut Rng, size: u32) -> u32 {
    match rng.below(8) {
        0 => often_end(rng, 0, 65_535),
        1 => rng.between(kept(-100), kept(100)),
        2 => kept(size as i32),
        _ => kept(rng.between(0, size.min(32_767)) as i32),
    }
}

/// Record bytes used, often none, or all but one or two records, or all.
fn used(rng: &mut Rng) -> u32 {
    match rng.below(8) {
        0..=3 => 0,
        4 => rng.between(4_064, 4_096),
        _ => often_end(rng, 0, 4_096),
    }
}

/// A state in range that a job of this descriptor might stand in.
pub fn state(rng: &mut Rng, d: &Descriptor) -> State {
    State {
        i: position(rng, d.size_i),
        b: position(rng, d.size_b),
        margin: distance(rng),
        increment: distance(rng),
        adjustment: amount(rng),
        direction: rng.between(0, 1),
        font: rng.between(0, 3),
        colour: rng.pick(&COLOURS),
        space: if rng.chance(1, 3) { amount(rng) } else { ABSENT },
        suppression: suppression(rng),
        chain: rng.between(0, 1),
        used: used(rng),
    }
}

/// An open entry in range.
pub fn entry(rng: &mut Rng, key: u32) -> Entry {
    let descriptor = descriptor(rng);
    let state = state(rng, &descriptor);
    let next = match rng.below(4) {
        0 => rng.pick(&[1, 2, 65_534, 65_535, 65_536]),
        1 => rng.between(1, 65_536),
        _ => 1,
    };
    Entry { key, mark: 1, descriptor, state, next, taken: totals::taken(rng) }
}

/// One number of the descriptor goes out of range.
pub(super) fn spoil_descriptor(rng: &mut Rng, d: &mut Descriptor) {
    let high = |rng: &mut Rng, greatest: u32| match rng.below(4) {
        0 | 1 => greatest + 1,
        2 => rng.between(greatest + 1, 70_000),
        _ => rng.pick(&[u32::MAX, 65_536, 65_536 + greatest, 0x8000_0000]),
    };
    match rng.below(12) {
        0 => d.size_i = if rng.chance(1, 2) { 0 } else { high(rng, 32_767) },
        1 => d.size_b = if rng.chance(1, 2) { 0 } else { high(rng, 32_767) },
        2 => d.initial_i = high(rng, 32_767),
        3 => d.initial_b = high(rng, 32_767),
        4 => d.margin = high(rng, 32_767),
        5 => d.increment = high(rng, 32_767),
        6 => d.adjustment = high(rng, 4_095),
        7 => d.direction = high(rng, 1),
        8 => d.font = high(rng, 3),
        9 => d.colour = no_colour(rng, u32::MAX),
        10 => d.rule = high(rng, 192),
        _ => d.hidden = high(rng, 127),
    }
}

/// One number of the state goes out of range.
pub(super) fn spoil_state(rng: &mut Rng, reach: Reach, s: &mut State) {
    // A line can't say a position or a mark out of range.
    let fields = if reach == Reach::Script { 9 } else { 12 };
    let top = if reach == Reach::Script { 65_535 } else { u32::MAX };
    let high = |rng: &mut Rng, greatest: u32| match rng.below(3) {
        0 => rng.between(greatest + 1, top),
        1 => top,
        _ => greatest + 1,
    };
    match rng.below(fields) {
        0 => s.margin = high(rng, 32_767),
        1 => s.increment = high(rng, 32_767),
        2 => s.adjustment = high(rng, 4_095),
        3 => s.direction = high(rng, 1),
        4 => s.font = high(rng, 3),
        5 => s.colour = no_colour(rng, top),
        6 => s.space = no_space(rng, top),
        7 => s.suppression = high(rng, 127),
        8 => s.used = high(rng, 4_096),
        9 => s.i = high(rng, 65_535),
        10 => s.b = high(rng, 65_535),
        _ => s.chain = high(rng, 1),
    }
}

/// One number of an entry goes out of range, which damages it if it is open.
pub(super) fn spoil_entry(rng: &mut Rng, reach: Reach, entry: &mut Entry) {
    match rng.below(8) {
        0 => entry.next = rng.pick(&[0, 65_537, u32::MAX]),
        1 if reach == Reach::Memory => entry.mark = rng.pick(&[2, 256, u32::MAX]),
        1..=3 => spoil_descriptor(rng, &mut entry.descriptor),
        _ => spoil_state(rng, reach, &mut entry.state),
    }
}

fn no_colour(rng: &mut Rng, top: u32) -> u32 {
    rng.pick(&[0x0001, 0x0007, 0x00FF, 0x07FF, 0xFF01, 0xFF06, 0xFF08, 0xFFFF, 0x1_FF07]).min(top)
}

fn no_space(rng: &mut Rng, top: u32) -> u32 {
    match rng.below(4) {
        0 => 4_096,
        1 if top > ABSENT => rng.between(ABSENT + 1, top),
        2 => 65_534,
        _ => rng.between(4_096, 65_534),
    }
}
