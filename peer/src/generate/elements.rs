//! One element at a time, with the edges of every parameter among its values.

use super::ground::Ground;
use super::rng::Rng;
use crate::model::{position, AREA, COLOURS, GREATEST_POSITION, LEAST_POSITION};
use crate::reader::{self, CHAIN, CLASS, PREFIX, TYPES};
use crate::record::HEADER;

/// How a part is written.
#[derive(Clone, Copy, Debug)]
pub(super) struct Hand {
    /// Sequences that chain the next one, out of 8.
    pub chaining: u64,
    /// Elements that are text, out of 8.
    pub text: u64,
    /// Other elements that are rules, out of 8: they fill an area soonest.
    pub rules: u64,
}

impl Hand {
    /// Every sequence chains the next one.
    const CHAINING: Self = Self { chaining: 8, text: 0, rules: 0 };

    pub(super) fn any(rng: &mut Rng) -> Self {
        Self {
            chaining: rng.pick(&[0, 1, 4, 7, 8]),
            text: rng.pick(&[0, 1, 3, 6]),
            rules: rng.pick(&[0, 0, 0, 1, 7]),
        }
    }
}

/// An element, or a few that belong together, for the place where `ground` stands.
pub(super) fn element(rng: &mut Rng, ground: &Ground, hand: Hand) -> Vec<u8> {
    if rng.chance(hand.text, 8) {
        return some_text(rng, ground, hand);
    }
    let function = if rng.chance(hand.rules, 8) {
        rng.pick(&[reader::DIR, reader::DBR])
    } else {
        rng.pick(&TYPES).0
    };
    typed(rng, ground, hand, function)
}

/// A sequence of this type for the place where `ground` stands.
pub(super) fn typed(rng: &mut Rng, ground: &Ground, hand: Hand, function: u8) -> Vec<u8> {
    let parameters = parameters(rng, ground, function);
    sequence(rng, ground.state.chain != 0, hand, function, &parameters)
}

/// A sequence, in a chain or not.
pub(super) fn sequence(
    rng: &mut Rng,
    chained: bool,
    hand: Hand,
    function: u8,
    parameters: &[u8],
) -> Vec<u8> {
    let chains = if rng.chance(hand.chaining, 8) { CHAIN } else { 0 };
    let mut bytes = if chained { Vec::new() } else { vec![PREFIX, CLASS] };
    bytes.extend([parameters.len() as u8 + 2, function | chains]);
    bytes.extend(parameters);
    bytes
}

/// Text where it stands, or moved so that it just ends at an edge.
fn some_text(rng: &mut Rng, ground: &Ground, hand: Hand) -> Vec<u8> {
    let chained = ground.state.chain != 0;
    if rng.chance(1, 6) {
        return snug(rng, ground, hand);
    }
    if !chained && rng.chance(1, 2) {
        let longest = rng.pick(&[8, 8, 8, 8, 40, 40, 400, 5_000]);
        return free_run(rng, longest);
    }
    let function = rng.pick(&[reader::TRN, reader::TRN, reader::RPS]);
    typed(rng, ground, hand, function)
}

/// A move and TRN so that the text ends at the page's edge, or I at its range's, or one beyond.
pub(super) fn snug(rng: &mut Rng, ground: &Ground, hand: Hand) -> Vec<u8> {
    let text = characters(rng, 12);
    let over = i64::from(rng.between(0, 2)) - 1;
    let goal = match rng.below(6) {
        0 => i64::from(GREATEST_POSITION),
        1 | 2 => i64::from(LEAST_POSITION),
        3 => ground.adjustment(),
        _ => i64::from(ground.descriptor.size_i) + ground.adjustment(),
    };
    let start = goal + over - ground.after(&text);
    let mut bytes = moved(rng, ground, (reader::AMI, reader::RMI), start);
    bytes.extend(sequence(rng, true, hand, reader::TRN, &text));
    bytes
}

/// A move and BLN so that the new line is at the page's foot, or B at its range's end, or one
/// beyond, and a character there. The increment is often set back to its default before.
pub(super) fn foot(rng: &mut Rng, ground: &Ground, hand: Hand) -> Vec<u8> {
    let is_default = rng.chance(1, 2);
    let of = if is_default { ground.descriptor.increment } else { ground.state.increment };
    let over = i64::from(rng.between(0, 2)) - 1;
    let ends = [i64::from(ground.descriptor.size_b), i64::from(GREATEST_POSITION)];
    let start = rng.pick(&ends) + over - i64::from(of);
    let mut bytes = moved(rng, ground, (reader::AMB, reader::RMB), start);
    if is_default {
        bytes.extend(sequence(rng, true, Hand::CHAINING, reader::SBI, &[0xFF, 0xFF]));
    }
    bytes.extend(sequence(rng, true, Hand::CHAINING, reader::BLN, &[]));
    bytes.extend(sequence(rng, true, hand, reader::TRN, &[0xC1]));
    bytes
}

/// The absolute or the relative one of two moves to a place, chaining the next sequence.
fn moved(rng: &mut Rng, ground: &Ground, (to, by): (u8, u8), place: i64) -> Vec<u8> {
    let from = if to == reader::AMI { ground.state.i } else { ground.state.b };
    let (function, number) = if (0..=0x7FFF).contains(&place) && rng.chance(1, 2) {
        (to, place)
    } else {
        let distance = place - i64::from(position(from).unwrap_or(0));
        (by, distance.clamp(-32_768, 32_767))
    };
    sequence(rng, ground.state.chain != 0, Hand::CHAINING, function, &two(number as u16))
}

fn free_run(rng: &mut Rng, longest: usize) -> Vec<u8> {
    let mut text = characters(rng, longest);
    for byte in &mut text {
        if *byte == PREFIX {
            *byte = 0x40;
        }
    }
    text.push(0xC1);
    text
}

/// Letters, spaces and now and then any byte, such as those that start a sequence.
fn characters(rng: &mut Rng, longest: usize) -> Vec<u8> {
    let length = rng.size(longest + 1);
    // One draw for each character: long texts are most of the work of making a part.
    let character = |bits: u64| match bits >> 60 {
        0 => bits as u8,
        1 => [PREFIX, CLASS, 0x00, 0xFF][bits as usize % 4],
        2..=4 => 0x40,
        _ => 0xC1 + (bits as u32 % 9) as u8,
    };
    (0..length).map(|_| character(rng.bits())).collect()
}

fn two(number: u16) -> [u8; 2] {
    number.to_be_bytes()
}

/// A value: mostly a common one, now and then an edge.
fn or_edge(rng: &mut Rng, common: u16, edges: &[i32]) -> [u8; 2] {
    if rng.chance(1, 3) {
        // An edge beyond two bytes comes out as some other number, which is as good.
        two(rng.pick(edges) as u16)
    } else {
        two(common)
    }
}

fn parameters(rng: &mut Rng, g: &Ground, function: u8) -> Vec<u8> {
    let (size_i, size_b) = (g.descriptor.size_i, g.descriptor.size_b);
    match function {
        reader::AMI => absolute(rng, size_i),
        reader::AMB => absolute(rng, size_b),
        reader::RMI => relative(rng, g.state.i, size_i),
        reader::RMB => relative(rng, g.state.b, size_b),
        reader::SIM | reader::SBI => setting(rng, 500, &[0, 1, 0x7FFF, 0x8000, 0xFFFE, 0xFFFF]),
        reader::SVI => setting(rng, 300, &[0, 0x0FFF, 0x1000, 0x7FFF, 0x8000, 0xFFFE, 0xFFFF]),
        reader::SIA => adjustment(rng),
        reader::SCFL => vec![rng.pick(&[0, 1, 2, 3, 3, 0xFF, 0, 1, 2, 4, 0x7F, 0xFE])],
        reader::STC => colour(rng),
        reader::STO => orientation(rng),
        reader::BSU | reader::ESU => suppression(rng, g, function),
        reader::DIR => rule(rng, g.state.i, size_i),
        reader::DBR => rule(rng, g.state.b, size_b),
        reader::TRN => text(rng, 253),
        reader::RPS => repeat(rng, g),
        reader::NOP => text(rng, 253),
        _ => Vec::new(),
    }
}

fn absolute(rng: &mut Rng, size: u32) -> Vec<u8> {
    let size = size.min(0x7FFF) as i32;
    let common = rng.between(0, size as u32) as u16;
    let edges = [0, 1, size - 144, size - 1, size, size + 1, 0x7FFF, 0x8000, 0xFFFF];
    or_edge(rng, common, &edges).to_vec()
}

fn relative(rng: &mut Rng, kept: u32, size: u32) -> Vec<u8> {
    let (at, size) = (position(kept).unwrap_or(0), size.min(0x7FFF) as i32);
    let common = rng.between(0, 600) as i32 - 300;
    let edges = [0, 1, -1, 32_767, -32_768, -at, -at - 1, size - at, size - at + 1];
    let ends = [32_767 - at, 32_768 - at, -32_768 - at, -32_769 - at];
    if rng.chance(1, 4) {
        let by = rng.pick(&ends).clamp(-32_768, 32_767);
        return two(by as u16).to_vec();
    }
    or_edge(rng, common as u16, &edges).to_vec()
}

fn setting(rng: &mut Rng, most: u32, edges: &[i32]) -> Vec<u8> {
    let common = rng.between(0, most) as u16;
    or_edge(rng, common, edges).to_vec()
}

fn adjustment(rng: &mut Rng) -> Vec<u8> {
    let mut bytes = setting(rng, 40, &[0, 1, 0x0FFF, 0x1000, 0x7FFF, 0x8000, 0xFFFE, 0xFFFF]);
    if rng.chance(2, 3) {
        bytes.push(rng.pick(&[0, 0, 0, 1, 1, 1, 0xFF, 0xFF, 2, 0x7F, 0x80, 0xFE]));
    }
    bytes
}

fn colour(rng: &mut Rng) -> Vec<u8> {
    let common = rng.pick(&COLOURS) as u16;
    let edges = [0xFFFF, 0xFFFF, 0x0001, 0x0010, 0x00FF, 0x07FF, 0xFF01, 0xFF06, 0xFF08, 0xFFFE];
    let mut bytes = or_edge(rng, common, &edges).to_vec();
    if rng.chance(1, 2) {
        bytes.push(rng.byte());
    }
    bytes
}

fn orientation(rng: &mut Rng) -> Vec<u8> {
    let i_axis = or_edge(rng, 0x0000, &[0xFFFF, 0xFFFF, 0x2D00, 0x5A00, 0x8700, 0x0001]);
    let b_axis = or_edge(rng, 0x2D00, &[0xFFFF, 0xFFFF, 0x0000, 0x5A00, 0x8700, 0x2D01]);
    [i_axis, b_axis].concat()
}

fn suppression(rng: &mut Rng, g: &Ground, function: u8) -> Vec<u8> {
    let meant = if function == reader::BSU { g.descriptor.hidden } else { g.state.suppression };
    match rng.below(4) {
        0 => vec![rng.pick(&[0, 1, 2, 3, 0x7E, 0x7F, 0x80, 0xFF])],
        1 => vec![rng.between(1, 3) as u8],
        _ => vec![(meant & 0x7F).max(1) as u8],
    }
}

fn rule(rng: &mut Rng, kept: u32, size: u32) -> Vec<u8> {
    let left = size.min(0x7FFF) as i32 - position(kept).unwrap_or(0);
    let common = rng.between(0, left.clamp(0, 2_000) as u32) as u16;
    let edges = [0, 0, 1, left, left, left + 1, 0x7FFF, 0x8000, 0xFFFE, 0xFFFF];
    let mut bytes = or_edge(rng, common, &edges).to_vec();
    if rng.chance(2, 3) {
        let width = rng.between(0, 40) as u16;
        bytes.extend(or_edge(rng, width, &[0, 0xC0, 0xC0, 0xC1, 0x100, 0x7FFF, 0xFFFF, 0xFFFF]));
        let all_ones = bytes[2..] == [0xFF, 0xFF];
        let usual = if all_ones { 0xFF } else { 0x00 };
        bytes.push(if rng.chance(1, 4) { rng.pick(&[0x00, 0x01, 0xFE, 0xFF]) } else { usual });
    }
    bytes
}

fn text(rng: &mut Rng, most: usize) -> Vec<u8> {
    let longest = rng.pick(&[0, 1, 8, 8, 8, 40, most]);
    let mut text = characters(rng, longest);
    if longest == most && rng.chance(1, 4) {
        text.resize(most, 0xC2);
    }
    text
}

/// RPS of few and many, and of just what the area has room for.
fn repeat(rng: &mut Rng, g: &Ground) -> Vec<u8> {
    let text = text(rng, 251);
    let length = text.len() as i32;
    let room = (AREA - HEADER).saturating_sub(g.state.used as usize) as i32;
    let common = rng.between(0, 20) as u16;
    let edges = [0, 1, length - 1, length, length + 1, 3 * length, room, room, room + 1, 0x7FFF];
    let wrong = [0x8000, 0xFFFF];
    let count = match rng.below(12) {
        0 => two(rng.pick(&wrong)),
        1 => two(rng.between(0, 0x7FFF) as u16),
        _ => or_edge(rng, common, &edges),
    };
    [&count[..], &text].concat()
}

/// Something that isn't a sequence of the nineteen, or not of its LENGTH.
pub(super) fn broken(rng: &mut Rng, ground: &Ground, hand: Hand) -> Vec<u8> {
    let chained = ground.state.chain != 0;
    let start = if chained { 0 } else { 2 };
    let (function, _) = rng.pick(&TYPES);
    let mut bytes = typed(rng, ground, hand, function);
    match rng.below(8) {
        0 if !chained => bytes[1] = rng.pick(&[0x00, 0x2B, 0xD2, 0xD4, 0xFF]),
        0 | 1 => bytes[start] = rng.pick(&[0, 1]),
        2 => {
            bytes[start] = rng.pick(&[0, 1]);
            bytes[start + 1] = rng.byte();
        }
        3 | 4 => bytes[start] = rng.byte(),
        5 => bytes[start + 1] = rng.byte(),
        6 => bytes[start + 1] = rng.pick(&[0x72, 0x76, 0x78, 0x8A, 0x8C, 0x98, 0xFE, 0xFF, 0xD3]),
        _ => bytes[start] = bytes[start].wrapping_add(rng.pick(&[1, 0xFF])),
    }
    bytes
}
