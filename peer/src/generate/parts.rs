//! Parts: accepted, at fault in one element, cut, changed, or any bytes at all.

use std::iter;

use super::elements::{self, Hand};
use super::ground::Ground;
use super::numbers::{self, Reach};
use super::rng::Rng;
use crate::answer::{Answer, Code};
use crate::interpret::interpret;
use crate::model::{Descriptor, State, AREA, LONGEST_PART, WIDTHS};
use crate::reader::{
    AMB, AMI, BSU, CLASS, DBR, DIR, ESU, NOP, PREFIX, RPS, SBI, SCFL, SIA, SIM, STC, STO, SVI,
};
use crate::record::HEADER;

/// The types whose values can be wrong, twice those of two parameters.
const JUDGED: [u8; 18] =
    [AMI, AMB, SIM, SBI, SVI, SCFL, STC, BSU, ESU, RPS, SIA, SIA, STO, STO, DIR, DIR, DBR, DBR];

/// A rule of 1 by 1, which fits every page.
const LEAST_INK: &[u8] = &[0, 1, 0, 1, 0];
/// Rules with no ink, the last two where the descriptor's rule width is 0.
const NO_INK: [&[u8]; 4] = [&[0, 0], &[0, 1, 0, 0, 0], &[0, 1], &[0, 1, 0xFF, 0xFF, 0xFF]];

/// How an element is to fail.
#[derive(Clone, Copy)]
enum Flaw {
    /// It is none of the nineteen, or not of its LENGTH.
    Broken,
    /// A value of this type is wrong.
    Value(u8),
    /// In any way, best with this code.
    Any(u32),
}

impl Flaw {
    /// Whether this answer is what was meant.
    fn is_met(self, answer: Answer) -> bool {
        match self {
            Self::Broken => !answer.is_done(),
            Self::Value(_) => [Code::Value as u32, Code::Font as u32].contains(&answer.code),
            Self::Any(code) => answer.code == code,
        }
    }
}

/// A part under way, and the ground as the elements so far leave it.
struct Draft<'a> {
    ground: Ground<'a>,
    hand: Hand,
    part: Vec<u8>,
    area: Box<[u8; AREA]>,
    /// Two free runs in a row would be one.
    after_run: bool,
}

impl<'a> Draft<'a> {
    fn new(rng: &mut Rng, ground: &Ground<'a>) -> Self {
        Self {
            ground: *ground,
            hand: Hand::any(rng),
            part: Vec::new(),
            area: Box::new([0; AREA]),
            after_run: false,
        }
    }

    fn is_run(&self, bytes: &[u8]) -> bool {
        self.ground.state.chain == 0 && bytes.first().is_some_and(|&byte| byte != PREFIX)
    }

    /// A sequence for the place reached.
    fn sequence(&self, rng: &mut Rng, function: u8, parameters: &[u8]) -> Vec<u8> {
        let chained = self.ground.state.chain != 0;
        elements::sequence(rng, chained, self.hand, function, parameters)
    }

    /// An element for the place reached; never a second free run, which would be one with the first.
    fn element(&self, rng: &mut Rng) -> Vec<u8> {
        loop {
            let bytes = elements::element(rng, &self.ground, self.hand);
            if !(self.after_run && self.is_run(&bytes)) {
                return bytes;
            }
        }
    }

    /// Adds `bytes` if they pass; gives their answer.
    fn attempt(&mut self, bytes: &[u8]) -> Answer {
        let run = self.is_run(bytes);
        let Ground { descriptor, state, widths } = &mut self.ground;
        let answer = interpret(bytes, widths, &mut self.area[..], descriptor, state);
        if answer.is_done() {
            self.after_run = run;
            self.part.extend(bytes);
        }
        answer
    }

    /// Grows by elements that pass to exactly `size` bytes, as far as the chain lets it.
    fn grow(&mut self, rng: &mut Rng, size: usize) {
        let mut missed = 0;
        while self.part.len() < size && missed < 60 {
            let bytes = self.element(rng);
            let fits = self.part.len() + bytes.len() <= size;
            missed = if fits && self.attempt(&bytes).is_done() { 0 } else { missed + 1 };
            if !fits && rng.chance(1, 3) {
                break;
            }
        }
        while self.part.len() < size {
            self.pad(rng, size - self.part.len());
        }
    }

    /// Fills some of the `left` bytes with a NOP, or with text where there is no room for one.
    fn pad(&mut self, rng: &mut Rng, left: usize) {
        let chained = self.ground.state.chain != 0;
        let introducer = if chained { 2 } else { 4 };
        if left < introducer {
            self.part.extend([0xC1, 0xC2, 0xC3].iter().take(left));
            return;
        }
        // What is left over has to be nothing or enough for another one.
        let most = introducer + 253;
        let length = if left <= most { left } else { most.min(left - 4) };
        let ignored = vec![0x5A; length - introducer];
        let nop = self.sequence(rng, NOP, &ignored);
        if !self.attempt(&nop).is_done() {
            self.part.extend(nop);
        }
    }

    /// Grows, then adds text to the edge of the page or of I's range, often hidden and going backwards.
    fn edge(&mut self, rng: &mut Rng, size: usize) {
        self.grow(rng, size.min(LONGEST_PART - 600));
        let hidden = self.ground.descriptor.hidden as u8;
        let amount = rng.between(0, 0x0FFF).to_be_bytes();
        let backwards = [amount[2], amount[3], 1];
        for (function, parameters) in [(BSU, &[hidden][..]), (SIA, &backwards)] {
            let bytes = self.sequence(rng, function, parameters);
            if rng.chance(2, 3) {
                self.attempt(&bytes);
            }
        }
        self.part.extend(elements::snug(rng, &self.ground, self.hand));
    }

    /// Grows, then adds a line at the foot of the page or at the end of B's range.
    fn foot(&mut self, rng: &mut Rng, size: usize) {
        self.grow(rng, size.min(LONGEST_PART - 20));
        self.part.extend(elements::foot(rng, &self.ground, self.hand));
    }

    /// Fills the area with rules at the page's corner, and adds rules that need no room.
    fn brim(&mut self, rng: &mut Rng) {
        let rules = AREA.saturating_sub(self.ground.state.used as usize) / HEADER;
        let corner = [AMI, AMB].map(|function| (function, &[0, 0][..]));
        let no_ink = NO_INK.into_iter().flat_map(|zero| [(DIR, zero), (DBR, zero)]);
        let filled = corner.into_iter().chain(iter::repeat_n((DIR, LEAST_INK), rules));
        for (function, parameters) in filled.chain(no_ink) {
            let bytes = self.sequence(rng, function, parameters);
            self.attempt(&bytes);
        }
    }

    /// Fills the area, then grows by what needs no room.
    fn overfill(&mut self, rng: &mut Rng, size: usize) {
        self.brim(rng);
        self.grow(rng, (self.part.len() + size).min(LONGEST_PART));
    }

    /// Grows, then adds a rule with no ink at the page's edge or one beyond, where it is refused.
    fn beyond(&mut self, rng: &mut Rng, size: usize) {
        self.grow(rng, size.min(LONGEST_PART - 20));
        let Descriptor { size_i, size_b, .. } = self.ground.descriptor;
        let (moving, edge) = rng.pick(&[(AMI, size_i), (AMB, size_b)]);
        let to = edge.saturating_add(rng.between(0, 1)) as u16;
        let bytes = self.sequence(rng, moving, &to.to_be_bytes());
        self.attempt(&bytes);
        let (function, parameters) = (rng.pick(&[DIR, DBR]), rng.pick(&NO_INK));
        self.part.extend(self.sequence(rng, function, parameters));
    }

    /// Adds an element that fails, if one is found, best as meant.
    fn fail(&mut self, rng: &mut Rng, flaw: Flaw) {
        if matches!(flaw, Flaw::Any(code) if code == Code::Room as u32) {
            self.brim(rng);
        }
        let mut failed = Vec::new();
        for _ in 0..150 {
            let bytes = match flaw {
                Flaw::Broken => elements::broken(rng, &self.ground, self.hand),
                Flaw::Value(function) => elements::typed(rng, &self.ground, self.hand, function),
                Flaw::Any(_) => self.element(rng),
            };
            let answer = self.attempt(&bytes);
            if !answer.is_done() {
                failed = bytes;
            }
            if flaw.is_met(answer) {
                break;
            }
        }
        self.part.extend(failed);
    }
}

/// A length of a part: mostly short, now and then any, or at the limit.
fn length(rng: &mut Rng) -> usize {
    match rng.below(32) {
        0 | 1 => rng.pick(&[0, 1, 2, 3, 4]),
        2 => rng.pick(&[LONGEST_PART - 1, LONGEST_PART, LONGEST_PART]),
        3 | 4 => rng.size(LONGEST_PART + 1),
        5..=11 => rng.size(800),
        _ => rng.size(100),
    }
}

/// A part for this ground.
pub fn part(rng: &mut Rng, ground: &Ground<'_>) -> Vec<u8> {
    let size = length(rng);
    let mut draft = Draft::new(rng, ground);
    match rng.below(37) {
        0 => return any_bytes(rng, size),
        1 => {
            let over = rng.pick(&[1, 1, 1, 2, 3, 7, 8, 255, LONGEST_PART, 65_536]);
            return sized_part(rng, ground, LONGEST_PART + over);
        }
        2 => {
            let short = rng.size(40);
            draft.grow(rng, LONGEST_PART - short);
            draft.part.extend(any_bytes(rng, 60));
        }
        3..=5 => {
            draft.grow(rng, size);
            mutate(rng, &mut draft.part);
        }
        6 | 7 => {
            draft.grow(rng, size);
            draft.part.truncate(size - rng.size(size.min(12)));
        }
        8 | 9 => fault(rng, &mut draft, size, Flaw::Broken),
        10..=16 => {
            let code = rng.between(24, 29);
            fault(rng, &mut draft, size, Flaw::Any(code));
        }
        17..=19 => {
            let function = rng.pick(&JUDGED);
            fault(rng, &mut draft, size, Flaw::Value(function));
        }
        20 | 21 => draft.edge(rng, size),
        22 => draft.overfill(rng, size),
        23 | 24 => draft.beyond(rng, size),
        25 | 26 => draft.foot(rng, size),
        _ => draft.grow(rng, size),
    }
    draft.part
}

/// A part of just this many bytes.
pub fn sized_part(rng: &mut Rng, ground: &Ground<'_>, size: usize) -> Vec<u8> {
    let mut draft = Draft::new(rng, ground);
    draft.grow(rng, size);
    draft.part
}

/// A part with an element at fault, now and then its first one, and often more after it.
fn fault(rng: &mut Rng, draft: &mut Draft<'_>, size: usize, flaw: Flaw) {
    if rng.chance(3, 4) {
        // A full area takes up to 266 sequences of 9 bytes.
        draft.grow(rng, size.min(LONGEST_PART - 2_800));
    }
    draft.fail(rng, flaw);
    if rng.chance(1, 2) {
        let tail = rng.size(40);
        draft.part.extend(any_bytes(rng, tail));
    }
    draft.part.truncate(LONGEST_PART);
}

/// Any bytes, with more prefixes and small numbers among them than chance would give.
fn any_bytes(rng: &mut Rng, size: usize) -> Vec<u8> {
    let mut bytes: Vec<u8> = (0..size).map(|_| rng.byte()).collect();
    for at in 0..size {
        match rng.below(12) {
            0 => bytes[at] = PREFIX,
            1 if at > 0 && bytes[at - 1] == PREFIX => bytes[at] = CLASS,
            2 => bytes[at] = rng.pick(&[0, 1, 2, 3, 4, 5, 6, 7]),
            3 => bytes[at] = NOP,
            _ => {}
        }
    }
    bytes
}

/// Changes a part in one to four places.
pub fn mutate(rng: &mut Rng, part: &mut Vec<u8>) {
    for _ in 0..rng.between(1, 4) {
        let at = rng.size(part.len() + 1);
        let until = at + rng.size((part.len() - at).min(12) + 1);
        match rng.below(6) {
            0 => part.insert(at, rng.byte()),
            1 => part.insert(at, rng.pick(&[PREFIX, CLASS, 0x00, 0x02, 0x7F, 0x80, 0xFF])),
            2 => drop(part.drain(at..until)),
            3 => part.extend_from_within(at..until),
            4 if at < part.len() => part[at] ^= 1 << rng.below(8),
            _ if at < part.len() => part[at] = rng.byte(),
            _ => {}
        }
    }
    part.truncate(LONGEST_PART + 3);
}

/// Everything that the interpreter is handed when it is asked directly.
#[derive(Clone, Debug)]
pub struct Case {
    /// The part.
    pub part: Vec<u8>,
    /// The width table, of its right length or not.
    pub widths: Vec<u16>,
    /// The area, of its right length or not.
    pub area: Vec<u8>,
    /// The descriptor, in range or not.
    pub descriptor: Descriptor,
    /// The starting state, in range or not.
    pub state: State,
}

/// A direct call.
pub fn case(rng: &mut Rng) -> Case {
    let mut widths = width_table(rng);
    let mut descriptor = numbers::descriptor(rng);
    let mut state = numbers::state(rng, &descriptor);
    if rng.chance(1, 3) {
        state = State::start(&descriptor);
    }
    let part = part(rng, &Ground { descriptor, state, widths: &widths });
    if rng.chance(1, 24) {
        numbers::spoil_descriptor(rng, &mut descriptor);
    }
    if rng.chance(1, 24) {
        numbers::spoil_state(rng, Reach::Memory, &mut state);
    }
    let filler = rng.byte();
    let mut area = vec![filler; AREA];
    if rng.chance(1, 40) {
        widths.resize(rng.pick(&[0, 1, 256, WIDTHS - 1, WIDTHS + 1]), 144);
    }
    if rng.chance(1, 40) {
        area.resize(rng.pick(&[0, 1, AREA - 1, AREA + 1, 2 * AREA]), filler);
    }
    Case { part, widths, area, descriptor, state }
}

/// Widths all alike, or like a font's, or any at all.
fn width_table(rng: &mut Rng) -> Vec<u16> {
    let one = rng.pick(&[0, 0, 1, 20, 144, 144, 300, 65_535]);
    let most = rng.pick(&[1, 30, 300, 300, 65_536]);
    let kind = rng.below(3);
    (0..WIDTHS)
        .map(|_| match kind {
            0 => one,
            1 => rng.below(most) as u16,
            _ if rng.chance(1, 12) => rng.below(65_536) as u16,
            _ => one,
        })
        .collect()
}
