//! Writes the parts of the workloads.

use peer::generate::Rng;
use peer::reader::{
    AMB, AMI, BLN, BSU, CHAIN, CLASS, DIR, NOP, PREFIX, RPS, SBI, SCFL, SIA, SIM, STC, STO, SVI,
    TRN,
};

/// Characters that each RPS presents.
pub const RPS_COUNT: usize = 4_000;

/// A part under way.
#[derive(Clone, Debug, Default)]
pub struct Part {
    bytes: Vec<u8>,
    chained: bool,
}

impl Part {
    pub fn bytes(self) -> Vec<u8> {
        self.bytes
    }

    /// Bytes as they are.
    pub fn and(mut self, bytes: &[u8]) -> Self {
        self.bytes.extend(bytes);
        self
    }

    /// A sequence, which chains the next one or not.
    fn sequence(&mut self, function: u8, parameters: &[u8], chains: bool) {
        if !self.chained {
            self.bytes.extend([PREFIX, CLASS]);
        }
        self.bytes.extend([parameters.len() as u8 + 2, function | if chains { CHAIN } else { 0 }]);
        self.bytes.extend(parameters);
        self.chained = chains;
    }

    fn number(&mut self, function: u8, number: u32, chains: bool) {
        self.sequence(function, &(number as u16).to_be_bytes(), chains);
    }
}

/// Word-like text: letters, and a space after every few of them.
fn letters(rng: &mut Rng, length: usize) -> Vec<u8> {
    let mut left = 0;
    (0..length)
        .map(|_| {
            if left == 0 {
                left = 2 + rng.size(9);
                return 0x40;
            }
            left -= 1;
            0xC1 + rng.below(9) as u8
        })
        .collect()
}

pub fn lines(rng: &mut Rng, lines: usize, length: usize) -> Part {
    let mut part = Part::default();
    for _ in 0..lines {
        part.sequence(BLN, &[], false);
        part.bytes.extend(letters(rng, length));
    }
    part
}

/// Lines of TRN, with a variable space, or with an adjustment taken off each character.
pub fn trn(
    rng: &mut Rng,
    lines: usize,
    length: usize,
    space: Option<u32>,
    off: Option<u32>,
) -> Part {
    let mut part = Part::default();
    if let Some(space) = space {
        part.number(SVI, space, true);
    }
    if let Some(off) = off {
        part.sequence(SIA, &[(off >> 8) as u8, off as u8, 1], true);
    }
    for _ in 0..lines {
        part.sequence(BLN, &[], true);
        part.sequence(TRN, &letters(rng, length), true);
    }
    part.sequence(NOP, &[], false);
    part
}

/// Long free runs, with an adjustment taken off each character.
pub fn runs(rng: &mut Rng, runs: usize, length: usize, off: u32) -> Part {
    let mut part = Part::default();
    part.sequence(SIA, &[(off >> 8) as u8, off as u8, 1], false);
    for _ in 0..runs {
        part.sequence(BLN, &[], false);
        part.bytes.extend(letters(rng, length));
    }
    part
}

pub fn words(rng: &mut Rng, words: usize) -> Part {
    let mut part = Part::default();
    for _ in 0..words {
        part.number(AMI, rng.between(0, 10_000), true);
        part.number(AMB, rng.between(0, 15_000), true);
        let length = 2 + rng.size(10);
        part.sequence(TRN, &letters(rng, length), true);
    }
    part.sequence(NOP, &[], false);
    part
}

pub fn one_byte(runs: usize) -> Part {
    let mut part = Part::default();
    for _ in 0..runs {
        part.sequence(BLN, &[], false);
        part.bytes.push(0xC1);
    }
    part
}

pub fn moves(rng: &mut Rng, moves: usize, chained: bool) -> Part {
    let mut part = Part::default();
    for at in 0..moves {
        part.number(AMI, rng.between(0, 12_000), chained && at + 1 < moves);
    }
    part
}

/// Eight types at random to at most `size` bytes, one chain.
pub fn mixed(rng: &mut Rng, size: usize) -> Part {
    let mut part = Part::default();
    while part.bytes.len() + 12 <= size {
        match rng.below(8) {
            0 => part.number(AMI, rng.between(0, 12_000), true),
            1 => part.number(AMB, rng.between(0, 15_000), true),
            2 => part.number(SIM, rng.between(0, 2_000), true),
            3 => part.number(SBI, rng.between(0, 400), true),
            4 => part.number(SVI, rng.between(0, 300), true),
            5 => part.sequence(SCFL, &[rng.below(4) as u8], true),
            6 => part.number(STC, rng.pick(&[0x0000, 0xFF00, 0xFF07]), true),
            _ => part.sequence(STO, &[0x00, 0x00, 0x2D, 0x00], true),
        }
    }
    part.sequence(NOP, &[], false);
    part
}

/// NOPs of fewer than `under` bytes each, or of all they can have.
pub fn nops(rng: &mut Rng, size: usize, under: usize) -> Part {
    let mut part = Part::default();
    let most = if under == 0 { 253 } else { under };
    while part.bytes.len() + most + 4 <= size {
        let length = if under == 0 { 253 } else { rng.size(under) };
        part.sequence(NOP, &vec![0x5A; length], false);
    }
    part
}

pub fn rules(rng: &mut Rng, rules: usize) -> Part {
    let mut part = Part::default();
    for at in 0..rules {
        part.number(AMI, rng.between(0, 10_000), true);
        part.number(AMB, rng.between(0, 15_000), true);
        let length = rng.between(0, 2_000).to_be_bytes();
        part.sequence(DIR, &[length[2], length[3], 0x00, 0x0E, 0x00], at + 1 < rules);
    }
    part
}

pub fn rps(length: usize) -> Part {
    let mut part = Part::default();
    let count = (RPS_COUNT as u16).to_be_bytes();
    let text = letters(&mut Rng::new(1), length);
    part.sequence(RPS, &[&count[..], &text].concat(), false);
    part
}

/// One run to just this size, hidden by suppression 1.
pub fn hidden_text(rng: &mut Rng, size: usize) -> Part {
    let mut part = Part::default();
    part.sequence(BSU, &[1], false);
    let left = size - part.bytes.len();
    part.bytes.extend(letters(rng, left));
    part
}

/// One run of this length.
pub fn one_run(rng: &mut Rng, length: usize) -> Part {
    Part::default().and(&letters(rng, length))
}
