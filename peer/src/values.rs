//! Reads the parameters of a sequence, whose LENGTH the reader has tested.

use crate::answer::{Code, Fault};
use crate::model::{
    COLOURS, FONTS, GREATEST_ADJUSTMENT, GREATEST_DISTANCE, GREATEST_RULE_WIDTH,
    GREATEST_SUPPRESSION,
};
use crate::reader::Parameters;

/// All ones in two bytes: the default indicator.
const ALL_ONES: u32 = 0xFFFF;
/// All ones in one byte.
const ALL_ONES_BYTE: u32 = 0xFF;
/// All ones in three bytes.
const ALL_ONES_WIDTH: [u8; 3] = [0xFF; 3];
/// An I axis at 0 degrees.
const AT_0: u32 = 0x0000;
/// A B axis at 90 degrees.
const AT_90: u32 = 0x2D00;

/// One parameter: its number, and the byte of the element where it begins.
#[derive(Clone, Copy)]
struct Parameter {
    number: u32,
    at: usize,
}

impl Parameter {
    /// The parameter of one byte after `before` others.
    #[inline(always)]
    fn one(p: Parameters<'_>, before: usize) -> Self {
        Self { number: u32::from(p.bytes[before]), at: p.start() + before }
    }

    /// The parameter of two bytes after `before` others.
    #[inline(always)]
    fn two(p: Parameters<'_>, before: usize) -> Self {
        let number = u16::from_be_bytes([p.bytes[before], p.bytes[before + 1]]);
        Self { number: u32::from(number), at: p.start() + before }
    }

    #[inline(always)]
    fn up_to(self, greatest: u32) -> Result<u32, Fault> {
        if self.number <= greatest {
            Ok(self.number)
        } else {
            Err(Code::Value.at(self.at))
        }
    }

    #[inline(always)]
    fn up_to_or(self, greatest: u32, default: u32) -> Result<u32, Fault> {
        if self.number == ALL_ONES {
            Ok(default)
        } else {
            self.up_to(greatest)
        }
    }

    /// An axis at this angle, or all ones.
    #[inline(always)]
    fn axis(self, angle: u32) -> Result<(), Fault> {
        if self.number == angle || self.number == ALL_ONES {
            Ok(())
        } else {
            Err(Code::Value.at(self.at))
        }
    }
}

/// A distance without default: AMI, AMB, the length of a rule, the count of RPS.
#[inline(always)]
pub(crate) fn distance(p: Parameters<'_>) -> Result<u32, Fault> {
    Parameter::two(p, 0).up_to(GREATEST_DISTANCE)
}

/// A distance or the default: SIM, SBI.
#[inline(always)]
pub(crate) fn distance_or(p: Parameters<'_>, default: u32) -> Result<u32, Fault> {
    Parameter::two(p, 0).up_to_or(GREATEST_DISTANCE, default)
}

/// An amount or the default: SIA, SVI.
#[inline(always)]
pub(crate) fn amount_or(p: Parameters<'_>, default: u32) -> Result<u32, Fault> {
    Parameter::two(p, 0).up_to_or(GREATEST_ADJUSTMENT, default)
}

/// A signed distance, where all ones is -1: RMI, RMB.
#[inline(always)]
pub(crate) fn signed_distance(p: Parameters<'_>) -> i32 {
    i32::from(Parameter::two(p, 0).number as i16)
}

/// The direction of SIA: absent is 0, whatever the amount.
#[inline(always)]
pub(crate) fn direction_or(p: Parameters<'_>, default: u32) -> Result<u32, Fault> {
    if p.bytes.len() < 3 {
        return Ok(0);
    }
    match Parameter::one(p, 2) {
        Parameter { number: ALL_ONES_BYTE, .. } => Ok(default),
        direction => direction.up_to(1),
    }
}

/// The font of SCFL, whose fault has a code of its own.
#[inline(always)]
pub(crate) fn font_or(p: Parameters<'_>, default: u32) -> Result<u32, Fault> {
    match Parameter::one(p, 0) {
        Parameter { number: ALL_ONES_BYTE, .. } => Ok(default),
        Parameter { number, .. } if number < FONTS as u32 => Ok(number),
        Parameter { at, .. } => Err(Code::Font.at(at)),
    }
}

/// The colour of STC; the precision byte after it is ignored.
#[inline(always)]
pub(crate) fn colour_or(p: Parameters<'_>, default: u32) -> Result<u32, Fault> {
    match Parameter::two(p, 0) {
        Parameter { number: ALL_ONES, .. } => Ok(default),
        Parameter { number, .. } if COLOURS.contains(&number) => Ok(number),
        Parameter { at, .. } => Err(Code::Value.at(at)),
    }
}

/// The only orientation, for STO: I at 0 and B at 90 degrees, or all ones.
#[inline(always)]
pub(crate) fn orientation(p: Parameters<'_>) -> Result<(), Fault> {
    Parameter::two(p, 0).axis(AT_0)?;
    Parameter::two(p, 2).axis(AT_90)
}

/// The suppression identifier of BSU and ESU.
#[inline(always)]
pub(crate) fn suppression(p: Parameters<'_>) -> Result<u32, Fault> {
    match Parameter::one(p, 0) {
        Parameter { number: 0, at } => Err(Code::Value.at(at)),
        id => id.up_to(GREATEST_SUPPRESSION),
    }
}

/// The width of DIR and DBR, after the length: absent or all ones is the default.
#[inline(always)]
pub(crate) fn rule_width_or(p: Parameters<'_>, default: u32) -> Result<u32, Fault> {
    let [_, _, high, low, fraction] = *p.bytes else {
        return Ok(default);
    };
    let width = Parameter::two(p, 2);
    if [high, low, fraction] == ALL_ONES_WIDTH {
        Ok(default)
    } else if fraction != 0 {
        Err(Code::Value.at(width.at))
    } else {
        width.up_to(GREATEST_RULE_WIDTH)
    }
}

/// How many characters RPS presents; some need text to take them from, or the count is at fault.
#[inline(always)]
pub(crate) fn repetition(p: Parameters<'_>) -> Result<(&[u8], usize), Fault> {
    let count = distance(p)? as usize;
    let text = &p.bytes[2..];
    if count > 0 && text.is_empty() {
        Err(Code::Value.at(p.start()))
    } else {
        Ok((text, count))
    }
}
