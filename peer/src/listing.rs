//! The listing of one part: what it would print, in words and numbers.

use std::fmt;

use crate::model::{position, AREA, LONGEST_PART};
use crate::record::{records, Record};
use crate::sheet::alone;

/// Bytes the listing program reads; reading the last of them means the part is too long.
pub const READ: usize = LONGEST_PART + 1;

/// The listing of a part alone on a fresh sheet of this increment; bytes after [`READ`] aren't read.
pub fn listing(input: &[u8], increment: u32) -> String {
    let part = &input[..input.len().min(READ)];
    let mut area = [0; AREA];
    let (answer, state) = alone(part, increment, &mut area);
    let mut lines = format!("PART {}\n", part.len());
    if answer.is_done() {
        for record in records(&area[..state.used as usize]) {
            lines += &format!("{record}\n");
        }
        let (i, b) = (position(state.i).unwrap_or(0), position(state.b).unwrap_or(0));
        lines += &format!("END {i} {b} {} {}\n", answer.first, answer.second);
    } else {
        lines += &format!("REFUSED {} {}\n", answer.code, answer.first);
    }
    lines
}

impl fmt::Display for Record<'_> {
    fn fmt(&self, f: &mut fmt::Formatter<'_>) -> fmt::Result {
        match *self {
            Record::Text { i, b, font, colour, adjustment, space, characters } => {
                write!(f, "T {i} {b} {font} {colour} {adjustment} {space} {}", Hex(characters))
            }
            Record::Rule { i, b, axis, colour, length, width } => {
                write!(f, "R {i} {b} {axis} {colour} {length} {width}")
            }
        }
    }
}

/// Bytes in capital hex, or a minus for none.
pub struct Hex<'a>(pub &'a [u8]);

impl fmt::Display for Hex<'_> {
    fn fmt(&self, f: &mut fmt::Formatter<'_>) -> fmt::Result {
        const DIGITS: [char; 16] =
            ['0', '1', '2', '3', '4', '5', '6', '7', '8', '9', 'A', 'B', 'C', 'D', 'E', 'F'];
        if self.0.is_empty() {
            return f.write_str("-");
        }
        let digit = |nibble: u8| DIGITS[usize::from(nibble)];
        let text: String =
            self.0.iter().flat_map(|byte| [digit(byte >> 4), digit(byte & 15)]).collect();
        f.write_str(&text)
    }
}
