//! What each element does: moves, modal values, text and rules.

use crate::answer::{Code, Fault};
use crate::model::{
    kept, Descriptor, State, ABSENT, AREA, CODE_POINTS, GREATEST_POSITION, LEAST_POSITION, WIDTHS,
};
use crate::reader::{self, Element, Parameters};
use crate::record::{self, HEADER};
use crate::text::{Bounds, Pitch};
use crate::values;

/// DIR extends its length along I, DBR along B.
#[derive(Clone, Copy, PartialEq)]
enum Axis {
    I = 0,
    B = 1,
}

/// The work on one part: its state, and the records it adds to bytes of its own.
///
/// Descriptor and state were in range, so every number fits where it is put.
pub(crate) struct Work<'a> {
    descriptor: &'a Descriptor,
    /// Each font's widths.
    rows: &'a [[u16; CODE_POINTS]],
    records: &'a mut [u8; AREA],
    /// The modal values; I, B and the bytes used stand beside it.
    modal: State,
    i: i32,
    b: i32,
    used: usize,
}

impl<'a> Work<'a> {
    pub(crate) fn new(
        descriptor: &'a Descriptor,
        widths: &'a [u16; WIDTHS],
        records: &'a mut [u8; AREA],
        state: &State,
    ) -> Self {
        Self {
            descriptor,
            rows: widths.as_chunks().0,
            records,
            modal: *state,
            i: state.i as i32 + LEAST_POSITION,
            b: state.b as i32 + LEAST_POSITION,
            used: state.used as usize,
        }
    }

    /// The state reached.
    pub(crate) fn state(&self) -> State {
        State { i: kept(self.i), b: kept(self.b), used: self.used as u32, ..self.modal }
    }

    #[inline(always)]
    pub(crate) fn is_chained(&self) -> bool {
        self.modal.chain != 0
    }

    /// Does what one element says. After a fault the work is of no more use.
    #[inline(always)]
    pub(crate) fn place(&mut self, element: Element<'_>) -> Result<(), Fault> {
        match element {
            Element::FreeRun(text) => Ok(self.text(text, text.len())?),
            Element::Sequence { function, chains, parameters } => {
                self.modal.chain = u32::from(chains);
                self.sequence(function, parameters)
            }
        }
    }

    #[inline(always)]
    fn sequence(&mut self, function: u8, p: Parameters<'_>) -> Result<(), Fault> {
        let (d, s) = (self.descriptor, &mut self.modal);
        match function {
            reader::AMI => self.i = values::distance(p)? as i32,
            reader::AMB => self.b = values::distance(p)? as i32,
            reader::RMI => self.i = moved(self.i, values::signed_distance(p))?,
            reader::RMB => self.b = moved(self.b, values::signed_distance(p))?,
            reader::BLN => {
                self.b = moved(self.b, s.increment as i32)?;
                self.i = s.margin as i32;
            }
            reader::SIM => s.margin = values::distance_or(p, d.margin)?,
            reader::SBI => s.increment = values::distance_or(p, d.increment)?,
            reader::SIA => {
                s.adjustment = values::amount_or(p, d.adjustment)?;
                s.direction = values::direction_or(p, d.direction)?;
            }
            reader::SVI => s.space = values::amount_or(p, ABSENT)?,
            reader::SCFL => s.font = values::font_or(p, d.font)?,
            reader::STC => s.colour = values::colour_or(p, d.colour)?,
            reader::STO => values::orientation(p)?,
            reader::BSU => s.suppression = paired(s.suppression, 0, values::suppression(p)?)?,
            reader::ESU => s.suppression = paired(s.suppression, values::suppression(p)?, 0)?,
            reader::DIR => return self.rule(Axis::I, p),
            reader::DBR => return self.rule(Axis::B, p),
            reader::TRN => self.text(p.bytes, p.bytes.len())?,
            reader::RPS => {
                let (text, count) = values::repetition(p)?;
                self.text(text, count)?;
            }
            reader::NOP => {}
            _ => return Err(Code::Type.at(p.start() - 1)),
        }
        Ok(())
    }

    /// An open suppression whose id is the descriptor's hidden one; 0 is no id.
    #[inline(always)]
    fn is_hidden(&self) -> bool {
        self.modal.suppression != 0 && self.modal.suppression == self.descriptor.hidden
    }

    /// Adjustment, negative for direction 1.
    #[inline(always)]
    fn adjustment(&self) -> i32 {
        let amount = self.modal.adjustment as i32;
        if self.modal.direction == 0 {
            amount
        } else {
            -amount
        }
    }

    /// Presents `count` characters of `text` taken round and round.
    #[inline(always)]
    fn text(&mut self, text: &[u8], count: usize) -> Result<(), Code> {
        if count == 0 {
            return Ok(());
        }
        let row = &self.rows[self.modal.font as usize];
        let space = (self.modal.space != ABSENT).then_some(self.modal.space as i32);
        let pitch = Pitch::new(row, space, self.adjustment());
        if self.is_hidden() {
            self.i = pitch.walk(text, count, self.i, Bounds::NONE)?;
            return Ok(());
        }
        if !within(self.b, 0, self.descriptor.size_b) {
            return Err(Code::Outside);
        }
        let start = self.i;
        self.i = pitch.walk(text, count, start, Bounds::page(self.descriptor.size_i as i32))?;
        self.text_record(start, text, count)
    }

    #[inline(always)]
    fn text_record(&mut self, start: i32, text: &[u8], count: usize) -> Result<(), Code> {
        let length = HEADER + count;
        let header = record::header([
            length as u16,
            record::TEXT,
            start as u16,
            self.b as u16,
            self.modal.font as u16,
            self.modal.colour as u16,
            self.adjustment() as u16,
            self.modal.space as u16,
        ]);
        let bytes = self.room(length)?;
        bytes[..HEADER].copy_from_slice(&header);
        record::repeat(&mut bytes[HEADER..], text);
        Ok(())
    }

    /// Draws a rule from I, B; it moves nothing, and with no ink it isn't recorded.
    #[inline(always)]
    fn rule(&mut self, axis: Axis, p: Parameters<'_>) -> Result<(), Fault> {
        let length = values::distance(p)?;
        let width = values::rule_width_or(p, self.descriptor.rule)?;
        if self.is_hidden() {
            return Ok(());
        }
        let (along_i, along_b) = if axis == Axis::I { (length, width) } else { (width, length) };
        let d = self.descriptor;
        if !within(self.i, along_i, d.size_i) || !within(self.b, along_b, d.size_b) {
            return Err(Code::Outside.into());
        }
        // No marks appear, so there is nothing that needs room.
        if length == 0 || width == 0 {
            return Ok(());
        }
        let header = record::header([
            HEADER as u16,
            record::RULE,
            self.i as u16,
            self.b as u16,
            axis as u16,
            self.modal.colour as u16,
            length as u16,
            width as u16,
        ]);
        self.room(HEADER)?.copy_from_slice(&header);
        Ok(())
    }

    /// The next `length` record bytes, now used.
    #[inline(always)]
    fn room(&mut self, length: usize) -> Result<&mut [u8], Code> {
        let end = self.used + length;
        let bytes = self.records.get_mut(self.used..end).ok_or(Code::Room)?;
        self.used = end;
        Ok(bytes)
    }
}

/// A position after a move.
#[inline(always)]
fn moved(from: i32, by: i32) -> Result<i32, Code> {
    let to = from + by;
    if (LEAST_POSITION..=GREATEST_POSITION).contains(&to) {
        Ok(to)
    } else {
        Err(Code::Position)
    }
}

/// The open suppression becomes `then` if it is `now`.
#[inline(always)]
fn paired(open: u32, now: u32, then: u32) -> Result<u32, Code> {
    if open == now {
        Ok(then)
    } else {
        Err(Code::Pairing)
    }
}

/// Whether a start and the end `extent` beyond it lie in 0..size.
#[inline(always)]
fn within(start: i32, extent: u32, size: u32) -> bool {
    0 <= start && start as u32 + extent <= size
}
