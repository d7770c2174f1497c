//! The words of a line, read one after the other.

use std::iter::Peekable;
use std::str::Split;

use super::bad::{shown, Bad};
use super::Lend;
use crate::model::{kept, Descriptor, Entry, State, GREATEST_POSITION, LEAST_POSITION, SLOTS};

/// The twelve numbers for which a form has D.
const D: &str = "SIZE-I SIZE-B INITIAL-I INITIAL-B MARGIN INCREMENT ADJUSTMENT DIRECTION FONT \
                 COLOUR RULE HIDDEN";

/// A form with the names of its descriptor's numbers.
pub(super) fn spelled(form: &str) -> String {
    let names: Vec<_> = form.split(' ').map(|name| if name == "D" { D } else { name }).collect();
    names.join(" ")
}

/// The words of a line that are still to be read, and the form that names them.
pub(super) struct Words<'a> {
    form: &'a str,
    /// Words read so far.
    read: usize,
    left: Peekable<Split<'a, char>>,
}

impl<'a> Words<'a> {
    /// The words after the first; a line has as many as its form, which is spelled, can have.
    pub(super) fn of(line: &'a str, form: &'a str) -> Self {
        let mut words = Self { form, read: 0, left: line.split(' ').peekable() };
        words.next();
        words
    }

    fn next(&mut self) -> &'a str {
        self.read += 1;
        self.left.next().unwrap_or_default()
    }

    /// What is wrong with the word read last.
    fn bad(&self, what: &str) -> Bad {
        let name = self.form.split(' ').nth(self.read - 1).unwrap_or_default();
        Bad(format!("word {}, {}, {what}", self.read, name.trim_matches(['[', ']'])))
    }

    fn no_number(&self, word: &str) -> Bad {
        let shown = shown(word.as_bytes());
        match word.strip_prefix(['+', '-']) {
            Some(digits) if is_number(digits) => {
                self.bad(&format!("has a sign: {shown}; only I and B may have one, a minus"))
            }
            _ => self.bad(&format!("is no number: \"{shown}\"")),
        }
    }

    fn out_of_range(&self, word: &str, range: &str) -> Bad {
        self.bad(&format!("is {}; it may be {range}", shown(word.as_bytes())))
    }

    fn digits(&mut self) -> Result<&'a str, Bad> {
        let word = self.next();
        // The library's reading of numbers would let a sign through.
        if is_number(word) {
            Ok(word)
        } else {
            Err(self.no_number(word))
        }
    }

    /// A number from 0 to `greatest`.
    pub(super) fn up_to<N: TryFrom<u64>>(&mut self, greatest: u64) -> Result<N, Bad> {
        let word = self.digits()?;
        let number = word.parse().ok().filter(|number| *number <= greatest);
        let between = if greatest == 1 { "or" } else { "to" };
        number
            .and_then(|number| N::try_from(number).ok())
            .ok_or_else(|| self.out_of_range(word, &format!("0 {between} {greatest}")))
    }

    /// A number of a request or a descriptor.
    pub(super) fn long(&mut self) -> Result<u32, Bad> {
        self.up_to(u32::MAX.into())
    }

    pub(super) fn width(&mut self) -> Result<u16, Bad> {
        self.up_to(u16::MAX.into())
    }

    pub(super) fn byte(&mut self) -> Result<u8, Bad> {
        self.up_to(u8::MAX.into())
    }

    /// A slot of the table; requests take any number for one.
    pub(super) fn slot(&mut self) -> Result<usize, Bad> {
        let word = self.digits()?;
        word.parse().ok().filter(|slot| *slot < SLOTS).ok_or_else(|| {
            let (slot, last) = (shown(word.as_bytes()), SLOTS - 1);
            Bad(format!("slot {slot}, and there are slots 0 to {last} only"))
        })
    }

    /// A position, which may have a minus.
    fn position(&mut self) -> Result<u32, Bad> {
        let word = self.next();
        if !is_number(word.strip_prefix('-').unwrap_or(word)) {
            return Err(self.no_number(word));
        }
        let position: Option<i16> = word.parse().ok();
        position.map(|position| kept(position.into())).ok_or_else(|| {
            self.out_of_range(word, &format!("{LEAST_POSITION} to {GREATEST_POSITION}"))
        })
    }

    /// A number of a state.
    fn short(&mut self) -> Result<u32, Bad> {
        self.up_to(u16::MAX.into())
    }

    fn mark(&mut self) -> Result<u32, Bad> {
        self.up_to(1)
    }

    pub(super) fn lend(&mut self) -> Result<Lend, Bad> {
        let Lend { table, records, widths } = Lend::MOST;
        Ok(Lend {
            table: self.up_to(table as u64)?,
            records: self.up_to(records as u64)?,
            widths: self.up_to(widths as u64)?,
        })
    }

    pub(super) fn descriptor(&mut self) -> Result<Descriptor, Bad> {
        Ok(Descriptor {
            size_i: self.long()?,
            size_b: self.long()?,
            initial_i: self.long()?,
            initial_b: self.long()?,
            margin: self.long()?,
            increment: self.long()?,
            adjustment: self.long()?,
            direction: self.long()?,
            font: self.long()?,
            colour: self.long()?,
            rule: self.long()?,
            hidden: self.long()?,
        })
    }

    /// `next` stands before `used`, the state's last number. What is taken can be left out.
    pub(super) fn entry(&mut self) -> Result<Entry, Bad> {
        let (key, mark, descriptor) = (self.long()?, self.mark()?, self.descriptor()?);
        let state = State {
            i: self.position()?,
            b: self.position()?,
            margin: self.short()?,
            increment: self.short()?,
            adjustment: self.short()?,
            direction: self.short()?,
            font: self.short()?,
            colour: self.short()?,
            space: self.short()?,
            suppression: self.short()?,
            chain: self.mark()?,
            used: 0,
        };
        let (next, used) = (self.long()?, self.short()?);
        let taken = if self.left.peek().is_some() { self.long()? } else { 0 };
        Ok(Entry { key, mark, descriptor, state: State { used, ..state }, next, taken })
    }

    /// Pairs of hex digits, or a minus for none.
    pub(super) fn bytes(&mut self) -> Result<Vec<u8>, Bad> {
        let word = self.next();
        if word == "-" {
            return Ok(Vec::new());
        }
        let (pairs, half) = word.as_bytes().as_chunks();
        let bytes: Option<Vec<u8>> =
            pairs.iter().map(|&[high, low]| Some(nibble(high)? << 4 | nibble(low)?)).collect();
        bytes.filter(|_| half.is_empty()).ok_or_else(|| self.no_bytes(word))
    }

    fn no_bytes(&self, word: &str) -> Bad {
        match word.char_indices().find(|(_, digit)| !digit.is_ascii_hexdigit()) {
            Some((at, other)) => {
                let other = shown(other.to_string().as_bytes());
                self.bad(&format!("has \"{other}\" as its digit {}, which is no hex digit", at + 1))
            }
            None => self.bad(&format!("has an odd number of hex digits: {}", word.len())),
        }
    }
}

fn is_number(word: &str) -> bool {
    !word.is_empty() && word.bytes().all(|byte| byte.is_ascii_digit())
}

fn nibble(digit: u8) -> Option<u8> {
    char::from(digit).to_digit(16).map(|nibble| nibble as u8)
}
