//! Runs replay scripts over lent memory, on any implementation of the hub.

mod memory;
mod standard;
mod stopped;

use std::fmt;
use std::io::{BufRead, Write};

use crate::answer::Answer;
use crate::check::{check, check_at};
use crate::hub::{self, Lent};
use crate::interpret::interpret;
use crate::listing::Hex;
use crate::model::{Descriptor, Entry, State, AREA, CODE_POINTS, RECORDS, SLOTS, WIDTHS};
use crate::record::records;
use crate::script::{Bad, Lend, Step};

pub use memory::Memory;
pub use standard::{complain, standard};
pub use stopped::Stopped;

/// An implementation of the hub, asked over memory that it is lent for each call.
pub trait Backend {
    /// A fresh table.
    fn fresh(&mut self) -> [Entry; SLOTS];
    /// Opens a job; `stored` is the number of open jobs.
    fn open(
        &mut self,
        table: &mut [Entry],
        stored: &mut u32,
        slot: u32,
        key: u32,
        d: &Descriptor,
    ) -> Answer;
    /// Submits a part.
    fn submit(&mut self, lent: Lent<'_>, slot: u32, key: u32, number: u32, part: &[u8]) -> Answer;
    /// Takes records that were read, up to a total since the job opened; the widths are nothing to it.
    fn take(&mut self, lent: Lent<'_>, slot: u32, key: u32, total: u64) -> Answer;
    /// Closes a job; `stored` is the number of open jobs.
    fn close(&mut self, table: &mut [Entry], stored: &mut u32, slot: u32, key: u32) -> Answer;
    /// Counts open jobs.
    fn count(&mut self, table: &[Entry]) -> u32;
    /// Interprets one part directly.
    fn direct(
        &mut self,
        part: &[u8],
        widths: &[u16],
        area: &mut [u8],
        d: &Descriptor,
        s: &mut State,
    ) -> Answer;
    /// The code of one part alone.
    fn check(&mut self, part: &[u8]) -> u32;
    /// The same at an increment.
    fn check_at(&mut self, part: &[u8], increment: u32) -> u32;
}

/// This crate's own hub.
#[derive(Clone, Copy, Debug, Default)]
pub struct Peer;

impl Backend for Peer {
    fn fresh(&mut self) -> [Entry; SLOTS] {
        [Entry::FRESH; SLOTS]
    }

    fn open(
        &mut self,
        table: &mut [Entry],
        stored: &mut u32,
        slot: u32,
        key: u32,
        d: &Descriptor,
    ) -> Answer {
        hub::open(table, stored, slot, key, d)
    }

    fn submit(&mut self, lent: Lent<'_>, slot: u32, key: u32, number: u32, part: &[u8]) -> Answer {
        hub::submit(lent, slot, key, number, part)
    }

    fn take(&mut self, lent: Lent<'_>, slot: u32, key: u32, total: u64) -> Answer {
        hub::take(lent, slot, key, total)
    }

    fn close(&mut self, table: &mut [Entry], stored: &mut u32, slot: u32, key: u32) -> Answer {
        hub::close(table, stored, slot, key)
    }

    fn count(&mut self, table: &[Entry]) -> u32 {
        hub::count(table)
    }

    fn direct(
        &mut self,
        part: &[u8],
        widths: &[u16],
        area: &mut [u8],
        d: &Descriptor,
        s: &mut State,
    ) -> Answer {
        interpret(part, widths, area, d, s)
    }

    fn check(&mut self, part: &[u8]) -> u32 {
        check(part)
    }

    fn check_at(&mut self, part: &[u8], increment: u32) -> u32 {
        check_at(part, increment)
    }
}

/// What a step says.
#[derive(Clone, Debug, PartialEq, Eq)]
pub enum Said {
    /// Nothing.
    Nothing,
    /// A request's answer.
    Answer(Answer),
    /// The count of open jobs.
    Count(u32),
    /// The stored number of them.
    Stored(u32),
    /// The code of a part alone.
    Check(u32),
    /// Lines that show memory.
    Shown(String),
}

impl fmt::Display for Said {
    fn fmt(&self, f: &mut fmt::Formatter<'_>) -> fmt::Result {
        match self {
            Self::Nothing => Ok(()),
            Self::Answer(Answer { code, first, second }) => writeln!(f, "{code} {first} {second}"),
            Self::Count(count) => writeln!(f, "COUNT {count}"),
            Self::Stored(stored) => writeln!(f, "STORED {stored}"),
            Self::Check(code) => writeln!(f, "CHECK {code}"),
            Self::Shown(lines) => f.write_str(lines),
        }
    }
}

/// A hub and the memory it is lent.
#[derive(Clone, Debug)]
pub struct Replay<B> {
    backend: B,
    memory: Memory,
    lend: Lend,
}

impl<B: Backend> Replay<B> {
    /// Fresh memory, lent in its right lengths.
    pub fn new(mut backend: B) -> Self {
        let lend = Lend { table: SLOTS, records: RECORDS, widths: WIDTHS };
        let memory = Memory::new(backend.fresh());
        Self { backend, memory, lend }
    }

    /// The memory as it stands.
    pub fn memory(&self) -> &Memory {
        &self.memory
    }

    /// The lengths lent now.
    pub fn lend(&self) -> Lend {
        self.lend
    }

    /// Runs a script to its end or to its first bad line, whose number `out` is told as well.
    pub fn run(&mut self, mut script: impl BufRead, mut out: impl Write) -> Result<(), Stopped> {
        let mut line = Vec::new();
        let mut number: u64 = 0;
        while script.read_until(b'\n', &mut line).map_err(Stopped::Read)? > 0 {
            number += 1;
            match self.line(&line) {
                Ok(said) => write!(out, "{said}").map_err(Stopped::Write)?,
                Err(bad) => {
                    let told = writeln!(out, "BAD LINE {number}").and_then(|()| out.flush());
                    told.map_err(Stopped::Write)?;
                    return Err(Stopped::Line { number, bad });
                }
            }
            line.clear();
        }
        out.flush().map_err(Stopped::Write)
    }

    /// Does one line, its newline with it. A line cut before its newline is bad.
    fn line(&mut self, line: &[u8]) -> Result<Said, Bad> {
        let text = line.strip_suffix(b"\n").ok_or_else(Bad::unended)?;
        if text.is_empty() || text.starts_with(b"#") {
            return Ok(Said::Nothing);
        }
        let text =
            std::str::from_utf8(text).map_err(|error| Bad::not_text(text, error.valid_up_to()))?;
        Ok(self.step(&Step::parse(text)?))
    }

    /// Does one step. A slot, font or length that no line can name is as good as no step.
    pub fn step(&mut self, step: &Step) -> Said {
        match *step {
            Step::Widths(width) => self.memory.widths[..WIDTHS].fill(width),
            Step::Width { font, code_point, width } => {
                let at = CODE_POINTS * usize::from(font) + usize::from(code_point);
                if let Some(place) = self.memory.widths[..WIDTHS].get_mut(at) {
                    *place = width;
                }
            }
            Step::Fill(byte) => self.memory.records[..RECORDS].fill(byte),
            Step::Fresh => {
                self.memory.table[..SLOTS].copy_from_slice(&self.backend.fresh());
                self.memory.stored = 0;
            }
            Step::Store(number) => self.memory.stored = number,
            Step::Lend(Lend { table, records, widths }) => {
                self.lend = Lend {
                    table: table.min(Lend::MOST.table),
                    records: records.min(Lend::MOST.records),
                    widths: widths.min(Lend::MOST.widths),
                }
            }
            Step::Set { slot, entry } => {
                if let Some(place) = self.memory.table[..SLOTS].get_mut(slot) {
                    *place = entry;
                }
            }
            _ => return self.ask(step),
        }
        Said::Nothing
    }

    /// Does a step that says something.
    fn ask(&mut self, step: &Step) -> Said {
        let table = &mut self.memory.table[..self.lend.table];
        let stored = &mut self.memory.stored;
        let records = &mut self.memory.records[..self.lend.records];
        let widths = &self.memory.widths[..self.lend.widths];
        match *step {
            Step::Open { slot, key, ref descriptor } => {
                Said::Answer(self.backend.open(table, stored, slot, key, descriptor))
            }
            Step::Submit { slot, key, number, ref part } => {
                let lent = Lent { table, records, widths };
                Said::Answer(self.backend.submit(lent, slot, key, number, part))
            }
            Step::Take { slot, key, total } => {
                let lent = Lent { table, records, widths };
                Said::Answer(self.backend.take(lent, slot, key, total))
            }
            Step::Close { slot, key } => Said::Answer(self.backend.close(table, stored, slot, key)),
            Step::Count => Said::Count(self.backend.count(table)),
            Step::Stored => Said::Stored(*stored),
            Step::Direct { slot, ref part } if slot < SLOTS => self.direct(slot, part),
            Step::Check { ref part } => Said::Check(self.backend.check(part)),
            Step::CheckAt { increment, ref part } => {
                Said::Check(self.backend.check_at(part, increment))
            }
            Step::Show { slot } if slot < SLOTS => self.show(slot),
            Step::Bytes { slot, from, to } if slot < SLOTS => {
                let bytes = self.memory.area(slot).get(from..to).unwrap_or(&[]);
                Said::Shown(format!("{}\n", Hex(bytes)))
            }
            _ => Said::Nothing,
        }
    }

    /// Asks the interpreter with a slot's own descriptor, state and bytes.
    fn direct(&mut self, slot: usize, part: &[u8]) -> Said {
        let entry = &mut self.memory.table[slot];
        let widths = &self.memory.widths[..self.lend.widths];
        let area = &mut self.memory.records[AREA * slot..][..AREA];
        Said::Answer(self.backend.direct(part, widths, area, &entry.descriptor, &mut entry.state))
    }

    /// The entry, then its records within the bytes used.
    fn show(&self, slot: usize) -> Said {
        let entry = &self.memory.table[slot];
        let used = AREA.min(entry.state.used as usize);
        let mut lines = format!("JOB {entry}\n");
        for record in records(&self.memory.area(slot)[..used]) {
            lines += &format!("{record}\n");
        }
        Said::Shown(lines + "END\n")
    }
}
