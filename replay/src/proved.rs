//! The proved library in a process of its own, `build/serve`, asked through its host entries.
//!
//! Its machine code is x86-64 and other machines run that process under an
//! emulator, so this side links nothing. The lent memory stands in a file that
//! both have; a question and its reply go through two pipes.

use std::cell::RefCell;
use std::env;
use std::fmt;
use std::fs::{self, File};
use std::io::{self, Read, Write};
use std::os::unix::fs::FileExt;
use std::path::{Path, PathBuf};
use std::process::{self, Child, ChildStdin, ChildStdout, Command, Stdio};
use std::rc::Rc;

use peer::hub::Lent;
use peer::model::SLOTS;
use peer::replay::{complain, Backend};
use peer::{Answer, Descriptor, Entry, State};

use crate::words::{
    answer_of, bytes_of, descriptor_words, entry_of, entry_words, state_of, state_words, words_of,
    ENTRY, FIELDS, REPLY,
};

// Where each lent slice, and the stored number of open jobs, stands in the file; serve.c has the same numbers.
const TABLE: u64 = 0;
const RECORDS: u64 = 4_096;
const NUMBER: u64 = 73_728;
const WIDTHS: u64 = 77_824;
const PART: u64 = 81_920;
const SPAN: u64 = 1 << 28;

const FRESH: u32 = 0;
const OPEN: u32 = 1;
const SUBMIT: u32 = 2;
const TAKE: u32 = 3;
const CLOSE: u32 = 4;
const COUNT: u32 = 5;
const INTERPRET: u32 = 6;
const CHECK: u32 = 7;
const CHECK_AT: u32 = 8;

/// What is asked, with the lengths lent.
#[derive(Default)]
struct Question {
    what: u32,
    slot: u32,
    key: u32,
    number: u32,
    table: usize,
    records: usize,
    widths: usize,
    part: usize,
    descriptor: Descriptor,
    state: [u32; FIELDS],
    total: u64,
}

impl Question {
    fn bytes(&self) -> Vec<u8> {
        let lengths =
            [self.table, self.records, self.widths, self.part].map(|length| length as u32);
        let asked = [self.what, self.slot, self.key, self.number];
        let descriptor = descriptor_words(&self.descriptor);
        let mut bytes = bytes_of(&[&asked[..], &lengths, &descriptor, &self.state].concat());
        bytes.extend(self.total.to_ne_bytes());
        bytes
    }
}

/// The process and the file.
struct Served {
    child: Child,
    to: Option<ChildStdin>,
    from: ChildStdout,
    file: File,
}

impl Served {
    fn start() -> io::Result<Self> {
        let program = Path::new(env!("CARGO_MANIFEST_DIR")).join("../build/serve");
        let path = place();
        let file = File::options().read(true).write(true).create_new(true).open(&path)?;
        file.set_len(SPAN)?;
        let started = Command::new(program)
            .arg(&path)
            .stdin(Stdio::piped())
            .stdout(Stdio::piped())
            .spawn()
            .and_then(|child| Self::greet(child, file));
        // Once greeted it has the file open, and no one else needs its name.
        fs::remove_file(path)?;
        started
    }

    fn greet(mut child: Child, file: File) -> io::Result<Self> {
        let (Some(to), Some(from)) = (child.stdin.take(), child.stdout.take()) else {
            return Err(io::ErrorKind::BrokenPipe.into());
        };
        let mut served = Self { child, to: Some(to), from, file };
        served.ask(&Question { what: COUNT, ..Question::default() })?;
        Ok(served)
    }

    fn ask(&mut self, question: &Question) -> io::Result<[u32; REPLY]> {
        let to = self.to.as_mut().ok_or(io::ErrorKind::BrokenPipe)?;
        to.write_all(&question.bytes())?;
        let mut bytes = [0; 4 * REPLY];
        self.from.read_exact(&mut bytes)?;
        Ok(words_of(&bytes))
    }

    fn lend_table(&self, table: &[Entry]) -> io::Result<()> {
        let words: Vec<u32> = table.iter().flat_map(entry_words).collect();
        self.file.write_all_at(&bytes_of(&words), TABLE)
    }

    fn take_table(&self, table: &mut [Entry]) -> io::Result<()> {
        let mut bytes = vec![0; 4 * ENTRY * table.len()];
        self.file.read_exact_at(&mut bytes, TABLE)?;
        for (entry, bytes) in table.iter_mut().zip(bytes.chunks_exact(4 * ENTRY)) {
            *entry = entry_of(&words_of(bytes));
        }
        Ok(())
    }

    fn lend_widths(&self, widths: &[u16]) -> io::Result<()> {
        let bytes: Vec<u8> = widths.iter().flat_map(|width| width.to_ne_bytes()).collect();
        self.file.write_all_at(&bytes, WIDTHS)
    }

    /// Lends a part; what no file has room for is left off, and is far too long anyway.
    fn lend_part(&self, part: &[u8]) -> io::Result<usize> {
        let length = part.len().min((SPAN - PART) as usize);
        self.file.write_all_at(&part[..length], PART)?;
        Ok(length)
    }

    fn request(&mut self, table: &mut [Entry], question: Question) -> io::Result<Answer> {
        self.lend_table(table)?;
        let reply = self.ask(&Question { table: table.len(), ..question })?;
        self.take_table(table)?;
        Ok(answer_of(&reply))
    }

    /// A request that is lent the stored number of open jobs as well.
    fn counted(
        &mut self,
        table: &mut [Entry],
        stored: &mut u32,
        question: Question,
    ) -> io::Result<Answer> {
        self.file.write_all_at(&bytes_of(&[*stored]), NUMBER)?;
        let answer = self.request(table, question)?;
        let mut bytes = [0; 4];
        self.file.read_exact_at(&mut bytes, NUMBER)?;
        [*stored] = words_of(&bytes);
        Ok(answer)
    }

    fn submit(&mut self, lent: Lent<'_>, part: &[u8], question: Question) -> io::Result<Answer> {
        let Lent { table, records, widths } = lent;
        self.file.write_all_at(records, RECORDS)?;
        self.lend_widths(widths)?;
        let part = self.lend_part(part)?;
        let (records_length, widths) = (records.len(), widths.len());
        let question = Question { records: records_length, widths, part, ..question };
        let answer = self.request(table, question)?;
        self.file.read_exact_at(records, RECORDS)?;
        Ok(answer)
    }

    fn take(&mut self, lent: Lent<'_>, question: Question) -> io::Result<Answer> {
        let Lent { table, records, .. } = lent;
        self.file.write_all_at(records, RECORDS)?;
        let answer = self.request(table, Question { records: records.len(), ..question })?;
        self.file.read_exact_at(records, RECORDS)?;
        Ok(answer)
    }

    fn direct(
        &mut self,
        part: &[u8],
        widths: &[u16],
        area: &mut [u8],
        d: &Descriptor,
        s: &mut State,
    ) -> io::Result<Answer> {
        self.file.write_all_at(area, RECORDS)?;
        self.lend_widths(widths)?;
        let part = self.lend_part(part)?;
        let reply = self.ask(&Question {
            what: INTERPRET,
            records: area.len(),
            widths: widths.len(),
            part,
            descriptor: *d,
            state: state_words(s),
            ..Question::default()
        })?;
        self.file.read_exact_at(area, RECORDS)?;
        *s = state_of(&reply[3..]);
        Ok(answer_of(&reply))
    }

    fn check(&mut self, part: &[u8], question: Question) -> io::Result<u32> {
        let part = self.lend_part(part)?;
        let [code, ..] = self.ask(&Question { part, ..question })?;
        Ok(code)
    }
}

impl Drop for Served {
    fn drop(&mut self) {
        // Its input ends, so it does.
        self.to = None;
        let _ = self.child.wait();
    }
}

/// The proved library. Clones ask the same process, which keeps nothing.
#[derive(Clone)]
pub struct Proved(Rc<RefCell<Served>>);

impl Proved {
    /// Starts the process.
    pub fn start() -> io::Result<Self> {
        let served = Served::start().map_err(|error| {
            io::Error::new(error.kind(), format!("build/serve, the library's process: {error}"))
        })?;
        Ok(Self(Rc::new(RefCell::new(served))))
    }
}

impl fmt::Debug for Proved {
    fn fmt(&self, f: &mut fmt::Formatter<'_>) -> fmt::Result {
        f.write_str("Proved")
    }
}

/// Nothing can be said for a library whose process is gone.
fn here<T>(said: io::Result<T>) -> T {
    said.unwrap_or_else(|error| {
        complain("build/serve, the library's process, ended", error);
        process::exit(3)
    })
}

impl Backend for Proved {
    fn fresh(&mut self) -> [Entry; SLOTS] {
        let mut served = self.0.borrow_mut();
        let mut table = [Entry::opened(1, &Descriptor::default()); SLOTS];
        let question = Question { what: FRESH, ..Question::default() };
        here(served.request(&mut table, question));
        table
    }

    fn open(
        &mut self,
        table: &mut [Entry],
        stored: &mut u32,
        slot: u32,
        key: u32,
        d: &Descriptor,
    ) -> Answer {
        let question = Question { what: OPEN, slot, key, descriptor: *d, ..Question::default() };
        here(self.0.borrow_mut().counted(table, stored, question))
    }

    fn submit(&mut self, lent: Lent<'_>, slot: u32, key: u32, number: u32, part: &[u8]) -> Answer {
        let question = Question { what: SUBMIT, slot, key, number, ..Question::default() };
        here(self.0.borrow_mut().submit(lent, part, question))
    }

    fn take(&mut self, lent: Lent<'_>, slot: u32, key: u32, total: u64) -> Answer {
        let question = Question { what: TAKE, slot, key, total, ..Question::default() };
        here(self.0.borrow_mut().take(lent, question))
    }

    fn close(&mut self, table: &mut [Entry], stored: &mut u32, slot: u32, key: u32) -> Answer {
        let question = Question { what: CLOSE, slot, key, ..Question::default() };
        here(self.0.borrow_mut().counted(table, stored, question))
    }

    fn count(&mut self, table: &[Entry]) -> u32 {
        let mut served = self.0.borrow_mut();
        let question = Question { what: COUNT, table: table.len(), ..Question::default() };
        here(served.lend_table(table).and_then(|()| served.ask(&question)))[0]
    }

    fn direct(
        &mut self,
        part: &[u8],
        widths: &[u16],
        area: &mut [u8],
        d: &Descriptor,
        s: &mut State,
    ) -> Answer {
        here(self.0.borrow_mut().direct(part, widths, area, d, s))
    }

    fn check(&mut self, part: &[u8]) -> u32 {
        let question = Question { what: CHECK, ..Question::default() };
        here(self.0.borrow_mut().check(part, question))
    }

    fn check_at(&mut self, part: &[u8], increment: u32) -> u32 {
        let descriptor = Descriptor { increment, ..Descriptor::default() };
        let question = Question { what: CHECK_AT, descriptor, ..Question::default() };
        here(self.0.borrow_mut().check(part, question))
    }
}

/// A file of no one else's, in memory if the machine has such a place.
fn place() -> PathBuf {
    let memory = Path::new("/dev/shm");
    let folder = if memory.is_dir() { memory.to_path_buf() } else { env::temp_dir() };
    folder.join(format!("halviruso-serve-{}", process::id()))
}
