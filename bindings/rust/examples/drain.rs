//! A long job through one area: a tenant sends numbered parts, and a printer prints their
//! records and takes them, so that later parts have the room. `examples/drain.c` in Rust,
//! which says what the words mean; both print the same.
//!
//! ```text
//! drain [-w WIDTHS] [-i INCREMENT] [-t odd|record|part|full] PART...
//! ```

#[path = "drain/files.rs"]
mod files;
#[path = "drain/sheet.rs"]
mod sheet;

use std::env;
use std::process::exit;

use halviruso::{Answer, Code, Descriptor, Entry, Hub, Point, Records, AREA, WIDTHS};

const SLOT: u32 = 3;
const KEY: u32 = 7;

/// When the printer takes.
#[derive(Clone, Copy, PartialEq)]
enum Pattern {
    Odd,
    Record,
    Part,
    Full,
}

/// What became of the requests of one kind.
#[derive(Default)]
struct Tally {
    sent: u32,
    done: u32,
    again: u32,
    no_room: u32,
}

impl Tally {
    fn note(&mut self, answer: Answer) {
        self.sent += 1;
        self.done += u32::from(answer.code == Code::DONE);
        self.again += u32::from(answer.code == Code::ALREADY_TAKEN);
        self.no_room += u32::from(answer.code == Code::NO_ROOM);
    }
}

/// A host with one job, its tenant and its printer.
struct Host {
    hub: Hub,
    widths: [u16; WIDTHS],
    pattern: Pattern,
    /// What the printer has printed since the job was opened: its length is the total that the next take says.
    paper: Vec<u8>,
    /// The total of the take before.
    before: u64,
    turns: usize,
    restarts: u32,
    replies: usize,
    submits: Tally,
    takes: Tally,
}

fn give_up(what: &str, answer: Answer) -> ! {
    eprintln!("drain: {what}: {answer}");
    exit(1)
}

impl Host {
    fn job(&self) -> &Entry {
        &self.hub.table()[SLOT as usize]
    }

    fn printed(&self) -> u64 {
        self.paper.len() as u64
    }

    /// A network in small: of seven replies three are lost. Who gets none sends the same request again.
    fn arrives(&mut self) -> bool {
        self.replies += 1;
        b"0110011"[(self.replies - 1) % 7] == b'1'
    }

    /// The next record is the first one that is not on paper: before it stands what was printed and not taken yet.
    fn print_record(&mut self) -> bool {
        let records = self.hub.records(SLOT);
        let at = self.paper.len() - self.job().taken as usize;
        let Some(unread) = records.rest().get(at..).filter(|unread| !unread.is_empty()) else {
            return false;
        };
        let mut records = Records::new(unread);
        if records.next().is_none() {
            eprintln!("drain: no whole record behind byte {}", self.paper.len());
            exit(1);
        }
        let length = unread.len() - records.rest().len();
        self.paper.extend(&unread[..length]);
        true
    }

    fn take(&mut self, total: u64) -> Answer {
        let answer = self.hub.take(SLOT, KEY, total);
        self.takes.note(answer);
        answer
    }

    /// Takes what is on paper, and says so until a reply arrives: 0 and 1 both mean that it is taken, and it is taken once.
    fn take_printed(&mut self) {
        let total = self.printed();
        if total == u64::from(self.job().taken) {
            return;
        }
        loop {
            let answer = self.take(total);
            if answer.code > Code::ALREADY_TAKEN {
                give_up("take", answer);
            }
            if self.arrives() {
                break;
            }
        }
        // The take before this one comes a second time, late: it is answered 1, and nothing is changed.
        let answer = self.take(self.before);
        if answer.code != Code::ALREADY_TAKEN {
            give_up("a late take", answer);
        }
        self.before = total;
    }

    /// Its count is lost, and the sheet in its tray. The entry knows what was taken: behind that it begins again.
    fn restart_printer(&mut self) {
        self.paper.truncate(self.job().taken as usize);
        self.restarts += 1;
    }

    /// The printer's turn. At odd moments it prints some records, and takes or doesn't; else it prints them all.
    fn let_it_print(&mut self, area_is_full: bool) {
        let odd = self.pattern == Pattern::Odd;
        self.turns += 1;
        let most = if odd { 7 * self.turns % 40 } else { AREA };
        if odd && self.turns % 4 == 0 {
            self.restart_printer();
        }
        let mut some = 0;
        while some < most && self.print_record() {
            some += 1;
            if self.pattern == Pattern::Record {
                self.take_printed();
            }
        }
        let takes = match self.pattern {
            Pattern::Odd => self.turns % 2 == 0,
            Pattern::Part => true,
            Pattern::Record | Pattern::Full => area_is_full,
        };
        if takes {
            self.take_printed();
        }
    }

    /// The tenant. It sends a part until a reply arrives: 0 and 1 both mean that the part is placed, and it is placed once.
    fn send_part(&mut self, number: u32, part: &[u8]) -> Answer {
        loop {
            let answer = self.hub.submit(&self.widths, SLOT, KEY, number, part);
            self.submits.note(answer);
            if self.arrives() {
                return answer;
            }
        }
    }

    /// 29: what was printed is taken, and the same part is sent again, under the same number. Beside an empty area it would be 29 for ever.
    fn place(&mut self, number: u32, name: &str, part: &[u8]) {
        let mut answer = self.send_part(number, part);
        while answer.code == Code::NO_ROOM && self.job().state.used > 0 {
            self.let_it_print(true);
            answer = self.send_part(number, part);
        }
        if answer.code == Code::NO_ROOM {
            eprintln!("drain: {name}: its own records pass an area: cut it, by tools/cut");
        }
        if answer.code > Code::ALREADY_TAKEN {
            give_up(name, answer);
        }
    }

    /// Nothing is taken of a closed job, so the last take comes before the close.
    fn close_job(&mut self) {
        while self.print_record() {}
        self.take_printed();
        let answer = self.hub.close(SLOT, KEY);
        if answer.code != Code::DONE {
            give_up("close", answer);
        }
    }

    /// What was sent, and how often; and that a take that comes after the close does no harm.
    fn tell(&mut self) {
        let Tally { sent, done, again, no_room } = self.submits;
        eprintln!("parts: {done}, sent {sent} times: {again} already taken, {no_room} no room");
        let Tally { sent, done, again, .. } = self.takes;
        eprintln!("takes: {done}, sent {sent} times: {again} already taken");
        let (printed, restarts) = (self.printed(), self.restarts);
        eprintln!("records: {printed} bytes through an area of {AREA}, the printer restarted {restarts} times");
        eprintln!("a take after the close: {}", self.take(printed).code);
    }
}

fn usage() -> ! {
    eprintln!("drain: [-w WIDTHS] [-i INCREMENT] [-t odd|record|part|full] PART...");
    exit(2)
}

fn pattern_of(word: &str) -> Pattern {
    match word {
        "odd" => Pattern::Odd,
        "record" => Pattern::Record,
        "part" => Pattern::Part,
        "full" => Pattern::Full,
        _ => usage(),
    }
}

/// The host of a job just opened on US letter, by the options; and the files that are left.
fn opened(mut words: &[String]) -> (Host, &[String]) {
    let (mut widths, mut pattern, mut increment) = ([144; WIDTHS], Pattern::Odd, 180);
    while let [option, value, rest @ ..] = words {
        match option.as_str() {
            "-w" => widths = files::widths(value),
            "-i" => increment = value.parse().unwrap_or_else(|_| usage()),
            "-t" => pattern = pattern_of(value),
            _ => break,
        }
        words = rest;
    }
    let size = Point { i: 12_240, b: 15_840 };
    let letter = Descriptor { size, increment, colour: 0xFF07, rule: 14, ..Descriptor::default() };
    let mut hub = Hub::new();
    let answer = hub.open(SLOT, KEY, letter);
    if answer.code != Code::DONE {
        give_up("open", answer);
    }
    let (submits, takes) = (Tally::default(), Tally::default());
    let paper = Vec::new();
    (
        Host {
            hub,
            widths,
            pattern,
            paper,
            before: 0,
            turns: 0,
            restarts: 0,
            replies: 0,
            submits,
            takes,
        },
        words,
    )
}

fn main() {
    let words: Vec<String> = env::args().skip(1).collect();
    let (mut host, parts) = opened(&words);
    if parts.first().map_or(true, |word| word.starts_with('-')) {
        usage();
    }
    for (number, name) in (1..).zip(parts) {
        host.place(number, name, &files::part(name));
        host.let_it_print(false);
    }
    host.close_job();
    host.tell();
    sheet::print_job(host.job(), &host.paper);
}
