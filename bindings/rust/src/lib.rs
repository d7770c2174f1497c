//! A text hub for print shops whose every answer is proved, for hosts written in Rust.
//!
//! Tenants open jobs and send PTOCA presentation text in numbered parts; the hub
//! places each part as text and rule records, which printers read. [`Hub`] owns the
//! table, the number of open jobs and the record buffer that the library is lent, and
//! hands on what the library answers: nothing here decides anything. The width table is
//! the host's, lent with each part. What to do about each answer stands in `docs/HOSTS.md`.
//!
//! # A job from open to close
//!
//! ```
//! use halviruso::{Code, Descriptor, Hub, Point, Record, WIDTHS};
//!
//! // US letter in 1/1440 inch, six lines to the inch; every character is 144 wide.
//! let sheet = Descriptor {
//!     size: Point { i: 12_240, b: 15_840 },
//!     increment: 240,
//!     colour: 0xFF07,
//!     rule: 14,
//!     ..Descriptor::default()
//! };
//! let widths = [144; WIDTHS];
//! let mut hub = Hub::new();
//! assert_eq!(hub.open(3, 7, sheet).code, Code::DONE);
//!
//! // AMI 720 and AMB 480 in a chain, then two characters: three elements, 18 record bytes.
//! let part = b"\x2B\xD3\x04\xC7\x02\xD0\x04\xD2\x01\xE0\xC1\xC2";
//! let answer = hub.submit(&widths, 3, 7, 1, part);
//! assert_eq!((answer.code, answer.first, answer.second), (Code::DONE, 3, 18));
//!
//! // No reply in time? The same request again is safe.
//! assert_eq!(hub.submit(&widths, 3, 7, 1, part).code, Code::ALREADY_TAKEN);
//!
//! // A refusal changes nothing: the part is mended and sent under the same number.
//! let answer = hub.submit(&widths, 3, 7, 2, b"\x2B\xD3\x04\xC6\x2F\x41\xC1");
//! assert_eq!(answer.to_string(), "27, outside; 6, 0");
//! let rule = b"\x2B\xD3\x04\xE4\x05\xA0";
//! assert_eq!(hub.submit(&widths, 3, 7, 2, rule).code, Code::DONE);
//!
//! let printed: Vec<String> = hub.records(3).map(|record| match record {
//!     Record::Text { i, b, characters, .. } => format!("text at {i}, {b}: {characters:X?}"),
//!     Record::Rule { i, b, length, width, .. } => format!("rule at {i}, {b}: {length} by {width}"),
//! }).collect();
//! assert_eq!(printed, ["text at 720, 480: [C1, C2]", "rule at 1008, 480: 1440 by 14"]);
//!
//! // The desk may ask at any time: the number is there, and nothing is walked.
//! assert_eq!(hub.open_jobs(), 1);
//! assert_eq!(hub.close(3, 7).code, Code::DONE);
//! assert_eq!(hub.open_jobs(), 0);
//! assert_eq!(hub.submit(&widths, 3, 7, 3, part).to_string(), "16, no such job; 0, 0");
//! ```
//!
//! # Finding the byte at fault
//!
//! A refusal of 20 to 29 points at a byte, and each [`Code`] says at which. It is always
//! inside the part, so it can be looked at without a test.
//!
//! ```
//! # use halviruso::{first_state, interpret, Code, Descriptor, Hub, Point, AREA, WIDTHS};
//! # let sheet = Descriptor { size: Point { i: 12_240, b: 15_840 }, ..Descriptor::default() };
//! # let widths = [144; WIDTHS];
//! # let mut hub = Hub::new();
//! # assert_eq!(hub.open(3, 7, sheet).code, Code::DONE);
//! // Two characters, AMI 100, and in its chain SIA by 10 in direction 02, which there isn't.
//! let part = b"\xC1\xC2\x2B\xD3\x04\xC7\x00\x64\x05\xC2\x00\x0A\x02";
//! let answer = hub.submit(&widths, 3, 7, 1, part);
//! if (Code::CUT..=Code::NO_ROOM).contains(&answer.code) {
//!     let byte = part[answer.first as usize];
//!     let told = format!("{} at byte {}: X'{byte:02X}'", answer.code, answer.first);
//!     assert_eq!(told, "24, value at byte 12: X'02'");
//! }
//! # assert_eq!(answer.code, Code::VALUE);
//!
//! // Asked directly, the interpreter points at the same byte.
//! let start = first_state(sheet).unwrap();
//! let direct = interpret(part, &widths, &mut [0; AREA], sheet, start);
//! assert_eq!(direct.answer, answer);
//! ```
//!
//! # Long jobs
//!
//! An area holds 4,096 bytes, and a long job writes more. A printer reads the records that
//! stand there and says by [`Hub::take`] how many bytes it has read since the job was
//! opened; then there is room for the parts to come. A part that found none is sent again.
//!
//! ```
//! # use halviruso::{Code, Descriptor, Hub, Point, WIDTHS};
//! # let sheet = Descriptor { size: Point { i: 12_240, b: 15_840 }, ..Descriptor::default() };
//! # let widths = [1; WIDTHS];
//! # let mut hub = Hub::new();
//! # let mut printed = Vec::new();
//! # assert_eq!(hub.open(3, 7, sheet).code, Code::DONE);
//! for number in 1..=10 {
//!     let part = [0xC0 + number as u8; 1_000];
//!     if hub.submit(&widths, 3, 7, number, &part).code == Code::NO_ROOM {
//!         printed.extend(hub.records(3).map(|record| format!("{record:?}")));
//!         let entry = hub.entry(3).unwrap();
//!         let read = u64::from(entry.taken) + u64::from(entry.state.used);
//!         assert_eq!(hub.take(3, 7, read).code, Code::DONE);
//!         assert_eq!(hub.submit(&widths, 3, 7, number, &part).code, Code::DONE);
//!     }
//! }
//! // Four parts of 1,016 record bytes fit at a time, and two are left.
//! assert_eq!((printed.len(), hub.records(3).count()), (8, 2));
//! # assert_eq!((hub.table()[3].taken, hub.table()[3].state.used), (8 * 1_016, 2 * 1_016));
//! ```
//!
//! # Jobs with different width tables
//!
//! Each part is placed by the table that it is submitted with. The host remembers which
//! is a job's, and lends the same one from its first part to its last.
//!
//! ```
//! # use halviruso::{Code, Descriptor, Hub, Point, WIDTHS};
//! # let sheet = Descriptor { size: Point { i: 12_240, b: 15_840 }, ..Descriptor::default() };
//! # let mut hub = Hub::new();
//! let fonts = [[72; WIDTHS], [144; WIDTHS]];
//! for (slot, widths) in (0..).zip(&fonts) {
//!     assert_eq!(hub.open(slot, 1, sheet).code, Code::DONE);
//!     assert_eq!(hub.submit(widths, slot, 1, 1, b"\xC1\xC2\xC3").code, Code::DONE);
//! }
//! assert_eq!((hub.table()[0].state.i(), hub.table()[1].state.i()), (216, 432));
//! ```
//!
//! # Over a restart
//!
//! All that the hub knows is the table and the record buffer; the number of open jobs is
//! counted when they are put back. Keep both, of the same moment, before the reply goes
//! out: what is accepted after that, a restart forgets. Within the program [`Hub::clone`]
//! keeps them.
//!
//! ```
//! use std::io::{Read, Write};
//! # use halviruso::{Code, Descriptor, Hub, Point, RECORDS, TABLE, WIDTHS};
//!
//! # fn main() -> std::io::Result<()> {
//! # let sheet = Descriptor { size: Point { i: 12_240, b: 15_840 }, ..Descriptor::default() };
//! # let widths = [144; WIDTHS];
//! # let mut hub = Hub::new();
//! # assert_eq!(hub.open(3, 7, sheet).code, Code::DONE);
//! # let mut file = Vec::new();
//! assert_eq!(hub.submit(&widths, 3, 7, 1, b"\xC1").code, Code::DONE);
//! file.write_all(&hub.table_bytes())?;
//! file.write_all(hub.record_bytes())?;
//! # drop(hub);
//! # let mut file = &file[..];
//!
//! // The program ends here, and begins anew.
//! let (mut table, mut records) = ([0; TABLE], [0; RECORDS]);
//! file.read_exact(&mut table)?;
//! file.read_exact(&mut records)?;
//! let mut hub = Hub::from_memory(&table, &records);
//! assert_eq!(hub.open_jobs(), 1);
//! assert_eq!(hub.submit(&widths, 3, 7, 1, b"\xC1").code, Code::ALREADY_TAKEN);
//! assert_eq!(hub.submit(&widths, 3, 7, 2, b"\xC2").code, Code::DONE);
//! # Ok(())
//! # }
//! ```
//!
//! # A damaged job
//!
//! Where somebody else has written to the memory, an entry may hold numbers that no job
//! has. Its requests are answered 12, and the other jobs go on. Put back what was kept,
//! or give up the job by its mark ([`Hub::entry_mut`] says what that means). A mark that
//! the host writes itself isn't counted: [`Hub::recount`] does that.
//!
//! ```
//! # use halviruso::{Code, Descriptor, Hub, Point, WIDTHS};
//! # let sheet = Descriptor { size: Point { i: 12_240, b: 15_840 }, ..Descriptor::default() };
//! # let widths = [144; WIDTHS];
//! # let mut hub = Hub::new();
//! # assert_eq!(hub.open(3, 7, sheet).code, Code::DONE);
//! # hub.entry_mut(3).unwrap().state.font = 4;
//! if hub.submit(&widths, 3, 7, 1, b"\xC1").code == Code::DAMAGED {
//!     hub.entry_mut(3).unwrap().mark = 0;
//!     assert_eq!(hub.recount(), 0);
//! }
//! // The key stays: the next one is above it.
//! assert_eq!(hub.open(3, 7, sheet).code, Code::OLD_KEY);
//! assert_eq!(hub.open(3, 8, sheet).code, Code::DONE);
//! ```

#![deny(missing_docs)]
#![deny(unsafe_code)]

mod answer;
mod bytes;
mod direct;
#[allow(unsafe_code)]
mod ffi;
mod hub;
mod records;
mod shapes;

pub use answer::{Answer, Code};
pub use direct::{check, check_at, first_state, interpret};
pub use hub::Hub;
pub use records::{Record, Records};
pub use shapes::{Descriptor, Entry, Interpreted, Point, State};

/// Entries of the table.
pub const SLOTS: usize = 16;
/// Bytes of the table: 16 entries of 28 numbers.
pub const TABLE: usize = SLOTS * 112;
/// Bytes of one job's record area.
pub const AREA: usize = 4_096;
/// Bytes of the record buffer; slot s owns the 4,096 from 4,096 times s.
pub const RECORDS: usize = SLOTS * AREA;
/// Numbers of the width table; font f's code point c stands at 256 times f plus c.
pub const WIDTHS: usize = 1_024;
/// Bytes of the longest part.
pub const PART: usize = 8_192;
/// What a position of a [`State`] is kept plus, so that it is never negative.
pub const ORIGIN: u32 = 32_768;
/// The variable space of a [`State`] that has none.
pub const ABSENT: u32 = 65_535;
