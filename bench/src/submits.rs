//! Requests through the job table: open, submit, take, close.

use std::hint::black_box;

use peer::hub::Lent;
use peer::model::{AREA, RECORDS, SLOTS, WIDTHS};
use peer::replay::Backend;
use peer::Entry;

use crate::case::SHEET;
use crate::clock::Run;

/// What one run of a history asks.
pub struct History {
    pub name: &'static str,
    /// The parts of one job, in order.
    pub parts: Vec<Vec<u8>>,
    /// How often each is sent.
    pub sent: u32,
    /// Whether the printer takes all that stands there after each part.
    pub taken: bool,
}

impl History {
    /// Requests of one run: open, all submits and takes, close.
    pub fn requests(&self) -> usize {
        2 + self.parts.len() * (self.sent as usize + usize::from(self.taken))
    }
}

/// The histories that are timed.
pub fn histories(real: &[u8]) -> Vec<History> {
    let line = [&[0x2B, 0xD3, 0x02, 0xD8][..], &[0xC1; 20]].concat();
    let history = |name, parts, sent, taken| History { name, parts, sent, taken };
    vec![
        history("a job of 60 short lines", vec![line.clone(); 60], 1, false),
        history("the same, each sent twice", vec![line.clone(); 60], 2, false),
        history("the same, each sent once and taken", vec![line; 60], 1, true),
        history("a job of one real part", vec![real.to_vec()], 1, false),
        history("a job of 40 empty parts", vec![Vec::new(); 40], 1, false),
    ]
}

/// A job in each run, slot after slot, with rising keys.
pub fn asking<'a, B: Backend + 'a>(mut hub: B, history: &'a History) -> Run<'a> {
    let mut table: Vec<Entry> = hub.fresh().to_vec();
    let mut records = vec![0; RECORDS];
    let widths = [144; WIDTHS];
    let mut stored = 0;
    let mut jobs: u32 = 0;
    Box::new(move |count| {
        for _ in 0..count {
            jobs += 1;
            let (slot, key) = (jobs % SLOTS as u32, jobs);
            black_box(hub.open(&mut table, &mut stored, slot, key, &SHEET));
            for (part, number) in history.parts.iter().zip(1..) {
                for _ in 0..history.sent {
                    let lent = Lent { table: &mut table, records: &mut records, widths: &widths };
                    black_box(hub.submit(lent, slot, key, number, black_box(part)));
                }
                if history.taken {
                    let total = written(&table[slot as usize]);
                    let lent = Lent { table: &mut table, records: &mut records, widths: &widths };
                    black_box(hub.take(lent, slot, key, total));
                }
            }
            black_box(hub.close(&mut table, &mut stored, slot, key));
        }
    })
}

/// Record bytes that a job has written.
fn written(entry: &Entry) -> u64 {
    u64::from(entry.taken) + u64::from(entry.state.used)
}

/// What a history leaves: all answers, the number of open jobs during it and after it, the table, the records.
type Told = (Vec<u32>, [u32; 2], Vec<Entry>, Vec<u8>);

pub fn told<B: Backend>(mut hub: B, history: &History) -> Told {
    let (mut table, mut records, mut stored) = (hub.fresh().to_vec(), vec![0; RECORDS], 0);
    let mut codes = vec![hub.open(&mut table, &mut stored, 1, 1, &SHEET).code];
    let during = stored;
    for (part, number) in history.parts.iter().zip(1..) {
        for _ in 0..history.sent {
            let lent = Lent { table: &mut table, records: &mut records, widths: &[144; WIDTHS] };
            codes.push(hub.submit(lent, 1, 1, number, part).code);
        }
        if history.taken {
            let total = written(&table[1]);
            let lent = Lent { table: &mut table, records: &mut records, widths: &[144; WIDTHS] };
            codes.push(hub.take(lent, 1, 1, total).code);
        }
    }
    codes.push(hub.close(&mut table, &mut stored, 1, 1).code);
    records.truncate(2 * AREA);
    (codes, [during, stored], table, records)
}
