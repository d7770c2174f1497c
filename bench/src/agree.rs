//! Before anything is timed: all contenders say the same on all that is timed, and on generated parts.

use peer::generate::{self, Rng};
use peer::hub::{self, Lent};
use peer::interpret;
use peer::model::{AREA, RECORDS, SLOTS};
use peer::Entry;

use crate::contender::Contender;
use crate::takes::Taking;
use crate::workloads::Workload;

/// Generated parts compared.
const GENERATED: u64 = 20_000;

/// Compares the workloads' parts; their number, or the first difference in words.
pub fn on_workloads(contenders: &[Contender], workloads: &[Workload]) -> Result<u64, String> {
    let mut compared = 0;
    for workload in workloads {
        for case in &workload.cases {
            let expected = case.expected();
            for contender in contenders {
                let (mut area, mut state) = ([0; AREA], case.state);
                let (part, widths, d) = (&case.part, &case.widths, &case.descriptor);
                let answer = (contender.interpret)(part, widths, &mut area, d, &mut state);
                if (answer, state, area) != expected {
                    return Err(format!("{}: {} says {answer:?}", workload.name, contender.name));
                }
            }
            compared += 1;
        }
    }
    Ok(compared)
}

/// Compares generated parts.
pub fn on_generated(contenders: &[Contender]) -> Result<u64, String> {
    for seed in 0..GENERATED {
        let case = generate::case(&mut Rng::new(seed));
        let mut told = case.clone();
        let (area, d, s) = (&mut told.area, &told.descriptor, &mut told.state);
        let said = interpret(&told.part, &told.widths, area, d, s);
        for contender in contenders {
            let mut got = case.clone();
            let (area, d, s) = (&mut got.area, &got.descriptor, &mut got.state);
            let answer = (contender.interpret)(&got.part, &got.widths, area, d, s);
            if answer != said || got.state != told.state || got.area != told.area {
                let name = contender.name;
                return Err(format!("seed {seed}: {name} says {answer:?}, not {said:?}"));
            }
        }
    }
    Ok(GENERATED)
}

/// Compares takes from the areas that are timed, up to every total that there can be and some beyond.
pub fn on_takings(contenders: &[Contender], takings: &[Taking]) -> Result<u64, String> {
    let mut compared = 0;
    for taking in takings {
        for total in (0..AREA as u64 + 20).chain([1 << 32, (1 << 32) + taking.total, u64::MAX]) {
            let expected = taking.asked(hub::take, total);
            for contender in contenders {
                if taking.asked(contender.take, total) != expected {
                    let (name, who) = (taking.name, contender.name);
                    return Err(format!("{name}, a total of {total}: {who} differs"));
                }
            }
            compared += 1;
        }
    }
    Ok(compared)
}

/// Compares generated takes: any entries, areas of records and of what is none.
pub fn on_generated_takes(contenders: &[Contender]) -> Result<u64, String> {
    let (mut table, mut records) = (vec![Entry::FRESH; SLOTS], vec![0; RECORDS]);
    for seed in 0..GENERATED {
        let mut rng = Rng::new(seed);
        let (slot, key) = (rng.size(SLOTS), rng.between(1, 3));
        table[slot] = generate::entry(&mut rng, key);
        fill(&mut rng, &mut records[AREA * slot..][..AREA]);
        let total = generate::total(&mut rng, &table[slot], &records[AREA * slot..][..AREA]);
        let key = if rng.chance(1, 20) { key + 1 } else { key };
        let ask = |contender: &Contender| {
            let (mut table, mut records) = (table.clone(), records.clone());
            let lent = Lent { table: &mut table, records: &mut records, widths: &[] };
            let answer = (contender.take)(lent, slot as u32, key, total);
            (answer, table, records)
        };
        let all: Vec<_> = contenders.iter().map(ask).collect();
        if let Some(at) = all.iter().position(|said| *said != all[0]) {
            let (who, said, other) = (contenders[at].name, all[at].0, all[0].0);
            return Err(format!("take of seed {seed}: {who} says {said:?}, not {other:?}"));
        }
    }
    Ok(GENERATED)
}

/// Records from the area's start, and at times a length that ends the steps, or a kind that there isn't.
fn fill(rng: &mut Rng, area: &mut [u8]) {
    area.fill_with(|| rng.byte());
    let mut at = 0;
    while at + 16 <= area.len() {
        let most = (area.len() - at).min(400) as u32;
        let length = if rng.chance(1, 40) { rng.between(0, 70) } else { rng.between(16, most) };
        let kind = if rng.chance(1, 40) { rng.byte() } else { 1 + u8::from(length == 16) };
        area[at..at + 2].copy_from_slice(&(length as u16).to_le_bytes());
        area[at + 2..at + 4].copy_from_slice(&[kind, 0]);
        at += length.max(16) as usize;
    }
}
