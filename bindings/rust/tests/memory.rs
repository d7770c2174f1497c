//! The hub's memory, kept as bytes and handed back.

use std::array;

use halviruso::{Code, Descriptor, Entry, Hub, Point, Record, State, AREA, TABLE, WIDTHS};

/// Every character is a tenth of an inch wide.
static TENTH: [u16; WIDTHS] = [144; WIDTHS];

/// The first part ends in a chain that the second goes on with, the second in an open suppression.
const PARTS: [&[u8]; 3] = [
    b"\xC1\x2B\xD3\x04\xC7\x02\xD0",
    b"\x04\xD2\x01\xE0\xC2\x2B\xD3\x03\xF2\x05\xC3",
    b"\xC4\x2B\xD3\x03\xF4\x05\x2B\xD3\x04\xE4\x05\xA0",
];

/// A hub with job 7 open in slot 3.
fn opened() -> Hub {
    let mut hub = Hub::new();
    let size = Point { i: 12_240, b: 15_840 };
    let answer = hub.open(3, 7, Descriptor { size, rule: 14, ..Descriptor::default() });
    assert_eq!(answer.code, Code::DONE);
    hub
}

/// Keeps the memory as bytes, drops the hub and makes it again.
fn restarted(hub: Hub) -> Hub {
    let (table, records) = (hub.table_bytes(), *hub.record_bytes());
    drop(hub);
    Hub::from_memory(&table, &records)
}

fn assert_same(hub: &Hub, other: &Hub) {
    assert_eq!((hub.table(), hub.open_jobs()), (other.table(), other.open_jobs()));
    assert!(hub.record_bytes() == other.record_bytes(), "the record bytes differ");
}

#[test]
fn a_job_goes_on_where_it_stood() {
    let (mut hub, mut unbroken) = (opened(), opened());
    for (number, part) in (1..).zip(PARTS) {
        let answer = unbroken.submit(&TENTH, 3, 7, number, part);
        hub = restarted(hub);
        assert_eq!((answer.code, hub.submit(&TENTH, 3, 7, number, part)), (Code::DONE, answer));
        hub = restarted(hub);
        assert_eq!(hub.submit(&TENTH, 3, 7, number, part).code, Code::ALREADY_TAKEN);
        assert_same(&hub, &unbroken);
    }
    assert_eq!(hub.records(3).count(), 5);
    assert_eq!(restarted(hub).close(3, 7).code, Code::DONE);
}

#[test]
fn a_chain_goes_on_over_a_restart() {
    let mut hub = opened();
    assert_eq!(hub.submit(&TENTH, 3, 7, 1, PARTS[0]).code, Code::DONE);
    hub = restarted(hub);
    assert_eq!(hub.table()[3].state.chain, 1);
    assert_eq!(hub.submit(&TENTH, 3, 7, 2, PARTS[1]).code, Code::DONE);
    let places: Vec<_> = hub.records(3).map(place).collect();
    assert_eq!(places, [(0, 0), (720, 480), (864, 480)]);
}

fn place(record: Record) -> (i16, i16) {
    match record {
        Record::Text { i, b, .. } | Record::Rule { i, b, .. } => (i, b),
    }
}

#[test]
fn bytes_lie_as_the_header_says() {
    // No two of these numbers are the same.
    let table: [u8; TABLE] =
        array::from_fn(|at| [(at / 4) as u8, 7 + (at / 1_024) as u8, 251, 252][at % 4]);
    let hub = Hub::from_memory(&table, &[0; 65_536]);
    for (entry, bytes) in hub.table().iter().zip(table.chunks(112)) {
        assert_eq!(entry, &entry_of(bytes));
    }
    assert_eq!(hub.table_bytes(), table);
}

/// An entry by the offsets of include/halviruso.h.
fn entry_of(bytes: &[u8]) -> Entry {
    let at = |offset| u32::from_le_bytes(bytes[offset..offset + 4].try_into().unwrap());
    let descriptor = Descriptor {
        size: Point { i: at(8), b: at(12) },
        initial: Point { i: at(16), b: at(20) },
        margin: at(24),
        increment: at(28),
        adjustment: at(32),
        direction: at(36),
        font: at(40),
        colour: at(44),
        rule: at(48),
        hidden: at(52),
    };
    let state = State {
        at: Point { i: at(56), b: at(60) },
        margin: at(64),
        increment: at(68),
        adjustment: at(72),
        direction: at(76),
        font: at(80),
        colour: at(84),
        space: at(88),
        suppression: at(92),
        chain: at(96),
        used: at(100),
    };
    Entry { key: at(0), mark: at(4), descriptor, state, next: at(104), taken: at(108) }
}

/// Bytes without a pattern.
fn noise<const N: usize>(mut seed: u32) -> [u8; N] {
    array::from_fn(|_| {
        seed = seed.wrapping_mul(1_664_525).wrapping_add(1_013_904_223);
        (seed >> 24) as u8
    })
}

#[test]
fn any_bytes_make_a_hub() {
    for table in [[0xFF; TABLE], [0x01; TABLE], noise(1), noise(2)] {
        let mut hub = Hub::from_memory(&table, &noise(3));
        let before = hub.clone();
        // No mark here is 0 or 1.
        assert_eq!((hub.count(), hub.open_jobs()), (16, 16));
        for slot in 0..16 {
            let Entry { key, next, .. } = before.table()[slot as usize];
            assert_eq!(hub.open(slot, key, Descriptor::default()).code, Code::DAMAGED);
            assert_eq!(hub.submit(&TENTH, slot, key, next, b"").code, Code::DAMAGED);
            assert_eq!(hub.take(slot, key, 1).code, Code::DAMAGED);
            assert_eq!(hub.close(slot, key).code, Code::DAMAGED);
            assert!(hub.records(slot).count() <= AREA / 16);
        }
        assert_same(&hub, &before);
        assert_eq!(hub.table_bytes(), table);
    }
}

#[test]
fn closed_slots_may_hold_any_numbers() {
    let mut table: [u8; TABLE] = noise(4);
    for entry in table.chunks_mut(112) {
        entry[..8].copy_from_slice(&[5, 0, 0, 0, 0, 0, 0, 0]);
    }
    let mut hub = Hub::from_memory(&table, &noise(5));
    let sheet = opened().table()[3].descriptor;
    for slot in 0..16 {
        assert_eq!(hub.open(slot, 5, sheet).code, Code::OLD_KEY);
        assert_eq!(hub.open(slot, 6, sheet).code, Code::DONE);
        assert_eq!(hub.submit(&TENTH, slot, 6, 1, b"\xC1").code, Code::DONE);
        assert_eq!(hub.records(slot).map(place).collect::<Vec<_>>(), [(0, 0)]);
    }
    assert_eq!((hub.count(), hub.open_jobs()), (16, 16));
}
