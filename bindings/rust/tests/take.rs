//! Records that were read leave the area: what a take answers, what it moves, and what it leaves alone.

use halviruso::{
    first_state, interpret, Code, Descriptor, Hub, Point, Records, State, AREA, WIDTHS,
};

/// Every character is one unit wide, so that long parts stay on the sheet.
static NARROW: [u16; WIDTHS] = [1; WIDTHS];

const SLOT: u32 = 3;
const KEY: u32 = 7;

fn sheet() -> Descriptor {
    Descriptor { size: Point { i: 12_240, b: 15_840 }, rule: 14, ..Descriptor::default() }
}

/// Job 7 in slot 3, between two others with a part each, on record bytes that are all marked.
fn opened() -> Hub {
    let mut hub = Hub::from_memory(&Hub::new().table_bytes(), &[0xA5; 65_536]);
    for slot in [SLOT - 1, SLOT, SLOT + 1] {
        assert_eq!(hub.open(slot, KEY, sheet()).code, Code::DONE);
    }
    for slot in [SLOT - 1, SLOT + 1] {
        assert_eq!(hub.submit(&NARROW, slot, KEY, 1, b"\xC1\xC2\xC3").code, Code::DONE);
    }
    hub
}

/// A job of three records, which end at these bytes: text, a rule, text.
fn three_records() -> Hub {
    let mut hub = opened();
    let part = b"\xC1\xC2\x2B\xD3\x04\xE4\x05\xA0\xC3";
    assert_eq!(hub.submit(&NARROW, SLOT, KEY, 1, part).second, ENDS[2]);
    hub
}

const ENDS: [u32; 3] = [18, 34, 51];

fn assert_same(hub: &Hub, other: &Hub) {
    assert_eq!((hub.table(), hub.open_jobs()), (other.table(), other.open_jobs()));
    assert!(hub.record_bytes() == other.record_bytes(), "the record bytes differ");
}

/// The bytes in use.
fn in_use(hub: &Hub) -> &[u8] {
    hub.records(SLOT).rest()
}

fn taken(hub: &Hub) -> u64 {
    u64::from(hub.table()[SLOT as usize].taken)
}

/// What a take of so many bytes leaves of this hub.
fn after(hub: &Hub, bytes: usize) -> Hub {
    let mut after = hub.clone();
    let used = in_use(hub).len();
    after.area_mut(SLOT).unwrap().copy_within(bytes..used, 0);
    let entry = after.entry_mut(SLOT).unwrap();
    entry.state.used -= bytes as u32;
    entry.taken += bytes as u32;
    after
}

/// All that a hub holds is held to this: the moved bytes, the two numbers, and nothing else.
#[test]
fn every_total_is_answered_by_the_records_ends() {
    let full = three_records();
    for total in 0..200 {
        let (mut hub, bytes) = (full.clone(), total as u32);
        let answer = hub.take(SLOT, KEY, total);
        assert_eq!((answer.first, answer.second), (0, 0));
        let (code, left) = match total {
            0 => (Code::ALREADY_TAKEN, full.clone()),
            _ if ENDS.contains(&bytes) => (Code::DONE, after(&full, bytes as usize)),
            _ => (Code::BAD_TOTAL, full.clone()),
        };
        assert_eq!(answer.code, code, "a total of {total}");
        assert_same(&hub, &left);
    }
}

#[test]
fn the_unread_records_move_down_and_the_bytes_past_them_stay() {
    let mut hub = three_records();
    let before = *hub.area(SLOT).unwrap();
    assert_eq!(hub.take(SLOT, KEY, 18).code, Code::DONE);
    let area = hub.area(SLOT).unwrap();
    assert_eq!(area[..33], before[18..51]);
    assert_eq!(area[33..], before[33..]);
    // The two that are left, and then a take of all: no byte moves.
    assert_eq!(hub.records(SLOT).count(), 2);
    let before = *hub.area(SLOT).unwrap();
    assert_eq!(hub.take(SLOT, KEY, 51).code, Code::DONE);
    assert_eq!((hub.records(SLOT).count(), hub.area(SLOT)), (0, Some(&before)));
}

#[test]
fn a_take_sent_again_is_answered_1() {
    let mut hub = three_records();
    for end in ENDS {
        assert_eq!(hub.take(SLOT, KEY, end.into()).code, Code::DONE);
        let before = hub.clone();
        for late in 0..=u64::from(end) {
            assert_eq!(hub.take(SLOT, KEY, late).to_string(), "1, already taken; 0, 0");
        }
        assert_same(&hub, &before);
    }
    assert_eq!(hub.take(SLOT, KEY, 52).to_string(), "30, bad total; 0, 0");
}

/// A total of 64 bits isn't cut to 32.
#[test]
fn totals_above_32_bits_are_30() {
    let mut hub = three_records();
    let before = hub.clone();
    for high in [1, 2, 1 << 31, u64::from(u32::MAX)] {
        for low in [0, 18, 34, 51, u64::from(u32::MAX)] {
            assert_eq!(hub.take(SLOT, KEY, (high << 32) + low).code, Code::BAD_TOTAL);
        }
    }
    assert_eq!(hub.take(SLOT, KEY, u32::MAX.into()).code, Code::BAD_TOTAL);
    assert_same(&hub, &before);
}

#[test]
fn the_greatest_total_is_the_greatest_number() {
    let (mut hub, greatest) = (three_records(), u64::from(u32::MAX));
    hub.entry_mut(SLOT).unwrap().taken = u32::MAX - 34;
    assert_eq!(hub.take(SLOT, KEY, greatest + 17).code, Code::BAD_TOTAL);
    assert_eq!(hub.take(SLOT, KEY, greatest).code, Code::DONE);
    assert_eq!((taken(&hub), in_use(&hub).len()), (greatest, 17));
    // No number is out of range: the job goes on, and takes no more.
    assert_eq!(hub.take(SLOT, KEY, greatest).code, Code::ALREADY_TAKEN);
    assert_eq!(hub.take(SLOT, KEY, greatest + 17).code, Code::BAD_TOTAL);
    assert_eq!(hub.submit(&NARROW, SLOT, KEY, 2, b"\xC1").code, Code::DONE);
    assert_eq!(hub.close(SLOT, KEY).code, Code::DONE);
}

#[test]
fn other_refusals_come_first() {
    let mut hub = three_records();
    hub.entry_mut(SLOT + 1).unwrap().next = 0;
    let before = hub.clone();
    for total in [0, 1, 18, 51, u64::MAX] {
        assert_eq!(hub.take(16, KEY, total).code, Code::NO_SLOT);
        assert_eq!(hub.take(u32::MAX, KEY, total).code, Code::NO_SLOT);
        assert_eq!(hub.take(SLOT + 1, KEY, total).code, Code::DAMAGED);
        assert_eq!(hub.take(SLOT, KEY + 1, total).code, Code::NO_JOB);
        assert_eq!(hub.take(0, 0, total).code, Code::NO_JOB);
    }
    assert_same(&hub, &before);
}

#[test]
fn a_closed_job_keeps_what_was_not_taken() {
    let mut hub = three_records();
    assert_eq!(hub.take(SLOT, KEY, 18).code, Code::DONE);
    assert_eq!(hub.close(SLOT, KEY).code, Code::DONE);
    let before = hub.clone();
    for total in [0, 18, 34, 51, 52] {
        assert_eq!(hub.take(SLOT, KEY, total).code, Code::NO_JOB);
    }
    assert_same(&hub, &before);
    assert_eq!((taken(&hub), hub.records(SLOT).count()), (18, 2));
    // The slot's next job begins at 0.
    assert_eq!(hub.open(SLOT, KEY + 1, sheet()).code, Code::DONE);
    assert_eq!((taken(&hub), hub.take(SLOT, KEY, 34).code), (0, Code::NO_JOB));
}

/// The totals up to 60 that are taken.
fn ends_met(hub: &Hub) -> Vec<u64> {
    (1..60).filter(|&total| hub.clone().take(SLOT, KEY, total).code == Code::DONE).collect()
}

/// Records are stepped over by their lengths: one under 16, or past the bytes in use, ends the steps. Kinds aren't looked at.
#[test]
fn lengths_decide_where_records_end() {
    let cases: [(usize, u8, &[u64]); 8] = [
        (18, 0, &[18]),
        (18, 15, &[18]),
        (18, 16, &[18, 34, 51]),
        (18, 17, &[18, 35]),
        (18, 33, &[18, 51]),
        (18, 34, &[18]),
        (19, 1, &[18]),
        (20, 9, &[18, 34, 51]),
    ];
    for (at, byte, ends) in cases {
        let mut hub = three_records();
        hub.area_mut(SLOT).unwrap()[at] = byte;
        assert_eq!(ends_met(&hub), ends, "{byte} at {at}");
    }
}

#[test]
fn no_end_lies_past_the_bytes_in_use() {
    for used in 0..=ENDS[2] {
        let mut hub = three_records();
        hub.entry_mut(SLOT).unwrap().state.used = used;
        let within: Vec<u64> =
            ENDS.map(u64::from).into_iter().filter(|&end| end <= used.into()).collect();
        assert_eq!(ends_met(&hub), within, "{used} bytes used");
    }
}

#[test]
fn a_part_that_found_no_room_is_sent_again() {
    let mut hub = opened();
    let part = [0xC1; 1_000];
    for number in 1..=4 {
        assert_eq!(hub.submit(&NARROW, SLOT, KEY, number, &part).code, Code::DONE);
    }
    assert_eq!(hub.submit(&NARROW, SLOT, KEY, 5, &part).code, Code::NO_ROOM);
    assert_eq!(hub.take(SLOT, KEY, 1_016).code, Code::DONE);
    assert_eq!(hub.submit(&NARROW, SLOT, KEY, 5, &part).code, Code::DONE);
    assert_eq!(hub.submit(&NARROW, SLOT, KEY, 6, &part).code, Code::NO_ROOM);
    assert_eq!((taken(&hub), in_use(&hub).len()), (1_016, 4 * 1_016));
}

/// The area to its last byte, in one record and then in many.
#[test]
fn a_full_area_is_taken_whole() {
    let mut hub = opened();
    assert_eq!(hub.submit(&NARROW, SLOT, KEY, 1, &[0xC1; AREA - 16]).code, Code::DONE);
    assert_eq!(hub.take(SLOT, KEY, AREA as u64 - 1).code, Code::BAD_TOTAL);
    assert_eq!(hub.take(SLOT, KEY, AREA as u64).code, Code::DONE);
    let rules = b"\x2B\xD3\x04\xE4\x00\x01".repeat(AREA / 16);
    assert_eq!(hub.submit(&NARROW, SLOT, KEY, 2, &rules).second, AREA as u32);
    for end in (1..=AREA as u64).filter(|end| end % 16 == 0) {
        assert_eq!(hub.take(SLOT, KEY, AREA as u64 + end).code, Code::DONE);
    }
    assert_eq!((taken(&hub), in_use(&hub).len()), (2 * AREA as u64, 0));
}

/// Parts with text and rules, in chains and out of them, of many lengths.
fn parts() -> Vec<Vec<u8>> {
    let text = |length: usize| vec![0xC1 + (length % 9) as u8; length];
    (0..60_usize)
        .map(|at| match at % 4 {
            0 => [b"\x2B\xD3\x04\xC7\x00\x64", &b"\x04\xE4\x00\x09"[..], &text(at)].concat(),
            1 => [b"\x2B\xD3\x04\xD3\x00".to_vec(), vec![at as u8]].concat(),
            2 => [b"\x03\xDA\xC5".to_vec(), text(15 * at)].concat(),
            _ => [b"\x2B\xD3\x04\xC6\x00\x00".to_vec(), text(8 * at)].concat(),
        })
        .collect()
}

/// The records of all parts, each placed in an area of its own, and the state after the last.
fn placed(parts: &[Vec<u8>]) -> (Vec<u8>, State) {
    let (mut all, mut state) = (Vec::new(), first_state(sheet()).unwrap());
    for part in parts {
        let mut area = [0; AREA];
        let done = interpret(part, &NARROW, &mut area, sheet(), State { used: 0, ..state });
        assert_eq!(done.answer.code, Code::DONE);
        all.extend(&area[..done.state.used as usize]);
        state = done.state;
    }
    (all, state)
}

/// Reads so many records, or all, and takes them: their bytes go to the page.
fn print(hub: &mut Hub, most: usize, page: &mut Vec<u8>) {
    let mut records = hub.records(SLOT);
    let unread = records.rest();
    records.by_ref().take(most).for_each(drop);
    let read = unread[..unread.len() - records.rest().len()].to_vec();
    let total = taken(hub) + read.len() as u64;
    let done = hub.take(SLOT, KEY, total).code;
    assert_eq!(done, if read.is_empty() { Code::ALREADY_TAKEN } else { Code::DONE });
    page.extend(read);
}

/// Whenever the printer takes, and however much: what it has and what stands there is the same job.
#[test]
fn a_drained_job_is_the_undrained_one() {
    let parts = parts();
    let (all, end) = placed(&parts);
    assert!(all.len() > 2 * AREA, "{} record bytes", all.len());
    for (most, every) in [(1, 7), (2, 4), (5, 40), (usize::MAX, 40)] {
        let (mut hub, mut page, mut refused) = (opened(), Vec::new(), 0);
        for (number, part) in (1..).zip(&parts) {
            while hub.submit(&NARROW, SLOT, KEY, number, part).code == Code::NO_ROOM {
                print(&mut hub, most, &mut page);
                refused += 1;
            }
            if number % every == 0 {
                print(&mut hub, most, &mut page);
            }
            hub = restarted(hub, number);
            assert_eq!(hub.submit(&NARROW, SLOT, KEY, number, part).code, Code::ALREADY_TAKEN);
            assert_eq!(taken(&hub), page.len() as u64);
            assert_eq!([&page[..], in_use(&hub)].concat(), all[..page.len() + in_use(&hub).len()]);
        }
        assert!(refused > 0 && [&page[..], in_use(&hub)].concat() == all, "{refused} refused");
        let entry = hub.table()[SLOT as usize];
        assert_eq!((State { used: end.used, ..entry.state }, entry.next), (end, 61));
        assert_eq!(
            Records::new(&all).count(),
            Records::new(&page).count() + hub.records(SLOT).count()
        );
    }
}

/// The hub as it is, or its clone, or one that is made of its bytes.
fn restarted(hub: Hub, number: u32) -> Hub {
    match number % 3 {
        0 => hub,
        1 => hub.clone(),
        _ => Hub::from_memory(&hub.table_bytes(), hub.record_bytes()),
    }
}
