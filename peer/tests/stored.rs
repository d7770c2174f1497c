//! The stored number of open jobs: what open and close take, and what each of them leaves.

mod common;

use common::{answer, Desk, DESCRIPTOR};
use peer::hub;
use peer::{Answer, Descriptor, Entry};

const BAD: Descriptor = Descriptor { font: 4, ..DESCRIPTOR };

/// Above 16; most of them would be taken if they were cut, or had a sign.
const ABOVE: [u32; 14] = [
    17,
    18,
    31,
    32,
    255,
    256,
    257,
    65_535,
    65_536,
    65_551,
    0x7FFF_FFFF,
    0x8000_0001,
    u32::MAX - 1,
    u32::MAX,
];

fn only(code: u32) -> Answer {
    answer(code, 0, 0)
}

/// Slot 0 never used, slot 1 open under 5, slot 2 closed after 5, slot 3 damaged; 2 is right.
fn desk() -> Desk {
    let mut desk = Desk::new();
    for slot in [1, 2, 3] {
        assert_eq!(desk.open(slot, 5, &DESCRIPTOR), only(0));
    }
    assert_eq!(desk.close(2, 5), only(0));
    desk.table[3].next = 0;
    assert_eq!((desk.stored, hub::count(&desk.table)), (2, 2));
    desk
}

/// Asks beside a stored number, and holds that a refusal leaves it and the table.
fn asked(stored: u32, ask: impl Fn(&mut Desk) -> Answer) -> (u32, u32) {
    let mut desk = desk();
    desk.stored = stored;
    let before = desk.table.clone();
    let Answer { code, first, second } = ask(&mut desk);
    assert_eq!((first, second), (0, 0));
    assert!(code == 0 || (desk.stored, &desk.table) == (stored, &before), "{code} beside {stored}");
    (code, desk.stored)
}

#[test]
fn open_takes_0_to_15_and_leaves_one_more() {
    for stored in 0..16 {
        assert_eq!(asked(stored, |desk| desk.open(0, 1, &DESCRIPTOR)), (0, stored + 1));
        assert_eq!(asked(stored, |desk| desk.open(2, 6, &DESCRIPTOR)), (0, stored + 1));
    }
    for stored in [&[16], &ABOVE[..]].concat() {
        assert_eq!(asked(stored, |desk| desk.open(0, 1, &DESCRIPTOR)), (32, stored));
        assert_eq!(asked(stored, |desk| desk.open(2, u32::MAX, &DESCRIPTOR)), (32, stored));
    }
}

#[test]
fn close_takes_1_to_16_and_leaves_one_less() {
    for stored in 1..17 {
        assert_eq!(asked(stored, |desk| desk.close(1, 5)), (0, stored - 1));
    }
    for stored in [&[0], &ABOVE[..]].concat() {
        assert_eq!(asked(stored, |desk| desk.close(1, 5)), (32, stored));
    }
}

#[test]
fn open_sees_the_number_last() {
    for stored in [&[0, 2, 15, 16], &ABOVE[..]].concat() {
        let refused = |code: u32, slot: u32, key: u32, d: &Descriptor| {
            assert_eq!(asked(stored, |desk| desk.open(slot, key, d)), (code, stored));
        };
        for length in [0, 15] {
            let ask = |desk: &mut Desk| {
                hub::open(&mut desk.table[..length], &mut desk.stored, 16, 5, &BAD)
            };
            assert_eq!(asked(stored, ask), (10, stored));
        }
        refused(11, 16, 5, &BAD);
        refused(12, 3, 5, &BAD);
        refused(1, 1, 5, &BAD);
        refused(13, 1, 6, &BAD);
        refused(14, 2, 5, &BAD);
        refused(14, 0, 0, &BAD);
        refused(15, 2, 6, &BAD);
        let last = if stored < 16 { (0, stored + 1) } else { (32, stored) };
        assert_eq!(asked(stored, |desk| desk.open(2, 6, &DESCRIPTOR)), last);
    }
}

#[test]
fn close_sees_the_number_last() {
    for stored in [&[0, 1, 2, 16], &ABOVE[..]].concat() {
        let refused = |code: u32, slot: u32, key: u32| {
            assert_eq!(asked(stored, |desk| desk.close(slot, key)), (code, stored));
        };
        for length in [0, 15] {
            let ask =
                |desk: &mut Desk| hub::close(&mut desk.table[..length], &mut desk.stored, 16, 5);
            assert_eq!(asked(stored, ask), (10, stored));
        }
        refused(11, 16, 5);
        refused(12, 3, 5);
        refused(16, 1, 4);
        refused(16, 1, 6);
        refused(1, 2, 5);
        refused(16, 2, 6);
        refused(16, 0, 0);
        refused(16, 0, 1);
        let last = if (1..17).contains(&stored) { (0, stored - 1) } else { (32, stored) };
        assert_eq!(asked(stored, |desk| desk.close(1, 5)), last);
    }
}

#[test]
fn an_open_job_of_key_0_is_closed_by_the_number_too() {
    let mut desk = desk();
    desk.table[0] = Entry::opened(0, &DESCRIPTOR);
    for (stored, code, left) in [(0, 32, 0), (17, 32, 17), (3, 0, 2), (0, 16, 0)] {
        desk.stored = stored;
        assert_eq!((desk.close(0, 0), desk.stored), (only(code), left));
    }
}

#[test]
fn a_wrong_number_is_counted_on_and_not_mended() {
    assert_eq!(asked(9, |desk| desk.open(0, 1, &DESCRIPTOR)), (0, 10));
    assert_eq!(asked(9, |desk| desk.close(1, 5)), (0, 8));
    // Damaged jobs are counted by a walk; nobody walks here.
    assert_eq!(asked(1, |desk| desk.close(1, 5)), (0, 0));
}

#[test]
fn from_a_fresh_start_it_is_the_walked_count() {
    let mut desk = Desk::new();
    for key in [1, 2] {
        for slot in 0..16 {
            assert_eq!(desk.open(slot, key, &DESCRIPTOR), only(0));
            assert_eq!((desk.stored, hub::count(&desk.table)), (slot + 1, slot + 1));
        }
        assert_eq!(desk.open(0, 3, &DESCRIPTOR), only(13));
        for slot in 0..16 {
            assert_eq!(desk.close(slot, key), only(0));
            assert_eq!((desk.stored, hub::count(&desk.table)), (15 - slot, 15 - slot));
        }
        assert_eq!(desk.close(0, key), only(1));
    }
}

/// Sixteen opens, and as many closes of those that are open.
#[test]
fn no_number_passes_its_ends() {
    for start in [&[0, 1, 7, 15, 16], &ABOVE[..]].concat() {
        let mut desk = Desk::new();
        desk.stored = start;
        let opened = (0..16).filter(|&slot| desk.open(slot, 1, &DESCRIPTOR) == only(0)).count();
        assert_eq!(opened as u32, 16_u32.saturating_sub(start), "{start}");
        assert_eq!(desk.stored, start.max(16));
        desk = Desk { table: vec![Entry::opened(1, &DESCRIPTOR); 16], stored: start, ..desk };
        let closed = (0..16).filter(|&slot| desk.close(slot, 1) == only(0)).count();
        assert_eq!(closed as u32, if start > 16 { 0 } else { start }, "{start}");
        assert_eq!(desk.stored, if start > 16 { start } else { 0 });
    }
}
