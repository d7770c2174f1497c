//! Taking records that were read: which totals are taken, and what is left of the area.

mod common;

use common::{answer, hex, Desk, DESCRIPTOR};
use peer::hub::{self, Lent};
use peer::model::AREA;
use peer::{Answer, Descriptor, Entry};

const GREATEST: u64 = 4_294_967_295;

fn only(code: u32) -> Answer {
    answer(code, 0, 0)
}

/// Three records in slot 0: a text of 18 bytes, a rule of 16, a text of 17; then X'AB' to the end.
fn desk() -> Desk {
    let mut desk = Desk::job(&DESCRIPTOR);
    desk.records.fill(0xAB);
    assert_eq!(desk.part("C1C2 2BD304E40005 C3"), answer(0, 3, 51));
    desk
}

fn used(desk: &Desk) -> (u32, u32) {
    (desk.table[0].state.used, desk.table[0].taken)
}

/// Asks for a total, and holds that every answer but 0 leaves all that is lent.
fn asked(desk: &mut Desk, slot: u32, key: u32, total: u64) -> u32 {
    let before = (desk.table.clone(), desk.records.clone());
    let Answer { code, first, second } = desk.take(slot, key, total);
    assert_eq!((first, second), (0, 0));
    let untouched = desk.table == before.0 && desk.records == before.1;
    assert!(code == 0 || untouched, "{code} at {total}");
    code
}

/// Asks slot 0 from these bytes used and taken on.
fn tried(desk: &mut Desk, (used, taken): (u32, u32), total: u64) -> u32 {
    desk.table[0].state.used = used;
    desk.table[0].taken = taken;
    asked(desk, 0, 1, total)
}

#[test]
fn only_ends_of_records_are_taken() {
    for total in 0..70 {
        let mut desk = desk();
        let old = desk.records.clone();
        let code = asked(&mut desk, 0, 1, total);
        let expected = match total {
            0 => 1,
            18 | 34 | 51 => 0,
            _ => 30,
        };
        assert_eq!(code, expected, "{total}");
        if code == 0 {
            let (read, left) = (total as usize, 51 - total as usize);
            assert_eq!(used(&desk), (left as u32, total as u32));
            assert_eq!(desk.records[..left], old[read..51]);
            assert!(desk.records[left..] == old[left..], "bytes past the new end");
        }
    }
}

#[test]
fn of_the_entry_only_two_numbers_change() {
    let mut desk = desk();
    let before = desk.table.clone();
    assert_eq!(desk.take(0, 1, 34), only(0));
    let mut entry = Entry { taken: 34, ..before[0] };
    entry.state.used = 17;
    assert_eq!(desk.table[0], entry);
    assert_eq!(desk.table[1..], before[1..]);
}

#[test]
fn take_in_order() {
    let mut desk = desk();
    desk.table[2] = Entry { next: 0, ..desk.table[0] };
    desk.open(3, 7, &DESCRIPTOR);
    desk.close(3, 7);
    desk.table[4] = Entry { mark: 0, next: 0, ..desk.table[0] };
    for total in [0, 18, 19, 52, GREATEST, GREATEST + 1, GREATEST + 19, u64::MAX] {
        for slot in [16, 17, 256, u32::MAX] {
            assert_eq!(asked(&mut desk, slot, 1, total), 11);
        }
        assert_eq!(asked(&mut desk, 2, 1, total), 12);
        assert_eq!(asked(&mut desk, 2, 9, total), 12);
        assert_eq!(asked(&mut desk, 0, 2, total), 16);
        assert_eq!(asked(&mut desk, 1, 0, total), 16);
        assert_eq!(asked(&mut desk, 3, 7, total), 16);
        assert_eq!(asked(&mut desk, 4, 1, total), 16);
    }
    assert_eq!(asked(&mut desk, 0, 1, 34), 0);
    for (total, code) in [(0, 1), (18, 1), (33, 1), (34, 1), (35, 30), (51, 0), (51, 1), (52, 30)] {
        assert_eq!(asked(&mut desk, 0, 1, total), code, "{total}");
    }
}

#[test]
fn take_is_lent_a_table_and_a_record_buffer() {
    for (entries, bytes) in
        [(15, 65_536), (16, 65_535), (17, 65_536), (16, 65_537), (0, 0), (16, 4_096), (0, 65_536)]
    {
        let (mut table, mut records) = (vec![Entry::FRESH; entries], vec![0; bytes]);
        let lent = Lent { table: &mut table, records: &mut records, widths: &[] };
        assert_eq!(hub::take(lent, 16, 9, u64::MAX), only(10));
    }
    // The widths are nothing to it.
    let mut desk = desk();
    desk.widths = Vec::new();
    assert_eq!(desk.take(0, 1, 18), only(0));
}

#[test]
fn a_total_is_64_bits_and_what_is_kept_32() {
    let mut desk = desk();
    for total in [18, 34, 51].map(|end| end + GREATEST + 1) {
        assert_eq!(asked(&mut desk, 0, 1, total), 30);
    }
    for total in [GREATEST, GREATEST + 1, 1 << 63, u64::MAX - 17, u64::MAX] {
        assert_eq!(asked(&mut desk, 0, 1, total), 30);
    }
    let near = u32::MAX - 34;
    assert_eq!(tried(&mut desk, (51, near), GREATEST + 17), 30);
    assert_eq!(tried(&mut desk, (51, near), GREATEST - 16), 0);
    assert_eq!(used(&desk), (33, u32::MAX - 16));
    assert_eq!(asked(&mut desk, 0, 1, GREATEST), 0);
    assert_eq!(used(&desk), (17, u32::MAX));
    for total in [0, 1, GREATEST - 1, GREATEST] {
        assert_eq!(asked(&mut desk, 0, 1, total), 1);
    }
    for total in [GREATEST + 1, GREATEST + 17, u64::MAX] {
        assert_eq!(asked(&mut desk, 0, 1, total), 30);
    }
}

#[test]
fn steps_go_over_lengths_whatever_the_kinds_are() {
    // A length and a kind after the first record, and the ends that are met with 51 bytes used.
    for (length, kind, ends) in [
        (16, 2, &[18, 34, 51][..]),
        (16, 1, &[18, 34, 51]),
        (33, 1, &[18, 51]),
        (17, 1, &[18, 35]),
        (15, 1, &[18]),
        (0, 1, &[18]),
        (17, 2, &[18, 35]),
        (33, 2, &[18, 51]),
        (16, 0, &[18, 34, 51]),
        (16, 3, &[18, 34, 51]),
        (16, 258, &[18, 34, 51]),
        (33, 3, &[18, 51]),
        (34, 1, &[18]),
        (65_535, 1, &[18]),
    ] {
        for total in 1..60 {
            let mut desk = desk();
            desk.records[18..20].copy_from_slice(&u16::to_le_bytes(length));
            desk.records[20..22].copy_from_slice(&u16::to_le_bytes(kind));
            let code = if ends.contains(&total) { 0 } else { 30 };
            assert_eq!(asked(&mut desk, 0, 1, total), code, "{length} {kind}, {total}");
        }
    }
}

#[test]
fn a_record_that_passes_the_bytes_used_is_not_taken() {
    for (used, total, code) in [
        (50, 34, 0),
        (50, 50, 30),
        (50, 51, 30),
        (35, 34, 0),
        (35, 35, 30),
        (33, 18, 0),
        (33, 33, 30),
        (17, 17, 30),
        (17, 18, 30),
        (0, 1, 30),
        (0, 18, 30),
        (52, 51, 0),
        (52, 52, 30),
        (4_096, 51, 0),
        (4_096, 4_096, 30),
    ] {
        assert_eq!(tried(&mut desk(), (used, 0), total), code, "{used}, {total}");
    }
}

/// Equal bytes are lengths of 257 times as much, and no kind of record.
#[test]
fn rubbish_is_stepped_over_by_its_lengths() {
    for byte in [0, 1, 2, 15, 16, 17, 255] {
        let length = u64::from(byte) * 257;
        for total in (1..600).chain([4_095, 4_096, length, 2 * length]).filter(|&total| total > 0) {
            let mut desk = desk();
            desk.records.fill(byte);
            let is_met = length > 0 && total.is_multiple_of(length) && total <= 4_096;
            let code = if is_met { 0 } else { 30 };
            assert_eq!(tried(&mut desk, (4_096, 0), total), code, "{byte}, {total}");
        }
    }
}

#[test]
fn open_sets_it_to_0_and_the_other_requests_leave_it() {
    let mut desk = desk();
    assert_eq!(desk.take(0, 1, 18), only(0));
    assert_eq!(desk.part("C1"), answer(0, 1, 17));
    assert_eq!(used(&desk), (50, 18));
    assert_eq!(desk.part("2B").code, 20);
    assert_eq!(desk.close(0, 1), only(0));
    assert_eq!(used(&desk), (50, 18));
    assert_eq!(asked(&mut desk, 0, 1, 34), 16);
    assert_eq!(desk.open(0, 2, &DESCRIPTOR), only(0));
    assert_eq!(used(&desk), (0, 0));
    assert_eq!(asked(&mut desk, 0, 1, 34), 16);
    assert_eq!(asked(&mut desk, 0, 2, 0), 1);
    assert_eq!(asked(&mut desk, 0, 2, 16), 30);
    assert_eq!(desk.submit(0, 2, 1, &hex("C1")), answer(0, 1, 17));
    assert_eq!(asked(&mut desk, 0, 2, 17), 0);
}

#[test]
fn a_fresh_entry_and_an_open_one_have_taken_nothing() {
    assert_eq!(Entry::FRESH.taken, 0);
    assert_eq!(Entry::opened(9, &DESCRIPTOR).taken, 0);
    // Any number is in range.
    for taken in [0, 1, 65_536, u32::MAX] {
        assert!(!Entry { taken, ..Entry::opened(9, &DESCRIPTOR) }.is_damaged());
    }
}

#[test]
fn what_is_taken_makes_room() {
    let mut desk = Desk::job(&Descriptor { size_i: 32_767, ..DESCRIPTOR });
    desk.widths.fill(2);
    assert_eq!(desk.part("2BD305EE0FC8C1"), answer(0, 1, 4_056));
    assert_eq!(desk.part("C2C3"), answer(0, 1, 18));
    assert_eq!(desk.part("C4C5C6C7C8C9D1"), answer(29, 0, 0));
    assert_eq!(asked(&mut desk, 0, 1, 4_056), 0);
    assert_eq!(desk.part("C4C5C6C7C8C9D1"), answer(0, 1, 23));
    assert_eq!(used(&desk), (41, 4_056));
    // Just what is left, to the last byte.
    assert_eq!(desk.part("2BD305EE0FC8C1"), answer(29, 0, 0));
    assert_eq!(desk.part("2BD305EE0FC7C1"), answer(0, 1, 4_055));
    assert_eq!(used(&desk), (4_096, 4_056));
    assert_eq!(asked(&mut desk, 0, 1, 8_153), 30);
    assert_eq!(asked(&mut desk, 0, 1, 8_152), 0);
    assert_eq!(used(&desk), (0, 8_152));
}

#[test]
fn each_slot_drains_its_own_bytes() {
    let mut desk = Desk::new();
    for slot in 0..16 {
        desk.open(slot, 1, &DESCRIPTOR);
        let part = [[0xC0 + slot as u8].as_slice(), &hex("2BD302D8"), &[slot as u8]].concat();
        assert_eq!(desk.submit(slot, 1, 1, &part), answer(0, 3, 34));
    }
    for slot in 0..16 {
        assert_eq!(desk.take(slot, 1, 17), only(0));
        for other in 0..16 {
            let area = &desk.records[AREA * other..][..AREA];
            let first = if other <= slot as usize { other } else { 0xC0 + other };
            assert_eq!((area[16], area[33]), (first as u8, other as u8));
            assert!(area[34..].iter().all(|&byte| byte == 0));
        }
    }
}
