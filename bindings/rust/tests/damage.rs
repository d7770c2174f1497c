//! A job that somebody has written to: found, given up, put back.

use halviruso::{Code, Descriptor, Entry, Hub, Point, WIDTHS};

static TENTH: [u16; WIDTHS] = [144; WIDTHS];

fn sheet() -> Descriptor {
    Descriptor { size: Point { i: 12_240, b: 15_840 }, ..Descriptor::default() }
}

/// Job 7 in slot 3 and job 1 in slot 4, with a part each.
fn two_jobs() -> Hub {
    let mut hub = Hub::new();
    for (slot, key) in [(3, 7), (4, 1)] {
        assert_eq!(hub.open(slot, key, sheet()).code, Code::DONE);
        assert_eq!(hub.submit(&TENTH, slot, key, 1, b"\xC1\xC2").code, Code::DONE);
    }
    hub
}

/// What can be wrong with an open entry: one number of each kind.
const DAMAGE: [fn(&mut Entry); 6] = [
    |entry| entry.mark = 2,
    |entry| entry.descriptor.size.i = 0,
    |entry| entry.state.at.i = 65_536,
    |entry| entry.state.used = 4_097,
    |entry| entry.next = 0,
    |entry| entry.next = u32::MAX,
];

/// The codes of an open, of the two parts that could be next, and of a close.
fn codes(hub: &mut Hub) -> [Code; 4] {
    let open = hub.open(3, 7, sheet()).code;
    let parts = [1, 2].map(|number| hub.submit(&TENTH, 3, 7, number, b"").code);
    [open, parts[0], parts[1], hub.close(3, 7).code]
}

#[test]
fn a_damaged_job_is_given_up() {
    for damage in DAMAGE {
        let mut hub = two_jobs();
        damage(hub.entry_mut(3).unwrap());
        assert_eq!(codes(&mut hub), [Code::DAMAGED; 4]);
        assert_eq!(hub.open(3, 8, sheet()).code, Code::DAMAGED);
        assert_eq!((hub.open_jobs(), hub.count()), (2, 2));
        hub.entry_mut(3).unwrap().mark = 0;
        assert_eq!((hub.open_jobs(), hub.recount()), (2, 1));
        let gone = [Code::OLD_KEY, Code::NO_JOB, Code::NO_JOB, Code::ALREADY_TAKEN];
        assert_eq!((codes(&mut hub), hub.count()), (gone, 1));
        assert_eq!((hub.open(3, 8, sheet()).code, hub.open_jobs()), (Code::DONE, 2));
        assert_eq!(hub.submit(&TENTH, 3, 8, 1, b"\xC3").code, Code::DONE);
        assert_eq!((hub.records(3).count(), hub.table()[3].state.used), (1, 17));
    }
}

#[test]
fn other_jobs_go_on() {
    let mut hub = two_jobs();
    hub.entry_mut(3).unwrap().mark = 2;
    assert_eq!(hub.submit(&TENTH, 4, 1, 2, b"\xC3").code, Code::DONE);
    hub.entry_mut(3).unwrap().mark = 0;
    assert_eq!(hub.submit(&TENTH, 4, 1, 2, b"\xC3").code, Code::ALREADY_TAKEN);
    assert_eq!((hub.records(4).count(), hub.close(4, 1).code), (2, Code::DONE));
}

#[test]
fn a_key_in_doubt_is_set_to_the_greatest_there_was() {
    let mut hub = two_jobs();
    let entry = hub.entry_mut(3).unwrap();
    (entry.key, entry.mark) = (u32::MAX, 0);
    assert_eq!(hub.open(3, 8, sheet()).code, Code::OLD_KEY);
    hub.entry_mut(3).unwrap().key = 7;
    assert_eq!(hub.open(3, 7, sheet()).code, Code::OLD_KEY);
    assert_eq!(hub.open(3, 8, sheet()).code, Code::DONE);
}

#[test]
fn one_job_is_put_back_from_memory_that_was_kept() {
    let mut hub = two_jobs();
    let kept = hub.clone();
    assert_eq!(hub.submit(&TENTH, 4, 1, 2, b"\xC3").code, Code::DONE);
    hub.entry_mut(3).unwrap().state.used = 4_097;
    hub.area_mut(3).unwrap().fill(0xFF);
    assert_eq!(hub.records(3).count(), 0);
    *hub.entry_mut(3).unwrap() = kept.table()[3];
    *hub.area_mut(3).unwrap() = *kept.area(3).unwrap();
    assert_eq!(hub.submit(&TENTH, 3, 7, 1, b"\xC1\xC2").code, Code::ALREADY_TAKEN);
    assert!(hub.records(3).eq(kept.records(3)) && hub.records(3).count() == 1);
    assert_eq!(hub.submit(&TENTH, 3, 7, 2, b"\xC3").code, Code::DONE);
    // The other job is where it was, not where it was when the memory was kept.
    assert_eq!((hub.table()[4].next, kept.table()[4].next), (3, 2));
}

#[test]
fn part_0_finds_damage_and_changes_nothing() {
    let mut hub = two_jobs();
    hub.entry_mut(4).unwrap().state.font = 4;
    let (table, records) = (*hub.table(), *hub.record_bytes());
    let found = [3, 4, 5].map(|slot| {
        let key = hub.table()[slot as usize].key;
        hub.submit(&TENTH, slot, key, 0, b"").code
    });
    assert_eq!(found, [Code::BAD_NUMBER, Code::DAMAGED, Code::NO_JOB]);
    assert!(*hub.table() == table && *hub.record_bytes() == records);
}
