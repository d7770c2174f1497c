//! The number of open jobs beside the table: right after every request, and made right again.

use std::array;

use halviruso::{Code, Descriptor, Hub, Point, TABLE, WIDTHS};

static TENTH: [u16; WIDTHS] = [144; WIDTHS];

fn sheet() -> Descriptor {
    Descriptor { size: Point { i: 12_240, b: 15_840 }, ..Descriptor::default() }
}

/// Job 7 in each slot.
fn full() -> Hub {
    let mut hub = Hub::new();
    for slot in 0..16 {
        assert_eq!(hub.open(slot, 7, sheet()).code, Code::DONE);
        assert_eq!(hub.open_jobs(), slot + 1);
    }
    hub
}

/// Seeded numbers without a pattern.
struct Chance(u64);

impl Chance {
    fn below(&mut self, end: u32) -> u32 {
        self.0 = self.0.wrapping_mul(6_364_136_223_846_793_005).wrapping_add(1);
        (self.0 >> 33) as u32 % end
    }

    /// Any request on any slot, with keys and numbers that often fit.
    fn request(&mut self, hub: &mut Hub) -> Code {
        let (slot, what) = (self.below(17), self.below(9));
        let last = hub.entry(slot).map_or(0, |entry| entry.key);
        let key = last.wrapping_add(self.below(3));
        let answer = match what {
            0..=2 => hub.open(slot, key, sheet()),
            3 => hub.open(slot, key, Descriptor::default()),
            4..=6 => hub.close(slot, key),
            7 => hub.submit(&TENTH, slot, key, 1 + self.below(3), b"\xC1"),
            _ => hub.take(slot, key, u64::from(17 * self.below(4))),
        };
        answer.code
    }
}

fn assert_same(hub: &Hub, other: &Hub) {
    assert_eq!((hub.table(), hub.open_jobs()), (other.table(), other.open_jobs()));
    assert!(hub.record_bytes() == other.record_bytes(), "the record bytes differ");
}

#[test]
fn it_is_the_count_after_every_request() {
    let (mut hub, mut chance) = (Hub::new(), Chance(1));
    let mut met = [0; 17];
    for _ in 0..20_000 {
        assert_ne!(chance.request(&mut hub), Code::STORED_NUMBER);
        assert_eq!(hub.open_jobs(), hub.count());
        met[hub.open_jobs() as usize] += 1;
    }
    assert!(met[1..15].iter().all(|&times| times > 0), "{met:?}");
}

#[test]
fn it_is_counted_where_memory_is_put_back() {
    let mut chance = Chance(2);
    for _ in 0..200 {
        // A quarter of these entries are closed, and the others damaged.
        let table: [u8; TABLE] = array::from_fn(|at| match at % 112 {
            4 => chance.below(4) as u8,
            5..=7 => 0,
            _ => chance.below(256) as u8,
        });
        let mut hub = Hub::from_memory(&table, &[0; 65_536]);
        assert_eq!(hub.open_jobs(), hub.count());
        for _ in 0..100 {
            assert_ne!(chance.request(&mut hub), Code::STORED_NUMBER);
            assert_eq!(hub.open_jobs(), hub.count());
        }
        assert_eq!(hub.clone().open_jobs(), hub.count());
    }
}

#[test]
fn a_number_too_great_opens_no_job() {
    let mut hub = full();
    hub.entry_mut(5).unwrap().mark = 0;
    assert_eq!((hub.open_jobs(), hub.count()), (16, 15));
    let before = hub.clone();
    assert_eq!(hub.open(5, 8, sheet()).to_string(), "32, stored number wrong; 0, 0");
    assert_same(&hub, &before);
    assert_eq!((hub.recount(), hub.open_jobs()), (15, 15));
    assert_eq!(hub.open(5, 8, sheet()).code, Code::DONE);
    assert_eq!((hub.open_jobs(), hub.count()), (16, 16));
}

#[test]
fn a_number_of_0_closes_no_job() {
    let mut hub = Hub::new();
    *hub.entry_mut(5).unwrap() = full().table()[5];
    assert_eq!((hub.open_jobs(), hub.count()), (0, 1));
    let before = hub.clone();
    assert_eq!(hub.close(5, 7).to_string(), "32, stored number wrong; 0, 0");
    assert_same(&hub, &before);
    assert_eq!((hub.recount(), hub.open_jobs()), (1, 1));
    assert_eq!(hub.close(5, 7).code, Code::DONE);
    assert_eq!((hub.open_jobs(), hub.count()), (0, 0));
}

#[test]
fn every_other_answer_comes_first() {
    let mut hub = full();
    hub.entry_mut(5).unwrap().mark = 0;
    hub.entry_mut(6).unwrap().next = 0;
    let before = hub.clone();
    assert_eq!(hub.open(16, 8, sheet()).code, Code::NO_SLOT);
    assert_eq!(hub.open(6, 8, sheet()).code, Code::DAMAGED);
    assert_eq!(hub.open(4, 7, sheet()).code, Code::ALREADY_TAKEN);
    assert_eq!(hub.open(4, 8, sheet()).code, Code::BUSY);
    assert_eq!(hub.open(5, 7, sheet()).code, Code::OLD_KEY);
    assert_eq!(hub.open(5, 8, Descriptor::default()).code, Code::BAD_DESCRIPTOR);
    assert_same(&hub, &before);
    assert_eq!(hub.submit(&TENTH, 4, 7, 1, b"\xC1").code, Code::DONE);
    assert_eq!(hub.open_jobs(), 16);
}

#[test]
fn a_recount_of_a_right_number_changes_nothing() {
    let mut hub = full();
    let before = hub.clone();
    assert_eq!(hub.recount(), 16);
    assert_same(&hub, &before);
}
