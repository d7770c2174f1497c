//! Open, submit, close and count, in the order of their refusals.

mod common;

use common::{answer, hex, Desk, DESCRIPTOR};
use peer::hub::{self, Lent};
use peer::model::{kept, AREA};
use peer::sheet::WIDTHS_144;
use peer::{interpret, Answer, Descriptor, Entry, State};

const BAD: Descriptor = Descriptor { font: 4, ..DESCRIPTOR };

fn only(code: u32) -> Answer {
    answer(code, 0, 0)
}

#[test]
fn open_in_order() {
    let mut desk = Desk::new();
    assert_eq!(hub::open(&mut desk.table[..15], &mut 0, 16, 0, &BAD), only(10));
    assert_eq!(desk.open(16, 0, &BAD), only(11));
    assert_eq!(desk.open(0, 0, &BAD), only(14));
    assert_eq!(desk.open(0, 0, &DESCRIPTOR), only(14));
    assert_eq!(desk.open(0, 5, &BAD), only(15));
    assert_eq!(desk.open(0, 5, &DESCRIPTOR), only(0));
    assert_eq!(desk.open(0, 5, &BAD), only(1));
    assert_eq!(desk.open(0, 4, &BAD), only(13));
    assert_eq!(desk.close(0, 5), only(0));
    assert_eq!(desk.open(0, 5, &BAD), only(14));
    assert_eq!(desk.open(0, u32::MAX, &DESCRIPTOR), only(0));
}

#[test]
fn open_makes_the_entry_new_and_leaves_the_bytes() {
    let descriptor = Descriptor {
        initial_i: 7,
        initial_b: 8,
        margin: 9,
        adjustment: 3,
        direction: 1,
        font: 2,
        colour: 0,
        ..DESCRIPTOR
    };
    let mut desk = Desk::job(&descriptor);
    assert_eq!(desk.part("2BD304C4000A C1C2"), answer(0, 2, 18));
    assert_eq!(desk.close(0, 1), only(0));
    assert_eq!(desk.open(0, 2, &descriptor), only(0));
    let state = State {
        i: kept(7),
        b: kept(8),
        margin: 9,
        increment: 240,
        adjustment: 3,
        direction: 1,
        font: 2,
        colour: 0,
        space: 65_535,
        suppression: 0,
        chain: 0,
        used: 0,
    };
    assert_eq!(desk.table[0], Entry { key: 2, mark: 1, descriptor, state, next: 1, taken: 0 });
    assert_eq!(desk.records[16..18], [0xC1, 0xC2]);
}

#[test]
fn submit_in_order() {
    let long = [0; 8_193];
    let mut desk = Desk::new();
    assert_eq!(desk.submit(16, 0, 0, &long), only(11));
    assert_eq!(desk.submit(0, 0, 0, &long), only(16));
    desk.open(0, 3, &DESCRIPTOR);
    assert_eq!(desk.submit(0, 2, 0, &long), only(16));
    for number in [0, 65_536, u32::MAX] {
        assert_eq!(desk.submit(0, 3, number, &long), only(17));
    }
    assert_eq!(desk.submit(0, 3, 2, &long), only(18));
    assert_eq!(desk.submit(0, 3, 1, &long), only(19));
    assert_eq!(desk.submit(0, 3, 1, &hex("C12BC1")), answer(21, 2, 0));
    assert_eq!(desk.submit(0, 3, 1, &[]), only(0));
    assert_eq!(desk.submit(0, 3, 1, &long), only(1));
    desk.table[0].next = 65_536;
    assert_eq!(desk.submit(0, 3, 65_535, &[]), only(1));
    desk.close(0, 3);
    assert_eq!(desk.submit(0, 3, 1, &[]), only(16));
}

#[test]
fn submit_is_lent_exact_lengths() {
    for (entries, bytes, widths) in
        [(15, 65_536, 1_024), (16, 65_535, 1_024), (16, 65_536, 1_023), (17, 65_537, 1_025)]
    {
        let mut table = vec![Entry::FRESH; entries];
        let mut records = vec![0; bytes];
        let widths = vec![144; widths];
        let lent = Lent { table: &mut table, records: &mut records, widths: &widths };
        assert_eq!(hub::submit(lent, 16, 0, 0, &[]), only(10));
    }
}

#[test]
fn close_in_order() {
    let mut desk = Desk::new();
    assert_eq!(hub::close(&mut [], &mut 0, 16, 0), only(10));
    assert_eq!(desk.close(16, 0), only(11));
    assert_eq!(desk.close(0, 0), only(16));
    desk.open(0, 3, &DESCRIPTOR);
    let before = desk.table[0];
    assert_eq!(desk.close(0, 2), only(16));
    assert_eq!(desk.close(0, 3), only(0));
    assert_eq!(desk.table[0], Entry { mark: 0, ..before });
    assert_eq!(desk.close(0, 3), only(1));
    assert_eq!(desk.close(0, 4), only(16));
}

#[test]
fn an_entry_open_under_key_0_can_be_closed() {
    let mut desk = Desk::new();
    desk.table[0] = Entry::opened(0, &DESCRIPTOR);
    desk.stored = 1;
    assert_eq!(desk.submit(0, 0, 1, &hex("C1")), answer(0, 1, 17));
    assert_eq!(desk.close(0, 0), only(0));
    assert_eq!(desk.close(0, 0), only(16));
}

#[test]
fn a_damaged_entry_refuses_everything_and_is_counted() {
    let spoil: [fn(&mut Entry); 12] = [
        |e| e.mark = 2,
        |e| e.next = 0,
        |e| e.next = 65_537,
        |e| e.state.chain = 2,
        |e| e.state.i = 65_536,
        |e| e.state.b = u32::MAX,
        |e| e.state.space = 4_096,
        |e| e.state.used = 4_097,
        |e| e.state.colour = 0xFF08,
        |e| e.descriptor.size_i = 0,
        |e| e.descriptor.rule = 193,
        |e| e.descriptor.hidden = 128,
    ];
    for spoil in spoil {
        let mut desk = Desk::job(&DESCRIPTOR);
        spoil(&mut desk.table[0]);
        let before = desk.table.clone();
        for key in [0, 1, 2] {
            assert_eq!(desk.open(0, key, &DESCRIPTOR), only(12));
            assert_eq!(desk.submit(0, key, 1, &[]), only(12));
            assert_eq!(desk.take(0, key, 0), only(12));
            assert_eq!(desk.close(0, key), only(12));
        }
        assert_eq!(desk.table, before);
        assert_eq!(hub::count(&desk.table), 1);
        desk.table[0].mark = 0;
        assert_eq!(desk.open(0, 2, &DESCRIPTOR), only(0));
    }
}

#[test]
fn count_walks_a_table_of_sixteen() {
    let mut desk = Desk::new();
    assert_eq!(hub::count(&desk.table), 0);
    for slot in [0, 7, 15] {
        desk.open(slot, 1, &DESCRIPTOR);
    }
    desk.table[3].mark = u32::MAX;
    assert_eq!(hub::count(&desk.table), 4);
    assert_eq!(hub::count(&desk.table[..15]), 0);
    desk.table.push(Entry::FRESH);
    assert_eq!(hub::count(&desk.table), 0);
}

#[test]
fn each_slot_has_its_own_4096_bytes() {
    let mut desk = Desk::new();
    for slot in 0..16 {
        desk.open(slot, 1, &DESCRIPTOR);
        assert_eq!(desk.submit(slot, 1, 1, &[0xC0 + slot as u8]), answer(0, 1, 17));
    }
    for slot in 0..16 {
        let area = &desk.records[AREA * slot..][..AREA];
        assert_eq!(area[16], 0xC0 + slot as u8);
        assert!(area[17..].iter().all(|&byte| byte == 0));
    }
}

#[test]
fn the_direct_call_in_order() {
    let start = State::start(&DESCRIPTOR);
    let damaged = State { chain: 2, ..start };
    let ask = |part: usize, widths: usize, area: usize, d: &Descriptor, s: State| {
        let (mut bytes, mut state) = (vec![0; area], s);
        let widths = [&WIDTHS_144[..], &[144]].concat()[..widths].to_vec();
        let answer = interpret(&vec![0x2B; part], &widths, &mut bytes, d, &mut state);
        assert!(state == s && bytes.iter().all(|&byte| byte == 0));
        answer
    };
    assert_eq!(ask(8_193, 1_023, 4_096, &BAD, damaged), only(10));
    assert_eq!(ask(8_193, 1_025, 4_096, &BAD, damaged), only(10));
    assert_eq!(ask(8_193, 1_024, 4_095, &BAD, damaged), only(10));
    assert_eq!(ask(8_193, 1_024, 4_096, &BAD, damaged), only(12));
    assert_eq!(ask(8_193, 1_024, 4_096, &BAD, start), only(15));
    assert_eq!(ask(8_193, 1_024, 4_096, &DESCRIPTOR, start), only(19));
    assert_eq!(ask(8_192, 1_024, 4_096, &DESCRIPTOR, start), answer(21, 1, 0));
}
