//! The wrapper hands on what the library answers.

use halviruso::{
    check, check_at, first_state, interpret, Answer, Code, Descriptor, Hub, Point, State, ABSENT,
    AREA, ORIGIN, PART, WIDTHS,
};

/// Every character is a tenth of an inch wide.
static TENTH: [u16; WIDTHS] = [144; WIDTHS];

fn sheet() -> Descriptor {
    Descriptor {
        size: Point { i: 12_240, b: 15_840 },
        increment: 240,
        colour: 0xFF07,
        rule: 14,
        ..Descriptor::default()
    }
}

/// Twelve numbers that differ, all in range, so that none can stand in another's place unseen.
fn unlike() -> Descriptor {
    Descriptor {
        size: Point { i: 12_001, b: 12_002 },
        initial: Point { i: 103, b: 104 },
        margin: 105,
        increment: 106,
        adjustment: 107,
        direction: 1,
        font: 2,
        colour: 0xFF00,
        rule: 111,
        hidden: 112,
    }
}

fn answer(code: Code, first: u32, second: u32) -> Answer {
    Answer { code, first, second }
}

#[test]
fn a_fresh_table_is_closed_with_last_key_0() {
    let hub = Hub::new();
    assert_eq!((hub.count(), hub.open_jobs()), (0, 0));
    for slot in 0..16 {
        let entry = hub.entry(slot).unwrap();
        assert_eq!((entry.key, entry.is_open()), (0, false));
        assert_eq!((entry.state.i(), entry.state.b(), entry.state.space), (0, 0, ABSENT));
    }
}

#[test]
fn every_number_of_a_descriptor_arrives() {
    let mut hub = Hub::new();
    assert_eq!(hub.open(9, 5, unlike()), answer(Code::DONE, 0, 0));
    let entry = hub.entry(9).unwrap();
    assert_eq!((entry.key, entry.mark, entry.next), (5, 1, 1));
    assert_eq!(entry.descriptor, unlike());
    let begun = State {
        at: Point { i: 103 + ORIGIN, b: 104 + ORIGIN },
        margin: 105,
        increment: 106,
        adjustment: 107,
        direction: 1,
        font: 2,
        colour: 0xFF00,
        space: ABSENT,
        suppression: 0,
        chain: 0,
        used: 0,
    };
    assert_eq!(entry.state, begun);
    assert_eq!(first_state(unlike()), Ok(begun));
}

#[test]
fn requests_get_their_codes() {
    let mut hub = Hub::new();
    assert_eq!(hub.open(16, 1, sheet()).code, Code::NO_SLOT);
    assert_eq!(hub.open(0, 0, sheet()).code, Code::OLD_KEY);
    assert_eq!(hub.open(0, 1, Descriptor::default()).code, Code::BAD_DESCRIPTOR);
    assert_eq!(hub.open(0, 1, sheet()).code, Code::DONE);
    assert_eq!(hub.open(0, 1, sheet()).code, Code::ALREADY_TAKEN);
    assert_eq!(hub.open(0, 2, sheet()).code, Code::BUSY);
    assert_eq!(hub.submit(&TENTH, 0, 2, 1, b"").code, Code::NO_JOB);
    assert_eq!(hub.submit(&TENTH, 0, 1, 0, b"").code, Code::BAD_NUMBER);
    assert_eq!(hub.submit(&TENTH, 0, 1, 2, b"").code, Code::GAP);
    assert_eq!(hub.submit(&TENTH, 0, 1, 1, &[0xC1; PART + 1]).code, Code::LONG_PART);
    assert_eq!(
        hub.submit(&TENTH, 0, 1, 1, b"\x2B\xD3\x04\xC6\x2F\x41\xC1"),
        answer(Code::OUTSIDE, 6, 0)
    );
    assert_eq!(hub.submit(&TENTH, 0, 1, 1, b""), answer(Code::DONE, 0, 0));
    assert_eq!(hub.close(0, 1).code, Code::DONE);
    assert_eq!(hub.close(0, 1).code, Code::ALREADY_TAKEN);
    assert_eq!(hub.close(1, 1).code, Code::NO_JOB);
}

/// Parts with the code that each gets, the offset, and the byte that stands there.
const FAULTS: [(&[u8], Code, u32, u8); 13] = [
    (b"\xC1\x2B\xD3\x04\xC6\x7F", Code::CUT, 1, 0x2B),
    (b"\xC1\x2B\xC1", Code::PREFIX, 2, 0xC1),
    (b"\x2B\xD3\x01\xD8", Code::LENGTH, 2, 0x01),
    (b"\x2B\xD3\x02\xD9\x03\xC6\x00", Code::LENGTH, 4, 0x03),
    (b"\x2B\xD3\x02\x72", Code::TYPE, 3, 0x72),
    (b"\x2B\xD3\x04\xC6\x80\x00", Code::VALUE, 4, 0x80),
    (b"\x2B\xD3\x05\xC2\x00\x01\x02", Code::VALUE, 6, 0x02),
    (b"\xC1\x2B\xD3\x07\xE6\x00\x01\xFF\xFF\x00", Code::VALUE, 7, 0xFF),
    (b"\x2B\xD3\x02\xD9\x03\xF0\x04", Code::FONT, 6, 0x04),
    (b"\xC1\x2B\xD3\x03\xF4\x05", Code::SUPPRESSION, 1, 0x2B),
    (b"\x2B\xD3\x04\xC7\x2F\x41\x03\xDA\xC1", Code::OUTSIDE, 6, 0x03),
    (b"\x2B\xD3\x04\xC8\x80\x00\x2B\xD3\x04\xC8\x80\x00", Code::POSITION, 6, 0x2B),
    (b"\x2B\xD3\x05\xC2\x00\x90\x01\x2B\xD3\x05\xEE\x0F\xF1\xC1", Code::NO_ROOM, 7, 0x2B),
];

#[test]
fn a_refusal_points_at_the_byte() {
    let mut hub = Hub::new();
    assert_eq!(hub.open(0, 1, sheet()).code, Code::DONE);
    let start = first_state(sheet()).unwrap();
    for (part, code, first, byte) in FAULTS {
        let submitted = hub.submit(&TENTH, 0, 1, 1, part);
        let direct = interpret(part, &TENTH, &mut [0; AREA], sheet(), start);
        assert_eq!(submitted, answer(code, first, 0), "{part:02X?}");
        assert_eq!((direct.answer, part[submitted.first as usize]), (submitted, byte));
    }
}

/// In a chain that an earlier part has opened, LENGTH is an element's first byte.
#[test]
fn a_refusal_points_at_the_byte_in_a_chain_from_the_part_before() {
    let mut hub = Hub::new();
    assert_eq!(hub.open(0, 1, sheet()).code, Code::DONE);
    assert_eq!(hub.submit(&TENTH, 0, 1, 1, b"\x2B\xD3\x02\xD9").code, Code::DONE);
    let faults: [(&[u8], Code, u32); 4] = [
        (b"\x2B\xD3\x02\xD8", Code::LENGTH, 0),
        (b"\x02\x72", Code::TYPE, 1),
        (b"\x06\xF6\x00\x00\x00\x00", Code::VALUE, 4),
        (b"\x03\xF4\x05", Code::SUPPRESSION, 0),
    ];
    for (part, code, first) in faults {
        assert_eq!(hub.submit(&TENTH, 0, 1, 2, part), answer(code, first, 0), "{part:02X?}");
    }
}

#[test]
fn widths_given_are_the_ones_used() {
    let mut widths = [0; WIDTHS];
    widths[256 * 2 + 0xC1] = 10;
    let mut hub = Hub::new();
    assert_eq!(hub.open(0, 1, sheet()).code, Code::DONE);
    let part = b"\xC1\x2B\xD3\x03\xF0\x02\xC1\xC1";
    assert_eq!(hub.submit(&widths, 0, 1, 1, part), answer(Code::DONE, 3, 35));
    assert_eq!(hub.entry(0).unwrap().state.i(), 20);
}

/// Jobs of one hub, part by part in turn, are placed as each would be in a hub of its own.
#[test]
fn each_job_has_its_own_widths() {
    let tables = [[72; WIDTHS], [144; WIDTHS], std::array::from_fn(|at| at as u16 % 200)];
    let mut hub = Hub::new();
    let mut alone = tables.map(|widths| (widths, Hub::new()));
    for number in 0..3 {
        for (slot, (widths, own)) in (0..).zip(&mut alone) {
            for hub in [&mut hub, own] {
                let answer = match number {
                    0 => hub.open(slot, 1, sheet()),
                    _ => hub.submit(widths, slot, 1, number, b"\xC1\xC2\x2B\xD3\x02\xD8\xC3"),
                };
                assert_eq!(answer.code, Code::DONE);
            }
        }
    }
    for (slot, (_, own)) in (0..).zip(&alone) {
        assert_eq!((hub.entry(slot), hub.area(slot)), (own.entry(slot), own.area(slot)));
    }
    assert_eq!([0, 1, 2].map(|slot: usize| hub.table()[slot].state.i()), [72, 144, 195]);
}

#[test]
fn parts_are_checked_alone() {
    let cases: [(&[u8], Code); 5] = [
        (b"", Code::DONE),
        (b"\x2B\xD3\x04\xC6\x2F\x40\xC1", Code::DONE),
        (b"\x2B\xD3\x04\xC6\x2F\x41\xC1", Code::OUTSIDE),
        (b"\xC1\x2B\xC1", Code::PREFIX),
        (&[0xC1; PART + 1], Code::LONG_PART),
    ];
    for (part, code) in cases {
        assert_eq!(check(part), code);
        assert_eq!(check_at(part, 180), code);
        assert_eq!(check_at(part, 32_768), Code::BAD_DESCRIPTOR);
    }
}

/// So many lines down, and a character there.
fn below(lines: usize) -> Vec<u8> {
    let mut part = b"\x2B\xD3\x02\xD8".repeat(lines);
    part.push(0xC1);
    part
}

#[test]
fn parts_are_checked_at_an_increment() {
    assert_eq!([88, 89].map(|lines| check(&below(lines))), [Code::DONE, Code::OUTSIDE]);
    assert_eq!([66, 67].map(|lines| check_at(&below(lines), 240)), [Code::DONE, Code::OUTSIDE]);
    assert_eq!([1, 1_000].map(|lines| check_at(&below(lines), 0)), [Code::DONE; 2]);
    assert_eq!(
        [0, 1, 2].map(|lines| check_at(&below(lines), 32_767)),
        [Code::DONE, Code::OUTSIDE, Code::POSITION]
    );
    assert_eq!(check_at(&[0xC1; PART + 1], 32_767), Code::LONG_PART);
    assert_eq!(check_at(b"", u32::MAX), Code::BAD_DESCRIPTOR);
}

#[test]
fn a_state_goes_in_and_comes_out() {
    let state = State {
        at: Point { i: ORIGIN + 201, b: ORIGIN + 202 },
        margin: 203,
        increment: 204,
        adjustment: 205,
        direction: 1,
        font: 3,
        colour: 0,
        space: 209,
        suppression: 110,
        chain: 0,
        used: 212,
    };
    let mut area = [0; AREA];
    let refused = interpret(b"\x2B", &TENTH, &mut area, sheet(), state);
    assert_eq!((refused.answer, refused.state), (answer(Code::CUT, 0, 0), state));
    let done = interpret(b"\x2B\xD3\x02\xD9", &TENTH, &mut area, sheet(), state);
    let after = State { at: Point { i: ORIGIN + 203, b: ORIGIN + 406 }, chain: 1, ..state };
    assert_eq!((done.answer, done.state), (answer(Code::DONE, 1, 0), after));
    assert_eq!(area, [0; AREA]);
}

#[test]
fn wrong_lent_lengths_are_the_library_s_to_refuse() {
    let state = first_state(sheet()).unwrap();
    let code = |widths: usize, area: usize| {
        interpret(b"", &vec![0; widths], &mut vec![0; area], sheet(), state).answer.code
    };
    assert_eq!(code(WIDTHS, AREA), Code::DONE);
    assert_eq!(code(WIDTHS - 1, AREA), Code::LENT_LENGTH);
    assert_eq!(code(WIDTHS, AREA + 1), Code::LENT_LENGTH);
    assert_eq!(code(0, 0), Code::LENT_LENGTH);
    assert_eq!(first_state(Descriptor::default()), Err(answer(Code::BAD_DESCRIPTOR, 0, 0)));
}
