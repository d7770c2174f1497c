//! One part alone, at eight lines to the inch or at any increment.

mod common;

use common::{hex, Desk};
use peer::generate::{checked_part, increment, Rng};
use peer::sheet::{self, EIGHT_LINES, SIX_LINES};
use peer::{check, check_at};

/// So many new lines, then a character.
fn lines(count: usize) -> Vec<u8> {
    [hex("2BD302D8").repeat(count), hex("C1")].concat()
}

/// Rows of a part and what it is answered at one increment after the other.
fn rows<const N: usize>(increments: [u32; N], rows: &[(&str, [u32; N])]) {
    for (digits, codes) in rows {
        let got = increments.map(|increment| check_at(&hex(digits), increment));
        assert_eq!(got, *codes, "{digits} at {increments:?}");
    }
}

#[test]
fn eight_and_six_lines_to_the_inch() {
    assert_eq!((8 * EIGHT_LINES, 6 * SIX_LINES), (1_440, 1_440));
}

/// A sheet is 15,840 high: 88 lines of 180, 66 of 240.
#[test]
fn a_character_stands_down_to_the_sheets_last_line() {
    for (count, at_180, at_240) in
        [(66, 0, 0), (67, 0, 27), (87, 0, 27), (88, 0, 27), (89, 27, 27), (136, 27, 27)]
    {
        assert_eq!(check_at(&lines(count), 180), at_180, "{count}");
        assert_eq!(check_at(&lines(count), 240), at_240, "{count}");
        assert_eq!(check(&lines(count)), at_180, "{count}");
    }
}

/// B is 32,760 after 182 lines of 180 and 32,640 after 136 of 240; the next passes 32,767.
#[test]
fn lines_go_on_to_the_end_of_b() {
    let moves = |count: usize| hex("2BD302D8").repeat(count);
    for (count, at_180, at_240) in [(136, 0, 0), (137, 0, 28), (182, 0, 28), (183, 28, 28)] {
        assert_eq!(check_at(&moves(count), 180), at_180, "{count}");
        assert_eq!(check_at(&moves(count), 240), at_240, "{count}");
        assert_eq!(check(&moves(count)), at_180, "{count}");
    }
}

#[test]
fn an_increment_of_0_stays_on_its_line() {
    assert_eq!(check_at(&lines(2_000), 0), 0);
    assert_eq!(check_at(&lines(2_047), 1), 0);
    rows([0, 1], &[("2BD304D33DE0 02D8C1", [0, 27]), ("2BD304D37FFF 02D8", [0, 28])]);
}

#[test]
fn increments_are_taken_up_to_32767() {
    rows(
        [32_766, 32_767, 32_768],
        &[
            ("", [0, 0, 15]),
            ("C1", [0, 0, 15]),
            // One line down is in the range of B, but under the sheet.
            ("2BD302D8", [0, 0, 15]),
            ("2BD302D8 C1", [27, 27, 15]),
            ("2BD302D9 02D8", [28, 28, 15]),
            // From 1 down one unit less is left.
            ("2BD304D30001 02D8", [0, 28, 15]),
            ("2B", [20, 20, 15]),
        ],
    );
}

/// Among them such as are 0, 180 or 240 when they are cut to 16 or 15 bits.
#[test]
fn increments_above_32767_are_refused_whatever_the_part() {
    let near = [32_768, 32_769, 32_948, 33_008, 65_535, 65_536, 65_716, 65_776, 98_304];
    let far = [1 << 31, (1 << 31) + 180, u32::MAX - 179, u32::MAX - 1, u32::MAX];
    for increment in near.into_iter().chain(far) {
        for part in ["", "C1", "2BD302D8", "2B", "C12BC1", "2BD304C68000", "2BD303F405"] {
            assert_eq!(check_at(&hex(part), increment), 15, "{part} at {increment}");
        }
    }
}

#[test]
fn the_increment_is_judged_before_the_parts_length() {
    for (length, increment, code) in [
        (8_192, 32_767, 27),
        (8_193, 32_767, 19),
        (8_193, 180, 19),
        (8_193, 240, 19),
        (8_193, 0, 19),
        (8_192, 32_768, 15),
        (8_193, 32_768, 15),
        (8_193, u32::MAX, 15),
        (1 << 20, 32_768, 15),
        (1 << 20, 180, 19),
    ] {
        assert_eq!(check_at(&vec![0xC1; length], increment), code, "{length} at {increment}");
    }
    assert_eq!((check(&[0xC1; 8_192]), check(&[0xC1; 8_193])), (27, 19));
}

/// From 15,660 it is 180 to the foot of the sheet.
#[test]
fn all_ones_are_the_increment_that_is_asked_for() {
    rows(
        [0, 180, 181, 240, 32_767],
        &[
            ("2BD304D33D2C 02D8C1", [0, 0, 27, 27, 28]),
            // One of its own instead, at which every sheet is alike.
            ("2BD304D33D2C 04D100B4 02D8C1", [0; 5]),
            ("2BD304D33D2C 04D100B5 02D8C1", [27; 5]),
            // Its own, and back.
            ("2BD304D33D2C 04D10001 04D1FFFF 02D8C1", [0, 0, 27, 27, 28]),
            ("2BD304D33D2C 04D17FFF 04D1FFFF 02D8C1", [0, 0, 27, 27, 28]),
        ],
    );
    let alone = |digits: &str| check(&hex(digits));
    assert_eq!(alone("2BD304D33D2C 04D17FFF 04D1FFFF 02D8C1"), 0);
    assert_eq!(alone("2BD304D33D2D 04D10001 04D1FFFF 02D8C1"), 27);
}

/// All else on the sheet is as it was: size, widths, colour, rule width, margin, fonts.
#[test]
fn the_increment_alone_differs() {
    let rows = [
        ("", 0),
        ("2BD302D8", 0),
        ("2B", 20),
        ("C12BC1", 21),
        ("2BD301D8", 22),
        ("2BD30272", 23),
        ("2BD304C67F", 20),
        ("2BD304C68000", 24),
        ("2BD304C62F40C1", 0),
        ("2BD304C62F41C1", 27),
        ("2BD304DA2BD3", 0),
        ("2BD306EE0005C1C2", 0),
        ("2BD303F405", 26),
        ("2BD304C88000 2BD304C88000", 28),
        ("2BD307E405A0000E00", 0),
        ("2BD302D9", 0),
        ("2BD303F004", 25),
        ("2BD304D33DE0 03DBC1 04D23DE1 C1", 27),
        ("2BD304D33DD2 04E40001", 0),
        ("2BD304D33DD3 04E40001", 27),
    ];
    for (digits, code) in rows {
        let part = hex(digits);
        assert_eq!(check(&part), code, "{digits}");
        for increment in [0, 1, 180, 240, 32_767] {
            assert_eq!(check_at(&part, increment), code, "{digits} at {increment}");
        }
    }
}

/// The area is full after 256 rules of one unit, at any increment.
#[test]
fn a_sheet_has_one_area() {
    let rules = |count: usize| hex("2BD304E40001").repeat(count);
    for increment in [0, 180, 240, 32_767] {
        assert_eq!(check_at(&rules(256), increment), 0);
        assert_eq!(check_at(&rules(257), increment), 29);
    }
    assert_eq!((check(&rules(256)), check(&rules(257))), (0, 29));
}

/// The code of the same part as a job's only one.
fn job(part: &[u8], increment: u32) -> u32 {
    let mut desk = Desk::new();
    match desk.open(0, 1, &sheet::descriptor(increment)).code {
        0 => desk.submit(0, 1, 1, part).code,
        refused => refused,
    }
}

#[test]
fn generated_checks_meet_every_code_often_and_are_those_of_a_job() {
    let mut rng = Rng::new(5);
    let (mut met, mut met_at, mut both) = ([0; 30], [0; 30], 0);
    for _ in 0..6_000 {
        let increment = increment(&mut rng);
        let part = checked_part(&mut rng, increment);
        let code = check_at(&part, increment);
        met_at[code as usize] += 1;
        both += u32::from(code == 15 && part.len() > 8_192);
        assert_eq!(code, job(&part, increment), "at {increment}");
        let part = checked_part(&mut rng, EIGHT_LINES);
        let code = check(&part);
        met[code as usize] += 1;
        assert_eq!(code, check_at(&part, EIGHT_LINES));
    }
    println!("{met:?} {met_at:?} too long and at a wrong increment {both}");
    for code in [0, 19, 20, 21, 22, 23, 24, 25, 26, 27, 28, 29] {
        assert!(met[code] >= 50 && met_at[code] >= 50, "{code}: {met:?} {met_at:?}");
    }
    assert!(met_at[15] >= 500 && both >= 100, "{met_at:?} {both}");
    assert_eq!((met[15], met.iter().sum(), met_at.iter().sum()), (0, 6_000, 6_000));
    assert_eq!(met_at[1..15].iter().chain(&met_at[16..19]).sum::<u32>(), 0);
}

/// One part in a hundred is answered otherwise at the other increment, so that a mix-up is seen soon.
#[test]
fn generated_parts_tell_180_from_240() {
    let mut rng = Rng::new(6);
    let told = |rng: &mut Rng, increment: u32| {
        let parts = (0..2_000).map(|_| checked_part(rng, increment));
        parts.filter(|part| check_at(part, 180) != check_at(part, 240)).count()
    };
    let (at_180, at_240) = (told(&mut rng, 180), told(&mut rng, 240));
    println!("{at_180} and {at_240} of 2,000");
    assert!(at_180 >= 20 && at_240 >= 20, "{at_180} {at_240}");
}
