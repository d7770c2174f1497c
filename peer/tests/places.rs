//! At which byte a refusal points.

mod common;

use common::{answer, hex, Desk, DESCRIPTOR};
use peer::sheet::SIX_LINES;
use peer::{check_at, Answer};

/// Sequences at fault from their LENGTH on, the code, and the byte at fault counted from LENGTH.
const INSIDE: [(&str, u32, u32); 56] = [
    // LENGTH under 2, before whatever TYPE is; LENGTH not the type's, before the body is looked for
    ("00D8", 22, 0),
    ("01D9", 22, 0),
    ("0072", 22, 0),
    ("03C6", 22, 0),
    ("05C6800000", 22, 0),
    ("03D800", 22, 0),
    ("05E4000100", 22, 0),
    ("06E60001000E", 22, 0),
    ("03EE00", 22, 0),
    ("2BC1", 22, 0),
    // TYPE, whatever LENGTH from 2 on is
    ("0272", 23, 1),
    ("0273", 23, 1),
    ("02FF", 23, 1),
    ("FFFE", 23, 1),
    // the only parameter
    ("04C68000", 24, 2),
    ("04C7FFFF", 24, 2),
    ("04D28000", 24, 2),
    ("04C08000", 24, 2),
    ("04D0FFFE", 24, 2),
    ("04C41000", 24, 2),
    ("0474FF08", 24, 2),
    ("0574000100", 24, 2),
    ("0575FFFEFF", 24, 2),
    ("03F200", 24, 2),
    ("03F280", 24, 2),
    ("03F400", 24, 2),
    ("03F5FF", 24, 2),
    ("03F004", 25, 2),
    ("03F1FE", 25, 2),
    // SIA: the amount, the direction, both
    ("04C21000", 24, 2),
    ("05C2100000", 24, 2),
    ("05C2000002", 24, 4),
    ("05C3FFFFFE", 24, 4),
    ("05C2FFFE02", 24, 2),
    // STO: I, B, both
    ("06F62D002D00", 24, 2),
    ("06F60001FFFF", 24, 2),
    ("06F600000000", 24, 4),
    ("06F7FFFF2D01", 24, 4),
    ("06F62D005A00", 24, 2),
    // DIR and DBR: the length, the width, its last byte alone, both
    ("04E48000", 24, 2),
    ("07E5FFFF000E00", 24, 2),
    ("07E4000100C100", 24, 4),
    ("07E40001FFFE00", 24, 4),
    ("07E4000100C001", 24, 4),
    ("07E50001FFFF00", 24, 4),
    ("07E4800000C100", 24, 2),
    ("04E6FFFF", 24, 2),
    ("07E78000FFFFFF", 24, 2),
    ("07E6000100C100", 24, 4),
    ("07E60001000001", 24, 4),
    ("07E70001FFFFFE", 24, 4),
    ("07E68000000001", 24, 2),
    // RPS: the count, too high or with no text
    ("05EE8000C1", 24, 2),
    ("04EFFFFF", 24, 2),
    ("04EE0001", 24, 2),
    ("04EF7FFF", 24, 2),
];

/// What may stand before LENGTH: nothing but prefix and class, other elements, a chain.
const BEFORE: [&str; 8] = [
    "2BD3",
    "C1C2C3 2BD3",
    "2BD302D8 2BD3",
    "2BD304C60001 C1 2BD303F001 2BD3",
    "2BD302D9",
    "C1C2 2BD303F101 03DBC1",
    "2BD302D9 02D8 C1 2BD304C70001",
    "2BD302D9 02D8 2BD3",
];

/// Elements at fault as a whole, after these bytes.
const WHOLE: [(&str, &str, u32); 34] = [
    // cut in the introducer or in the body, in a chain or not
    ("", "2B", 20),
    ("", "2BD3", 20),
    ("", "2BD304", 20),
    ("", "2BD301", 20),
    ("", "2BD304C6", 20),
    ("", "2BD304C680", 20),
    ("", "2BD307E4800000C1", 20),
    ("C1C2", "2B", 20),
    ("C1C2", "2BD302", 20),
    ("2BD302D8", "2BD303F0", 20),
    ("2BD302D9", "00", 20),
    ("2BD302D9", "2B", 20),
    ("2BD302D9", "04C6", 20),
    ("2BD302D9", "04C680", 20),
    ("2BD302D9 02D8", "2BD303DA", 20),
    ("", "2BD303F405", 26),
    ("2BD302D9", "03F501", 26),
    ("2BD303F201", "2BD303F201", 26),
    ("2BD303F301", "03F202", 26),
    ("2BD303F301", "03F402", 26),
    ("C1 2BD303F201 C2", "2BD303F402", 26),
    ("2BD304C62F41", "C1", 27),
    ("2BD304C62F40", "C1C1", 27),
    ("2BD304C72F41", "03DAC1", 27),
    ("2BD304C62F41", "2BD306EE0001C1C2", 27),
    ("2BD304D33DE1", "03DAC1", 27),
    ("", "2BD304E42FD1", 27),
    ("C1 2BD304C72FD0", "07E40001000E00", 27),
    ("2BD304D33DD3", "07E40000000E00", 27),
    ("2BD304D33DE0", "04E60001", 27),
    ("2BD304C88000", "2BD304C8FFFF", 28),
    ("2BD304C98000", "04C98000", 28),
    ("C1 2BD304D57FFF", "04D40001", 28),
    ("C1 2BD304D27FFF", "2BD302D8", 28),
];

/// Elements with no room in the area, after these bytes; every width is 0.
const FULL: [(&str, &str); 5] = [
    ("", "2BD305EE0FF1C1"),
    ("2BD305EE0FF0C1", "C1"),
    ("2BD305EF0FF0C1", "03DAC1"),
    ("2BD305EF0FE1C1", "04E40001"),
    ("2BD305EE0FE0C1 2BD304E60001", "2BD307E60001000E00"),
];

/// One part on a fresh sheet, and the code of the check alone.
fn refused(digits: &str, expected: Answer) {
    assert_eq!(Desk::job(&DESCRIPTOR).part(digits), expected, "{digits}");
    assert_eq!(check_at(&hex(digits), SIX_LINES), expected.code, "{digits}");
}

#[test]
fn faults_inside_an_element_are_at_their_byte() {
    for (sequence, code, at) in INSIDE {
        for before in BEFORE {
            let length_at = hex(before).len() as u32;
            refused(&format!("{before}{sequence}"), answer(code, length_at + at, 0));
        }
    }
}

#[test]
fn faults_inside_an_element_are_at_their_byte_after_a_chain_from_the_part_before() {
    for (sequence, code, at) in INSIDE {
        let mut desk = Desk::job(&DESCRIPTOR);
        assert_eq!(desk.part("2BD302D9"), answer(0, 1, 0));
        assert_eq!(desk.part(sequence), answer(code, at, 0), "{sequence}");
    }
}

#[test]
fn what_follows_an_element_at_fault_is_nothing_to_it() {
    for (sequence, code, at) in INSIDE {
        refused(&format!("2BD3{sequence}2B2BD304C68000"), answer(code, 2 + at, 0));
    }
}

#[test]
fn a_prefix_without_its_class_is_at_the_byte_after_it() {
    for (before, prefix) in [
        ("", "2BC1"),
        ("", "2B2B"),
        ("", "2B2BD3"),
        ("", "2BD2C1C2C3"),
        ("C1", "2BC1"),
        ("C1C2 2BD302D8", "2B00"),
        ("2BD302D8 C1", "2BFF"),
        ("2BD302D9 02D8", "2B02D8"),
    ] {
        let at = hex(before).len() as u32 + 1;
        refused(&format!("{before}{prefix}"), answer(21, at, 0));
    }
}

#[test]
fn faults_of_a_whole_element_are_at_its_start() {
    for (before, element, code) in WHOLE {
        let start = hex(before).len() as u32;
        refused(&format!("{before}{element}"), answer(code, start, 0));
    }
    for (before, element) in FULL {
        let mut desk = Desk::job(&DESCRIPTOR);
        desk.widths.fill(0);
        let (digits, start) = (format!("{before}{element}"), hex(before).len() as u32);
        assert_eq!(desk.part(&digits), answer(29, start, 0), "{digits}");
    }
}
