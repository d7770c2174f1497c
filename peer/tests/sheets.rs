//! The sheets to try, and the further ones, each on a fresh job.

mod common;

use common::{answer, hex, Desk, DESCRIPTOR};
use peer::record::Record;
use peer::sheet::SIX_LINES;
use peer::{check_at, Answer, Descriptor};

/// One part, one answer, and the code of the check alone.
fn sheet(digits: &str, expected: Answer) -> Desk {
    let mut desk = Desk::job(&DESCRIPTOR);
    let (table, records) = (desk.table.clone(), desk.records.clone());
    assert_eq!(desk.part(digits), expected, "{digits}");
    assert_eq!(check_at(&hex(digits), SIX_LINES), expected.code, "{digits}");
    if expected.code != 0 {
        assert!(desk.table == table && desk.records == records, "{digits}");
    }
    desk
}

#[test]
fn sheets_to_try() {
    sheet("", answer(0, 0, 0));
    assert_eq!(sheet("2BD302D8", answer(0, 1, 0)).place(), (0, 240));
    sheet("2B", answer(20, 0, 0));
    sheet("C12BC1", answer(21, 2, 0));
    sheet("2BD301D8", answer(22, 2, 0));
    sheet("2BD30272", answer(23, 3, 0));
    sheet("2BD304C67F", answer(20, 0, 0));
    sheet("2BD304C68000", answer(24, 4, 0));
    sheet("2BD304C62F40C1", answer(0, 2, 17));
    sheet("2BD304C62F41C1", answer(27, 6, 0));
    sheet("2BD304DA2BD3", answer(0, 1, 18));
    sheet("2BD303F405", answer(26, 0, 0));
    sheet("2BD304C88000 2BD304C88000", answer(28, 6, 0));
    sheet("2BD307E405A0000E00", answer(0, 1, 16));
}

#[test]
fn repeated_text_goes_round() {
    let desk = sheet("2BD306EE0005C1C2", answer(0, 1, 21));
    assert_eq!(desk.records[16..21], hex("C1C2C1C2C1"));
}

#[test]
fn a_chain_carries_into_the_next_part() {
    let mut desk = sheet("2BD302D9", answer(0, 1, 0));
    assert_eq!(desk.part("02D8"), answer(0, 1, 0));
    assert_eq!(desk.place(), (0, 480));
    let mut desk = sheet("2BD302D9", answer(0, 1, 0));
    assert_eq!(desk.part("2BD302D8"), answer(22, 0, 0));
}

#[test]
fn an_area_holds_4096_bytes() {
    for (digits, expected) in
        [("2BD305EE0FF0C1", answer(0, 1, 4_096)), ("2BD305EE0FF1C1", answer(29, 0, 0))]
    {
        let mut desk = Desk::job(&DESCRIPTOR);
        desk.widths.fill(0);
        assert_eq!(desk.part(digits), expected);
    }
}

#[test]
fn an_open_chain_without_elements() {
    let mut desk = Desk::job(&DESCRIPTOR);
    desk.state().chain = 1;
    assert_eq!(desk.part(""), answer(0, 0, 0));
    assert_eq!(desk.state().chain, 1);
    assert_eq!(desk.part("02"), answer(20, 0, 0));
}

#[test]
fn order_of_checks() {
    sheet("2BD301", answer(20, 0, 0));
    sheet("2BD30072", answer(22, 2, 0));
    sheet("2BD303C6", answer(22, 2, 0));
    sheet("2BD305E40001", answer(22, 2, 0));
    sheet("2BD3", answer(20, 0, 0));
    sheet("2BD302FF", answer(23, 3, 0));
}

#[test]
fn defaults_and_values() {
    sheet("2BD304C6FFFF", answer(24, 4, 0));
    sheet("2BD304C0FFFF", answer(0, 1, 0));
    sheet("2BD303F004", answer(25, 4, 0));
    sheet("2BD303F0FE", answer(25, 4, 0));
    assert_eq!(sheet("2BD303F0FF", answer(0, 1, 0)).state().font, 0);
    sheet("2BD30574FF077E", answer(0, 1, 0));
    sheet("2BD304EE0001", answer(24, 4, 0));
    sheet("2BD304EE0000", answer(0, 1, 0));
    sheet("2BD306F6FFFF2D00", answer(0, 1, 0));
    sheet("2BD306F60000FFFF", answer(0, 1, 0));
    sheet("2BD306F62D005A00", answer(24, 4, 0));
    sheet("2BD303F200", answer(24, 4, 0));
    sheet("2BD303F280", answer(24, 4, 0));
    assert_eq!(sheet("2BD304C80000 2BD304C8FFFF", answer(0, 2, 0)).place(), (-1, 0));
}

#[test]
fn each_half_of_an_adjustment_defaults_alone() {
    let descriptor = Descriptor { adjustment: 9, direction: 1, ..DESCRIPTOR };
    for (digits, amount, direction) in [
        ("2BD304C2FFFF", 9, 0),
        ("2BD305C2FFFFFF", 9, 1),
        ("2BD305C20005FF", 5, 1),
        ("2BD305C2FFFF00", 9, 0),
        ("2BD305C20FFF01", 4_095, 1),
    ] {
        let mut desk = Desk::job(&descriptor);
        assert_eq!(desk.part(digits), answer(0, 1, 0), "{digits}");
        let state = desk.state();
        assert_eq!((state.adjustment, state.direction), (amount, direction), "{digits}");
    }
    sheet("2BD304C21000", answer(24, 4, 0));
    sheet("2BD305C2000002", answer(24, 6, 0));
}

#[test]
fn rules_with_ink_have_records() {
    sheet("2BD307E40001FFFF00", answer(24, 6, 0));
    sheet("2BD307E4000100C001", answer(24, 6, 0));
    sheet("2BD307E4000100C100", answer(24, 6, 0));
    sheet("2BD304E4FFFF", answer(24, 4, 0));
    sheet("2BD304E40000", answer(0, 1, 0));
    let desk = sheet("2BD307E40001FFFFFF", answer(0, 1, 16));
    let colour = 0xFF07;
    let rule = Record::Rule { i: 0, b: 0, axis: 0, colour, length: 1, width: 14 };
    assert_eq!(desk.placed(), [rule]);
    let desk = sheet("2BD304E60005", answer(0, 1, 16));
    let rule = Record::Rule { i: 0, b: 0, axis: 1, colour, length: 5, width: 14 };
    assert_eq!(desk.placed(), [rule]);
}

#[test]
fn a_rule_lies_on_the_page_with_both_its_corners() {
    sheet("2BD307E42FD0000E00", answer(0, 1, 16));
    sheet("2BD307E42FD1000E00", answer(27, 0, 0));
    sheet("2BD307E63DE0000E00", answer(0, 1, 16));
    sheet("2BD307E63DE1000E00", answer(27, 0, 0));
    sheet("2BD304C72FC2 07E70001000E00 04C72FC3 07E60001000E00", answer(27, 17, 0));
    sheet("2BD304C9FFFF 04E40000", answer(27, 6, 0));
}

#[test]
fn suppressions_pair() {
    sheet("2BD303F30103F202", answer(26, 5, 0));
    sheet("2BD303F30103F201", answer(26, 5, 0));
    sheet("2BD303F30103F402", answer(26, 5, 0));
    assert_eq!(sheet("2BD303F30103F401", answer(0, 2, 0)).state().suppression, 0);
}

#[test]
fn hidden_text_moves_and_hidden_rules_do_nothing() {
    let descriptor = Descriptor { hidden: 5, ..DESCRIPTOR };
    let mut desk = Desk::job(&descriptor);
    assert_eq!(desk.part("2BD303F205C1C2"), answer(0, 2, 0));
    assert_eq!(desk.place(), (288, 0));
    let mut desk = Desk::job(&descriptor);
    assert_eq!(desk.part("2BD303F305 04C98000 04C8FFFF"), answer(28, 9, 0));
    let mut desk = Desk::job(&descriptor);
    assert_eq!(desk.part("2BD303F305 07E47FFF00C000"), answer(0, 2, 0));
    let mut desk = Desk::job(&descriptor);
    assert_eq!(desk.part("2BD303F204 C1"), answer(0, 2, 17));
}

#[test]
fn the_last_adjustment_can_leave_the_range() {
    let mut desk = Desk::job(&Descriptor { size_i: 32_767, ..DESCRIPTOR });
    assert_eq!(desk.part("2BD304C30FFF 04C67F6F C1"), answer(28, 10, 0));
}

#[test]
fn no_characters_need_no_place() {
    sheet("2BD304C98000 02DB 05EF0000C1 02F8", answer(0, 4, 0));
    sheet("2BD304C98000 03DAC1", answer(27, 6, 0));
}

#[test]
fn the_variable_space_is_the_width_of_40_in_every_font() {
    let mut desk = sheet("2BD304C5000A 03F003 40C140", answer(0, 3, 19));
    assert_eq!(desk.place(), (164, 0));
    assert_eq!(desk.state().space, 10);
    let text = Record::Text {
        i: 0,
        b: 0,
        font: 3,
        colour: 0xFF07,
        adjustment: 0,
        space: 10,
        characters: &[0x40, 0xC1, 0x40],
    };
    assert_eq!(desk.placed(), [text]);
    assert_eq!(sheet("2BD304C5000A 04C4FFFF", answer(0, 2, 0)).state().space, 65_535);
}

#[test]
fn records_are_signed_where_the_paper_says() {
    let desk = sheet("2BD305C3000501 04C700C8 04D30064 0474FF00 C1C2", answer(0, 5, 18));
    assert_eq!(desk.records[..18], hex("1200 0100 C800 6400 0000 00FF FBFF FFFF C1C2"));
    assert_eq!(desk.place(), (200 + 2 * 139, 100));
}

#[test]
fn a_fault_leaves_no_trace_of_the_elements_before() {
    sheet("C1C2C3 2BD304E40001 2BD303F405", answer(26, 9, 0));
    assert_eq!(check_at(&[0xC1; 8_193], SIX_LINES), 19);
    assert_eq!(check_at(&[0xC1; 8_192], SIX_LINES), 27);
}
