//! Rules with no ink: no record and no room, but elements that are counted and tested.

mod common;

use std::collections::BTreeMap;

use common::{answer, hex, Desk, DESCRIPTOR};
use peer::generate::{case, Case, Reach, Requests, Rng};
use peer::model::{kept, AREA, WIDTHS};
use peer::reader::{read, Element, DBR, DIR};
use peer::record::{Record, HEADER};
use peer::replay::{Memory, Said};
use peer::script::Step;
use peer::{interpret, Descriptor, Entry, State};

/// Rules with no ink from their LENGTH on, and the descriptor's rule width.
const NO_INK: [(&str, u32); 16] = [
    // a length of 0, whatever the width
    ("04E40000", 14),
    ("04E60000", 14),
    ("07E4000000C000", 14),
    ("07E60000000100", 0),
    ("07E40000FFFFFF", 14),
    // a width of 0, whatever the descriptor's
    ("07E40001000000", 14),
    ("07E60001000000", 14),
    ("07E42FD0000000", 14),
    ("07E63DE0000000", 0),
    // the descriptor's width, which is 0
    ("04E40001", 0),
    ("04E60001", 0),
    ("07E40001FFFFFF", 0),
    ("07E60001FFFFFF", 0),
    // both
    ("04E40000", 0),
    ("07E40000000000", 14),
    ("07E60000FFFFFF", 0),
];

/// Rules with ink, the descriptor's rule width, and their own length and width.
const INK: [(&str, u32, u16, u16); 8] = [
    ("04E40001", 14, 1, 14),
    ("04E60001", 1, 1, 1),
    ("07E40001FFFFFF", 14, 1, 14),
    ("07E60001FFFFFF", 192, 1, 192),
    ("07E40001000100", 0, 1, 1),
    ("07E60001000100", 0, 1, 1),
    ("07E4000100C000", 0, 1, 192),
    ("07E62FD0000E00", 14, 12_240, 14),
];

/// A job with this rule width, in which suppression 5 hides.
fn job(rule: u32) -> Desk {
    Desk::job(&Descriptor { rule, hidden: 5, ..DESCRIPTOR })
}

#[test]
fn no_ink_no_record() {
    for (rule, width) in NO_INK {
        let mut desk = job(width);
        let before = *desk.state();
        assert_eq!(desk.part(&format!("2BD3{rule}")), answer(0, 1, 0), "{rule} {width}");
        assert_eq!(*desk.state(), before, "{rule} {width}");
        assert!(desk.records.iter().all(|&byte| byte == 0), "{rule} {width}");
    }
}

#[test]
fn the_least_ink_has_a_record() {
    for (rule, default, length, width) in INK {
        let mut desk = job(default);
        assert_eq!(desk.part(&format!("2BD3{rule}")), answer(0, 1, 16), "{rule} {default}");
        let axis = u16::from(hex(rule)[1] == DBR);
        let record = Record::Rule { i: 0, b: 0, axis, colour: 0xFF07, length, width };
        assert_eq!(desk.placed(), [record], "{rule} {default}");
    }
}

#[test]
fn no_ink_needs_no_room() {
    for used in [4_080, 4_081, 4_096] {
        for (rule, width) in NO_INK {
            let mut desk = job(width);
            desk.state().used = used;
            let part = format!("2BD3{rule}").repeat(3);
            assert_eq!(desk.part(&part), answer(0, 3, 0), "{rule} {width} at {used}");
            assert_eq!(desk.state().used, used);
        }
        for (rule, width, ..) in INK {
            let mut desk = job(width);
            desk.state().used = used;
            let expected = if used == 4_080 { answer(0, 1, 16) } else { answer(29, 0, 0) };
            assert_eq!(desk.part(&format!("2BD3{rule}")), expected, "{rule} {width} at {used}");
        }
    }
}

#[test]
fn no_ink_off_the_sheet_is_outside_but_not_while_hidden() {
    for (rule, width) in NO_INK {
        for (i, b) in [(-1, 0), (0, -1), (12_241, 0), (0, 15_841)] {
            let mut desk = job(width);
            let off = State { i: kept(i), b: kept(b), used: 4_096, ..*desk.state() };
            *desk.state() = off;
            assert_eq!(desk.part(&format!("2BD3{rule}")), answer(27, 0, 0), "{rule} at {i} {b}");
            let hidden = format!("2BD303F305{rule}");
            assert_eq!(desk.part(&hidden), answer(0, 2, 0), "{rule} at {i} {b}");
            assert_eq!(*desk.state(), State { suppression: 5, ..off });
        }
    }
}

#[test]
fn the_opposite_corner_of_no_ink_lies_on_the_page_too() {
    for (rule, width) in
        [("07E42FD1000000", 14), ("07E63DE1000000", 14), ("04E42FD1", 0), ("07E63DE1FFFFFF", 0)]
    {
        assert_eq!(job(width).part(&format!("2BD3{rule}")), answer(27, 0, 0), "{rule} {width}");
    }
    for (place, rule) in [("04D33DD3", "04E40000"), ("04C72FC3", "04E60000")] {
        assert_eq!(job(14).part(&format!("2BD3{place}{rule}")), answer(27, 6, 0), "{rule}");
    }
}

#[test]
fn values_are_tested_before_ink() {
    for (rule, at) in [
        ("07E4000000C100", 6),
        ("07E60000000001", 6),
        ("07E40000FFFF00", 6),
        ("07E48000000000", 4),
        ("07E6FFFF000000", 4),
    ] {
        for width in [0, 14] {
            assert_eq!(job(width).part(&format!("2BD3{rule}")), answer(24, at, 0), "{rule}");
        }
    }
}

#[test]
fn records_close_up_around_no_ink() {
    let mut desk = job(14);
    let part = "C1 2BD307E50001000000 04E60000 C2 2BD304E50005 04E40000 C3";
    assert_eq!(desk.part(part), answer(0, 7, 67));
    let kinds: Vec<bool> =
        desk.placed().iter().map(|record| matches!(record, Record::Rule { .. })).collect();
    assert_eq!(kinds, [false, false, true, false]);
}

/// What of a rule is 0, if anything is: a width by how it is given, or the length alone.
fn zero(parameters: &[u8], default: u32) -> Option<&'static str> {
    let (length, width) = parameters.split_at(2);
    match width {
        [] if default == 0 => Some("absent width"),
        [0xFF, 0xFF, 0xFF] if default == 0 => Some("width of all ones"),
        [0, 0, 0] => Some("width"),
        _ => (length == [0, 0]).then_some("length"),
    }
}

/// How often rules with no ink were met: where, of which type, and what of them is 0.
type Met = BTreeMap<(&'static str, u8, &'static str), u32>;

/// Adds the rules with no ink of a part that is accepted, or refused for one of them or for room.
fn meet(given: Case, met: &mut Met) {
    let Case { part, widths, mut area, descriptor, mut state } = given;
    let code = interpret(&part, &widths, &mut area.clone(), &descriptor, &mut state.clone()).code;
    let mut rest = &part[..];
    while let Ok((element, size)) = read(rest, state.chain != 0) {
        let hidden = state.suppression != 0 && state.suppression == descriptor.hidden;
        let full = state.used as usize + HEADER > AREA;
        let placed = interpret(&rest[..size], &widths, &mut area, &descriptor, &mut state);
        let place = match (code, placed.code) {
            (0, _) if hidden => "hidden",
            (0, _) if full => "full",
            (0, _) => "room",
            (29, 0) if full && !hidden => "full, then 29",
            (27, 27) => "outside",
            _ => "elsewhere",
        };
        if let Element::Sequence { function: function @ (DIR | DBR), parameters, .. } = element {
            if let Some(zero) = zero(parameters.bytes, descriptor.rule) {
                assert!(placed.code != 29 && placed.second == 0, "{placed:?}");
                *met.entry((place, function, zero)).or_default() += 1;
            }
        }
        rest = &rest[size..];
        if !placed.is_done() || rest.is_empty() {
            return;
        }
    }
}

/// Each type and each zero at least so often at each place.
fn assert_met(met: &Met, least: [(&'static str, u32); 5]) {
    println!("{met:?}");
    for (place, least) in least {
        for function in [DIR, DBR] {
            for zero in ["length", "width", "absent width", "width of all ones"] {
                let times = met.get(&(place, function, zero));
                assert!(times >= Some(&least), "{place}, {function:X}, {zero}: {times:?}");
            }
        }
    }
}

#[test]
fn direct_calls_meet_every_rule_with_no_ink_often() {
    let mut rng = Rng::new(5);
    let mut met = Met::new();
    for _ in 0..20_000 {
        meet(case(&mut rng), &mut met);
    }
    assert_met(
        &met,
        [("room", 100), ("full", 100), ("hidden", 100), ("full, then 29", 60), ("outside", 10)],
    );
}

#[test]
fn submits_meet_every_rule_with_no_ink_often() {
    let mut met = Met::new();
    for seed in 0..40 {
        let mut requests = Requests::new(seed, Reach::Script);
        for _ in 0..1_000 {
            let Memory { table, widths, .. } = requests.replay().memory().clone();
            let (step, said) = requests.next().expect("endless");
            let (Step::Submit { slot, part, .. }, Said::Answer(answer)) = (step, said) else {
                continue;
            };
            if answer.code == 0 || answer.code >= 20 {
                let Entry { descriptor, state, .. } = table[slot as usize];
                let (widths, area) = (widths[..WIDTHS].to_vec(), vec![0; AREA]);
                meet(Case { part, widths, area, descriptor, state }, &mut met);
            }
        }
    }
    assert_met(
        &met,
        [("room", 50), ("full", 50), ("hidden", 50), ("full, then 29", 20), ("outside", 5)],
    );
}
