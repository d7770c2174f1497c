//! Parts that a composer outside this project wrote.

mod common;

use std::fs;
use std::path::PathBuf;

use common::{Desk, DESCRIPTOR};
use peer::record::Record;

fn file(name: &str) -> PathBuf {
    PathBuf::from(env!("CARGO_MANIFEST_DIR")).join("../tests/real").join(name)
}

fn part(name: &str) -> Vec<u8> {
    fs::read(file(name)).expect("a part")
}

/// The page's own widths.
fn widths(name: &str) -> Vec<u16> {
    let text = fs::read_to_string(file(name)).expect("widths");
    text.split_whitespace().map(|word| word.parse().expect("a width")).collect()
}

/// The text of a page, one record after the other, as far as it is letters and digits.
fn letters(desk: &Desk) -> String {
    let letter = |code_point: u8| match code_point {
        0x40 => ' ',
        0xC1..=0xC9 => char::from(b'A' + (code_point - 0xC1)),
        0xD1..=0xD9 => char::from(b'J' + (code_point - 0xD1)),
        0xE2..=0xE9 => char::from(b'S' + (code_point - 0xE2)),
        0xF0..=0xF9 => char::from(b'0' + (code_point - 0xF0)),
        _ => '.',
    };
    let texts = desk.placed();
    let texts = texts.iter().filter_map(|record| match record {
        Record::Text { characters, .. } => Some(*characters),
        Record::Rule { .. } => None,
    });
    texts.flatten().map(|&code_point| letter(code_point)).collect()
}

#[test]
fn pages_as_written_are_accepted() {
    for (name, own_widths) in [
        ("payroll-p01o01x01.part", Some("payroll-p01.widths")),
        ("c-letter-p01o01x01.part", Some("c-letter-p01.widths")),
        ("c-table-p01o01x01.part", Some("c-table-p01.widths")),
        ("c-boxes-p01o01x01.part", None),
    ] {
        let mut desk = Desk::job(&DESCRIPTOR);
        if let Some(own) = own_widths {
            desk.widths = widths(own);
        }
        let answer = desk.submit(0, 1, 1, &part(name));
        assert_eq!(answer.code, 0, "{name}: {answer:?}");
        assert!(answer.first > 20 && answer.second > 400, "{name}: {answer:?}");
        assert_eq!(desk.state().used, answer.second);
        assert_eq!(desk.state().chain, 0, "{name}");
    }
}

#[test]
fn a_payroll_reads_as_a_payroll() {
    let mut desk = Desk::job(&DESCRIPTOR);
    desk.widths = widths("payroll-p01.widths");
    desk.submit(0, 1, 1, &part("payroll-p01o01x01.part"));
    let text = letters(&desk);
    assert!(text.starts_with("PAYROLL RUN 11.2023"), "{text}");
    assert!(text.ends_with("END OF RUN"), "{text}");
}

#[test]
fn one_job_in_two_parts_with_the_chain_open_between() {
    let (first, second) = (part("marks48-p01o01x01.pad.part"), part("marks48-p01o01x02.pad.part"));
    assert_eq!((first.len(), second.len()), (8_192, 845));
    let mut desk = Desk::job(&DESCRIPTOR);
    assert_eq!(desk.submit(0, 1, 1, &first).code, 0);
    assert_eq!(desk.state().chain, 1);
    assert_eq!(desk.submit(0, 1, 2, &second).code, 0);
    assert_eq!(desk.state().chain, 0);
}

#[test]
fn a_full_page_needs_more_than_one_area() {
    let mut desk = Desk::job(&DESCRIPTOR);
    desk.widths = widths("statement-p01.widths");
    let answer = desk.submit(0, 1, 1, &part("statement-p01o01x01.part"));
    assert_eq!(answer.code, 29, "{answer:?}");
    assert!(desk.records.iter().all(|&byte| byte == 0));
}
