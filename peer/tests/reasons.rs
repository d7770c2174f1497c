//! What is said of a bad line.

use peer::replay::{Peer, Replay};

const D: &str = "1 2 3 4 5 6 7 8 9 10 11 12";
const D_NAMES: &str =
    "SIZE-I SIZE-B INITIAL-I INITIAL-B MARGIN INCREMENT ADJUSTMENT DIRECTION FONT COLOUR \
                       RULE HIDDEN";
const FIRST: &str =
    "widths, width, fill, fresh, lend, open, submit, take, close, count, stored, direct, check, \
     check-at, set, show, bytes";

/// What stopped a script that has this as its second line.
fn reason(line: &[u8]) -> String {
    let script = [b"count\n", line].concat();
    let mut out = Vec::new();
    let stopped = Replay::new(Peer).run(&script[..], &mut out).expect_err("a bad line");
    assert_eq!(out, b"COUNT 0\nBAD LINE 2\n");
    stopped.to_string().strip_prefix("line 2: ").expect("the line's number").to_string()
}

fn check(rows: &[(&str, &str)]) {
    for (line, said) in rows {
        assert_eq!(reason(format!("{line}\n").as_bytes()), *said, "{line:?}");
    }
}

#[test]
fn first_words() {
    check(&[
        ("bad", &format!("no line begins with \"bad\"; the first words are {FIRST}")),
        (
            "check_at 180 C1",
            &format!("no line begins with \"check_at\"; the first words are {FIRST}"),
        ),
        ("Count", "\"Count\" is written count"),
        ("CHECK C1", "\"CHECK\" is written check"),
        ("Check-At 180 C1", "\"Check-At\" is written check-at"),
        ("STORED 3", "\"STORED\" is written stored"),
        ("SUBMIT 0 1 1 C1", "\"SUBMIT\" is written submit"),
        ("fresh#", &format!("no line begins with \"fresh#\"; the first words are {FIRST}")),
    ]);
}

#[test]
fn spaces_and_line_ends() {
    check(&[
        (" ", "a space at its start"),
        (" count", "a space at its start"),
        ("count ", "a space at its end"),
        ("submit 0 1 1 ", "a space at its end"),
        ("close  0 1", "two spaces after word 1"),
        ("close 0  1", "two spaces after word 2"),
        ("close\t0 1", "a tab; between two words stands one space"),
        ("count\r", "a carriage return at its end; a newline alone ends a line"),
    ]);
    for line in [&b"count"[..], b"#", b"# said", b"bad"] {
        assert_eq!(reason(line), "no newline at its end, and the last line needs one too");
    }
}

#[test]
fn too_few_and_too_many_words() {
    let entry =
        "I B MARGIN INCREMENT ADJUSTMENT DIRECTION FONT COLOUR SPACE SUPPRESSION CHAIN NEXT USED \
         [TAKEN]";
    let set = format!("set S KEY OPEN {D_NAMES} {entry}");
    let long = format!("set 0 1 0 {D} 0 0 1 2 3 4 5 6 7 8 0 9 0 1 2");
    check(&[
        ("count 1", "too many words, 2 and not 1: count"),
        ("close 0", "too few words, 2 and not 3: close S K"),
        ("submit 0 1 1", "too few words, 4 and not 5: submit S K N HEX"),
        ("submit 0 1 1 2B D3", "too many words, 6 and not 5: submit S K N HEX"),
        ("bytes x", "too few words, 2 and not 4: bytes S FROM TO"),
        ("check", "too few words, 1 and not 2: check HEX"),
        ("check 180 C1", "too many words, 3 and not 2: check HEX"),
        ("check-at C1", "too few words, 2 and not 3: check-at N HEX"),
        ("check-at 180", "too few words, 2 and not 3: check-at N HEX"),
        ("check-at 180 2B D3", "too many words, 4 and not 3: check-at N HEX"),
        ("stored 1 2", "too many words, 3 and not 1 or 2: stored, or stored N"),
        ("stored N 1 2", "too many words, 4 and not 1 or 2: stored, or stored N"),
        ("open 0 1", &format!("too few words, 3 and not 15: open S K {D_NAMES}")),
        ("take 0 1", "too few words, 3 and not 4: take S K TOTAL"),
        ("take 0 1 17 0", "too many words, 5 and not 4: take S K TOTAL"),
        ("set 0", &format!("too few words, 2 and not 29 or 30: {set}")),
        (&long, &format!("too many words, 31 and not 29 or 30: {set}")),
    ]);
}

#[test]
fn numbers() {
    let nines = "9".repeat(24);
    check(&[
        ("close x 1", "word 2, S, is no number: \"x\""),
        ("close 0 0x1", "word 3, K, is no number: \"0x1\""),
        ("close 0 -", "word 3, K, is no number: \"-\""),
        ("close 0 --1", "word 3, K, is no number: \"--1\""),
        ("close 0 \u{663}", "word 3, K, is no number: \"\\xd9\\xa3\""),
        ("close 0 +1", "word 3, K, has a sign: +1; only I and B may have one, a minus"),
        ("fill -0", "word 2, N, has a sign: -0; only I and B may have one, a minus"),
        ("close 4294967296 0", "word 2, S, is 4294967296; it may be 0 to 4294967295"),
        ("submit 0 1 4294967296 -", "word 4, N, is 4294967296; it may be 0 to 4294967295"),
        (
            &format!("close 0 {nines}9"),
            &format!("word 3, K, is {nines}.. (25 bytes); it may be 0 to 4294967295"),
        ),
        ("check-at C1 180", "word 2, N, is no number: \"C1\""),
        ("check-at -1 C1", "word 2, N, has a sign: -1; only I and B may have one, a minus"),
        ("check-at 4294967296 -", "word 2, N, is 4294967296; it may be 0 to 4294967295"),
        ("take 0 1 x", "word 4, TOTAL, is no number: \"x\""),
        ("take 0 1 -1", "word 4, TOTAL, has a sign: -1; only I and B may have one, a minus"),
        (
            "take 0 1 18446744073709551616",
            "word 4, TOTAL, is 18446744073709551616; it may be 0 to 18446744073709551615",
        ),
        ("take 4294967296 1 0", "word 2, S, is 4294967296; it may be 0 to 4294967295"),
        ("stored x", "word 2, N, is no number: \"x\""),
        ("stored -1", "word 2, N, has a sign: -1; only I and B may have one, a minus"),
        ("stored 4294967296", "word 2, N, is 4294967296; it may be 0 to 4294967295"),
        ("widths 65536", "word 2, N, is 65536; it may be 0 to 65535"),
        ("width 4 0 0", "word 2, F, is 4; it may be 0 to 3"),
        ("width 0 256 0", "word 3, C, is 256; it may be 0 to 255"),
        ("fill 256", "word 2, N, is 256; it may be 0 to 255"),
        ("lend 21 0 0", "word 2, T, is 21; it may be 0 to 20"),
        ("lend 0 0 1029", "word 4, W, is 1029; it may be 0 to 1028"),
        ("open 0 1 1 2 3 4 5 6 7 8 nine 10 11 12", "word 12, FONT, is no number: \"nine\""),
    ]);
}

#[test]
fn slots_and_areas() {
    let set = format!("set 99999999999999999999 1 1 {D} 0 0 1 2 3 4 5 6 7 8 0 9 0");
    check(&[
        ("show 16", "slot 16, and there are slots 0 to 15 only"),
        ("direct 16 -", "slot 16, and there are slots 0 to 15 only"),
        ("bytes 4294967296 0 0", "slot 4294967296, and there are slots 0 to 15 only"),
        (&set, "slot 99999999999999999999, and there are slots 0 to 15 only"),
        ("show -1", "word 2, S, has a sign: -1; only I and B may have one, a minus"),
        ("bytes 0 2 1", "FROM 2 is above TO 1"),
        ("bytes 0 0 4097", "word 4, TO, is 4097; it may be 0 to 4096"),
        ("bytes 0 4097 4096", "word 3, FROM, is 4097; it may be 0 to 4096"),
    ]);
}

#[test]
fn entries() {
    let set = |open: &str, i: &str, chain: &str, used: &str| {
        format!("set 0 1 {open} {D} {i} 0 1 2 3 4 5 6 7 8 {chain} 9 {used}")
    };
    check(&[
        (&set("2", "0", "0", "0"), "word 4, OPEN, is 2; it may be 0 or 1"),
        (&set("0", "-32769", "0", "0"), "word 17, I, is -32769; it may be -32768 to 32767"),
        (&set("0", "32768", "0", "0"), "word 17, I, is 32768; it may be -32768 to 32767"),
        (&set("0", "-", "0", "0"), "word 17, I, is no number: \"-\""),
        (
            &set("0", "+1", "0", "0"),
            "word 17, I, has a sign: +1; only I and B may have one, a minus",
        ),
        (&set("0", "0", "2", "0"), "word 27, CHAIN, is 2; it may be 0 or 1"),
        (&set("0", "0", "0", "65536"), "word 29, USED, is 65536; it may be 0 to 65535"),
        (&set("0", "0", "0", "65536 0"), "word 29, USED, is 65536; it may be 0 to 65535"),
        (
            &set("0", "0", "0", "0 4294967296"),
            "word 30, TAKEN, is 4294967296; it may be 0 to 4294967295",
        ),
        (&set("0", "0", "0", "0 x"), "word 30, TAKEN, is no number: \"x\""),
        (
            &set("0", "0", "0", "0 -1"),
            "word 30, TAKEN, has a sign: -1; only I and B may have one, a minus",
        ),
    ]);
}

#[test]
fn hex() {
    check(&[
        ("direct 0 2", "word 3, HEX, has an odd number of hex digits: 1"),
        ("submit 0 1 1 2BD", "word 5, HEX, has an odd number of hex digits: 3"),
        ("check 2BD", "word 2, HEX, has an odd number of hex digits: 3"),
        ("check-at 180 C1-", "word 3, HEX, has \"-\" as its digit 3, which is no hex digit"),
        ("direct 0 2BG", "word 3, HEX, has \"G\" as its digit 3, which is no hex digit"),
        ("direct 0 0x2B", "word 3, HEX, has \"x\" as its digit 2, which is no hex digit"),
        ("direct 0 --", "word 3, HEX, has \"-\" as its digit 1, which is no hex digit"),
        ("direct 0 2é", "word 3, HEX, has \"\\xc3\\xa9\" as its digit 2, which is no hex digit"),
    ]);
}

#[test]
fn bytes_that_are_no_text_are_shown_plain_and_cut() {
    assert_eq!(reason(b"count\xFF\xFE\n"), "no text (UTF-8) from byte 6 on: \"\\xff\\xfe\"");
    assert_eq!(reason(b"\xC3\n"), "no text (UTF-8) from byte 1 on: \"\\xc3\"");
    let long = reason(&[&[0xFF; 1 << 20][..], b"\n"].concat());
    let shown = "\\xff".repeat(24);
    assert_eq!(long, format!("no text (UTF-8) from byte 1 on: \"{shown}.. (1048576 bytes)\""));
    let escape = reason(b"co\x1B[2Junt\n");
    assert!(escape.starts_with("no line begins with \"co\\x1b[2Junt\"; "), "{escape}");
}
