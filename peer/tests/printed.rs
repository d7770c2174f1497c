//! What the listing and the replay print.

mod common;

use common::hex;
use peer::replay::{Peer, Replay, Stopped};
use peer::sheet::{EIGHT_LINES, SIX_LINES};

fn replayed(script: &[u8]) -> String {
    let mut out = Vec::new();
    let ran = Replay::new(Peer).run(script, &mut out);
    assert!(matches!(ran, Ok(()) | Err(Stopped::Line { .. })), "memory takes all");
    String::from_utf8(out).expect("plain text")
}

const SHEET: &str = "12240 15840 0 0 0 240 0 0 0 65287 14 0";

/// The listing of a part to which the increment is nothing: the same at both.
fn listing(part: &[u8]) -> String {
    let [eight, six] = [EIGHT_LINES, SIX_LINES].map(|increment| peer::listing(part, increment));
    assert_eq!(eight, six);
    six
}

#[test]
fn the_listing_of_the_paper() {
    let part = hex("2BD304C702D004D201E0C1C2");
    let lines = "PART 12\nT 720 480 0 65287 0 65535 C1C2\nEND 1008 480 3 18\n";
    assert_eq!(listing(&part), lines);
}

#[test]
fn listings_of_rules_and_refusals() {
    assert_eq!(listing(&[]), "PART 0\nEND 0 0 0 0\n");
    assert_eq!(
        listing(&hex("2BD304C9FFFB 05C3000201 04C70064 04DBC1C2 07E6000AFFFFFF")),
        "PART 26\nT 100 0 0 65287 -2 65535 C1C2\nR 384 0 1 65287 10 14\nEND 384 0 5 34\n"
    );
    assert_eq!(
        listing(&hex("2BD304E50000 07E6000A000000 C1 2BD304E40001")),
        "PART 20\nT 0 0 0 65287 0 65535 C1\nR 144 0 0 65287 1 14\nEND 144 0 4 33\n"
    );
    assert_eq!(listing(&hex("2BD304C9FFFB")), "PART 6\nEND -5 0 1 0\n");
    assert_eq!(listing(&hex("C12BC1")), "PART 3\nREFUSED 21 2\n");
    assert_eq!(listing(&hex("2BD304C68000")), "PART 6\nREFUSED 24 4\n");
    assert_eq!(listing(&hex("2BD302D9 06F7FFFF0000")), "PART 10\nREFUSED 24 8\n");
    assert_eq!(listing(&hex("2BD304C72F41 03DAC1")), "PART 9\nREFUSED 27 6\n");
    assert_eq!(listing(&[0x2B; 8_193]), "PART 8193\nREFUSED 19 0\n");
    assert_eq!(listing(&[0x2B; 9_000]), "PART 8193\nREFUSED 19 0\n");
}

#[test]
fn lines_are_listed_at_their_increment() {
    let part = hex("C1 2BD302D8 C2 2BD302D9 04E40005");
    for (increment, first, second) in [(180, 180, 360), (240, 240, 480), (0, 0, 0)] {
        let lines = format!(
            "PART 14\nT 0 0 0 65287 0 65535 C1\nT 0 {first} 0 65287 0 65535 C2\n\
             R 0 {second} 0 65287 5 14\nEND 0 {second} 5 50\n"
        );
        assert_eq!(peer::listing(&part, increment), lines, "{increment}");
    }
}

#[test]
fn the_last_line_of_a_sheet_is_listed_and_the_one_after_it_refused() {
    for (increment, last) in [(180, 88), (240, 66)] {
        let lines = |count: usize| [hex("2BD302D8").repeat(count), hex("C1")].concat();
        let (elements, read) = (last + 1, 4 * last + 1);
        let listed =
            format!("PART {read}\nT 0 15840 0 65287 0 65535 C1\nEND 144 15840 {elements} 17\n");
        assert_eq!(peer::listing(&lines(last), increment), listed);
        let refused = format!("PART {}\nREFUSED 27 {}\n", read + 4, read + 3);
        assert_eq!(peer::listing(&lines(last + 1), increment), refused);
    }
}

#[test]
fn a_listing_at_an_increment_out_of_range() {
    assert_eq!(peer::listing(&hex("2BD302D8"), 32_767), "PART 4\nEND 0 32767 1 0\n");
    assert_eq!(peer::listing(&hex("2BD302D8"), 32_768), "PART 4\nREFUSED 15 0\n");
    assert_eq!(peer::listing(&[0; 9_000], 32_768), "PART 8193\nREFUSED 15 0\n");
}

#[test]
fn a_tenant_that_retries() {
    let script = b"open 3 17 12240 15840 0 0 0 240 0 0 0 65287 14 0
submit 3 17 1 2BD304C702D004D201E0C1C2
submit 3 17 1 2BD304C702D004D201E0C1C2
show 3
";
    let printed = "0 0 0
0 3 18
1 0 0
JOB 17 1 12240 15840 0 0 0 240 0 0 0 65287 14 0 1008 480 0 240 0 0 0 65287 65535 0 0 2 18 0
T 720 480 0 65287 0 65535 C1C2
END
";
    assert_eq!(replayed(script), printed);
}

#[test]
fn a_bad_line_ends_the_run() {
    assert_eq!(replayed(b""), "");
    assert_eq!(
        replayed(b"count\n\n# said\ncount\nCount\ncount\n"),
        "COUNT 0\nCOUNT 0\nBAD LINE 5\n"
    );
    assert_eq!(replayed(b"count\ncount"), "COUNT 0\nBAD LINE 2\n");
    assert_eq!(replayed(b"# \xFF\xFE\n\xFF\n"), "BAD LINE 2\n");
    assert_eq!(replayed(b"count\r\n"), "BAD LINE 1\n");
}

#[test]
fn lent_lengths_and_memory() {
    let script = format!(
        "fill 171\nopen 0 1 {SHEET}\nlend 15 65536 1024\ncount\nclose 0 1\nlend 16 65535 1024\n\
         submit 0 1 1 -\nlend 16 65536 1023\nsubmit 0 1 1 -\ndirect 0 -\nlend 0 0 1024\n\
         direct 0 c1\nlend 16 65536 1024\ncount\nbytes 0 15 18\nbytes 0 4096 4096\nfresh\n\
         count\nbytes 0 15 18\nshow 0\n"
    );
    let printed = "0 0 0\nCOUNT 0\n10 0 0\n10 0 0\n10 0 0\n10 0 0\n0 1 17\nCOUNT 1\nFFC1AB\n-\n\
                   COUNT 0\nFFC1AB\n\
                   JOB 0 0 0 0 0 0 0 0 0 0 0 0 0 0 0 0 0 0 0 0 0 0 65535 0 0 1 0 0\nEND\n";
    assert_eq!(replayed(script.as_bytes()), printed);
}

#[test]
fn the_stored_number_is_lent_to_open_and_close_alone() {
    let script = format!(
        "stored\nopen 0 1 {SHEET}\nstored\nset 1 9 1 {SHEET} 0 0 0 0 0 0 0 0 65535 0 0 1 0\n\
         count\nstored\nstored 4294967295\nsubmit 0 1 1 C1\ndirect 0 C1\ncheck C1\nopen 2 1 {SHEET}\n\
         close 0 1\nclose 3 1\nstored\nstored 0016\nclose 0 1\nstored\nlend 17 65536 1024\n\
         open 2 1 {SHEET}\ncount\nstored\nlend 16 65536 1024\nfill 7\nwidths 1\nstored\nfresh\n\
         stored\n"
    );
    let printed = "STORED 0\n0 0 0\nSTORED 1\nCOUNT 2\nSTORED 1\n0 1 17\n0 1 17\nCHECK 0\n\
                   32 0 0\n32 0 0\n16 0 0\nSTORED 4294967295\n0 0 0\nSTORED 15\n10 0 0\n\
                   COUNT 0\nSTORED 15\nSTORED 15\nSTORED 0\n";
    assert_eq!(replayed(script.as_bytes()), printed);
}

#[test]
fn widths_change_by_font_and_code_point() {
    let script = format!(
        "widths 10\nwidth 1 193 7\nopen 0 1 {SHEET}\ndirect 0 C1\ndirect 0 2BD303F001C1\n\
         set 1 9 0 {SHEET} -32768 32767 1 2 3 4 5 6 7 8 1 4294967295 65535\nshow 0\nshow 1\n"
    );
    let printed = format!(
        "0 0 0\n0 1 17\n0 2 17\n\
         JOB 1 1 {SHEET} 17 0 0 240 0 0 1 65287 65535 0 0 1 34 0\n\
         T 0 0 0 65287 0 65535 C1\nT 10 0 1 65287 0 65535 C1\nEND\n\
         JOB 9 0 {SHEET} -32768 32767 1 2 3 4 5 6 7 8 1 4294967295 65535 0\nEND\n"
    );
    assert_eq!(replayed(script.as_bytes()), printed);
}

#[test]
fn records_are_shown_up_to_used_or_to_where_they_stop_being_whole() {
    let set = |used: u32| format!("set 0 1 1 {SHEET} 0 0 0 240 0 0 0 65287 65535 0 0 1 {used}\n");
    let script = format!(
        "open 0 1 {SHEET}\ndirect 0 C1\ndirect 0 2BD304E40005\n{}show 0\n{}show 0\n{}show 0\n",
        set(32),
        set(17),
        set(4_097)
    );
    let text = "T 0 0 0 65287 0 65535 C1\n";
    let rule = "R 144 0 0 65287 5 14\n";
    let shown: Vec<String> = replayed(script.as_bytes())
        .split_inclusive("END\n")
        .map(|lines| {
            lines
                .lines()
                .skip_while(|l| !l.starts_with("JOB"))
                .skip(1)
                .map(|l| l.to_owned() + "\n")
                .collect()
        })
        .collect();
    assert_eq!(
        shown,
        [format!("{text}END\n"), format!("{text}END\n"), format!("{text}{rule}END\n")]
    );
}

#[test]
fn checks_print_their_code_and_look_at_nothing_that_is_lent() {
    let at_foot = "2BD304D33D2C02D8C1";
    let script = format!(
        "check {at_foot}\ncheck-at 180 {at_foot}\ncheck-at 240 {at_foot}\n\
         check-at 4294967295 {at_foot}\ncheck -\ncheck-at 0 2b\nwidths 65535\nfill 171\n\
         lend 0 0 0\nset 0 1 1 {SHEET} 0 0 0 240 0 0 0 65287 65535 5 1 1 4096\n\
         check c1\ncheck-at 240 C1\nbytes 0 0 2\nlend 16 65536 1024\ncount\n"
    );
    let printed = "CHECK 0\nCHECK 0\nCHECK 27\nCHECK 15\nCHECK 0\nCHECK 20\nCHECK 0\n\
                   CHECK 0\nABAB\nCOUNT 1\n";
    assert_eq!(replayed(script.as_bytes()), printed);
}
