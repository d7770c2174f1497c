//! The programs that run scripts and list parts: their status, and what they say on standard error.

use std::fs::File;
use std::io::Write;
use std::process::{Command, Output, Stdio};

const PROGRAM: &str = env!("CARGO_BIN_EXE_replay_peer");
const LISTING: &str = env!("CARGO_BIN_EXE_listing_peer");

fn run(script: &[u8]) -> Output {
    fed(&mut Command::new(PROGRAM), script)
}

fn list(words: &[&str], part: &[u8]) -> Output {
    fed(Command::new(LISTING).args(words), part)
}

fn fed(program: &mut Command, input: &[u8]) -> Output {
    let mut child = program
        .stdin(Stdio::piped())
        .stdout(Stdio::piped())
        .stderr(Stdio::piped())
        .spawn()
        .expect("the program");
    // A program may end before it has read all, so this may fail.
    let _ = child.stdin.take().expect("a pipe").write_all(input);
    child.wait_with_output().expect("its end")
}

fn said(output: &Output) -> (Option<i32>, &str, &str) {
    let text = |bytes| std::str::from_utf8(bytes).expect("plain text");
    (output.status.code(), text(&output.stdout), text(&output.stderr))
}

/// The program as a shell starts it.
fn shell(command: &str) -> Output {
    Command::new("sh")
        .args(["-c", &format!("exec \"$0\" {command}"), PROGRAM])
        .output()
        .expect("sh")
}

#[test]
fn a_script_that_runs() {
    assert_eq!(said(&run(b"")), (Some(0), "", ""));
    assert_eq!(said(&run(b"count\nclose 0 1\n")), (Some(0), "COUNT 0\n16 0 0\n", ""));
}

#[test]
fn a_bad_line() {
    let output = run(b"count\n# a slot too many\nshow 16\ncount\n");
    let why = "replay_peer: line 3: slot 16, and there are slots 0 to 15 only\n";
    assert_eq!(said(&output), (Some(1), "COUNT 0\nBAD LINE 3\n", why));
}

#[test]
fn input_that_fails() {
    let why = "replay_peer: the script can't be read: ";
    for input in ["<.", "0>/dev/null"] {
        let output = shell(input);
        let (status, out, error) = said(&output);
        assert_eq!((status, out), (Some(1), ""), "{input}");
        assert!(error.starts_with(why) && error.lines().count() == 1, "{input}: {error}");
    }
    assert_eq!(said(&shell("</dev/null")), (Some(0), "", ""));
}

#[test]
fn output_that_fails() {
    let why = "replay_peer: the output can't be written: ";
    for script in ["count", "bad"] {
        let full = File::options().write(true).open("/dev/full").expect("/dev/full");
        let command = format!("printf '{script}\\n' | {PROGRAM}");
        let output = Command::new("sh").args(["-c", &command]).stdout(full).output().expect("sh");
        let (status, _, error) = said(&output);
        assert_eq!(status, Some(1), "{script}");
        assert!(error.starts_with(why) && error.lines().count() == 1, "{script}: {error}");
    }
}

#[test]
fn a_reason_that_can_not_be_written_leaves_the_status() {
    let output = Command::new("sh")
        .args(["-c", &format!("printf 'bad\\n' | {PROGRAM} 2>/dev/full")])
        .output()
        .expect("sh");
    assert_eq!(said(&output), (Some(1), "BAD LINE 1\n", ""));
}

/// A new line, and a character.
const LINE: &[u8] = b"\x2B\xD3\x02\xD8\xC1";

#[test]
fn a_part_is_listed_at_180_or_at_the_increment_given() {
    let listed = |b: u32| format!("PART 5\nT 0 {b} 0 65287 0 65535 C1\nEND 144 {b} 2 17\n");
    for (words, b) in [
        (&[][..], 180),
        (&["180"], 180),
        (&["240"], 240),
        (&["0"], 0),
        (&["00240"], 240),
        (&["15840"], 15_840),
    ] {
        assert_eq!(said(&list(words, LINE)), (Some(0), &listed(b)[..], ""), "{words:?}");
    }
}

#[test]
fn a_refusal_is_a_listing_too() {
    let refused = "PART 5\nREFUSED 27 4\n";
    for increment in ["15841", "32767"] {
        assert_eq!(said(&list(&[increment], LINE)), (Some(0), refused, ""), "{increment}");
    }
    let long = (Some(0), "PART 8193\nREFUSED 19 0\n", "");
    assert_eq!(said(&list(&[], &[0xC1; 8_193])), long);
    assert_eq!(said(&list(&["240"], &[0xC1; 100_000])), long);
}

#[test]
fn words_that_are_no_increment() {
    for word in ["32768", "65716", "4294967296", "99999999999999999999", "", "x", "-1", "+240"]
        .into_iter()
        .chain(["240 ", "0xF0", "2.4e2", "--help"])
    {
        let why = format!("listing_peer: the increment is \"{word}\"; it may be 0 to 32767\n");
        assert_eq!(said(&list(&[word], LINE)), (Some(2), "", &why[..]), "{word:?}");
    }
    let plain = "listing_peer: the increment is \"\\xc3\\xa9\\n\"; it may be 0 to 32767\n";
    assert_eq!(said(&list(&["\u{e9}\n"], LINE)), (Some(2), "", plain));
    let many = "listing_peer: 2 words; there may be one, the increment\n";
    assert_eq!(said(&list(&["240", "240"], LINE)), (Some(2), "", many));
}

#[test]
fn a_listing_whose_input_or_output_fails() {
    for redirected in ["<.", "</dev/null >/dev/full"] {
        let output = Command::new("sh")
            .args(["-c", &format!("exec {LISTING} {redirected}")])
            .output()
            .expect("sh");
        let (status, out, error) = said(&output);
        assert_eq!((status, out), (Some(1), ""), "{redirected}");
        assert!(error.starts_with("listing_peer: ") && error.lines().count() == 1, "{error}");
    }
}
