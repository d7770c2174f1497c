//! Replay scripts as text: what odd lines say, and that both hubs print the same to any bytes.

use peer::generate::{Reach, Requests, Rng};
use peer::replay::{Backend, Peer, Replay};

use crate::difference::Difference;

/// Steps of one seed's script.
const STEPS: usize = 60;
/// Times that a seed's script is spoilt.
const SPOILT: usize = 6;

const OPEN: &str = "open 0 1 12240 15840 0 0 0 240 0 0 0 65287 14 0\n";
const SET: &str = "set 0 1 1 9 9 0 0 0 0 0 0 0 0 0 0";

/// Lines that are bad, and end a run.
const BAD: [&str; 56] = [
    " ",
    "bad",
    "Count",
    "count\r",
    "count ",
    " count",
    "\0",
    "close\t0 1",
    "close 0  1",
    "close 0 +1",
    "close 0 -0",
    "close 0 1 \0",
    "close 0 \u{663}",
    "close 4294967296 0",
    "close 0 18446744073709551616",
    "close 0 99999999999999999999999999999999999999999",
    "submit 0 1 1 2",
    "submit 0 1 1 ",
    "submit 0 1 1 2G",
    "take",
    "take 0 1",
    "take 0 1 2 3",
    "Take 0 1 2",
    "take 0 1 -1",
    "take 0 1 -",
    "take 0 4294967296 1",
    "take 0 1 18446744073709551616",
    "show 16",
    "direct 16 -",
    "check",
    "check 180 C1",
    "check 2",
    "Check C1",
    "check_at 180 C1",
    "check-at 180",
    "check-at C1",
    "check-at -1 C1",
    "check-at 4294967296 C1",
    "Stored",
    "stored -1",
    "stored +0",
    "stored 4294967296",
    "stored 1 2",
    "stored -",
    "stored ",
    "bytes 0 1 0",
    "bytes 0 0 4097",
    "widths 65536",
    "fill 256",
    "width 0 256 1",
    "lend 21 0 0",
    "set 0 1 1 9 9 0 0 0 0 0 0 0 0 0 0 0 0 0 0 0 0 0 0 65535 0 2 1 0",
    "set 0 1 1 9 9 0 0 0 0 0 0 0 0 0 0 0 0 0 0 0 0 0 0 65535 0 0 1 0 4294967296",
    "set 0 1 1 9 9 0 0 0 0 0 0 0 0 0 0 0 0 0 0 0 0 0 0 65535 0 0 1 0 -0",
    "set 0 1 1 9 9 0 0 0 0 0 0 0 0 0 0 0 0 0 0 0 0 0 0 65535 0 0 1 0 0 0",
    "set 0 1 1 9 9 0 0 0 0 0 0 0 0 0 0 -32769 0 0 0 0 0 0 0 65535 0 0 1 0",
];

/// Checks of a part far too long, the last at an increment that is refused before that is seen.
fn checks() -> String {
    let part = "C1".repeat(1 << 21);
    format!("check {part}\ncheck-at 32767 {part}\ncheck-at 32768 {part}\n")
}

/// The stored number, said and met; a number may have zeros before it.
fn stored() -> [(String, &'static str); 5] {
    [
        (
            "stored\nstored 4294967295\nstored\nfresh\nstored\n".to_string(),
            "STORED 0\nSTORED 4294967295\nSTORED 0\n",
        ),
        (
            format!("stored 0015\n{OPEN}stored\nclose 0 1\nstored\n"),
            "0 0 0\nSTORED 16\n0 0 0\nSTORED 15\n",
        ),
        (format!("stored 16\n{OPEN}stored\n"), "32 0 0\nSTORED 16\n"),
        (
            format!("stored 4294967295\n{OPEN}close 0 1\nstored\n"),
            "32 0 0\n16 0 0\nSTORED 4294967295\n",
        ),
        (
            format!("{OPEN}stored 0\nclose 0 1\nstored 17\nclose 0 1\nstored\n"),
            "0 0 0\n32 0 0\n32 0 0\nSTORED 17\n",
        ),
    ]
}

/// Takes, and what an entry is told to have taken.
fn takes() -> [(String, String); 5] {
    let set = |taken: &str| format!("{SET} 0 0 0 0 0 0 0 0 65535 0 0 1 0{taken}\nshow 0\n");
    let job = "JOB 1 1 9 9 0 0 0 0 0 0 0 0 0 0 0 0 0 0 0 0 0 0 65535 0 0 1 0";
    let part = "submit 0 1 1 C12BD302D8C2\n";
    [
        ("take 0 1 0\ntake 16 1 18446744073709551615\n".into(), "16 0 0\n11 0 0\n".into()),
        (
            format!("{OPEN}take 0 1 0\ntake 0 1 1\ntake 0 1 18446744073709551615\n"),
            "0 0 0\n1 0 0\n30 0 0\n30 0 0\n".into(),
        ),
        (
            format!("{OPEN}{part}take 0 1 16\ntake 0 1 0017\ntake 0 1 17\ntake 0 1 34\nbytes 0 16 18\n"),
            "0 0 0\n0 3 34\n30 0 0\n0 0 0\n1 0 0\n0 0 0\nC211\n".into(),
        ),
        (
            format!("{OPEN}{part}take 0 1 4294967313\nlend 16 65535 1024\ntake 0 1 17\nlend 16 65536 0\ntake 0 1 17\n"),
            "0 0 0\n0 3 34\n30 0 0\n10 0 0\n0 0 0\n".into(),
        ),
        (
            [set(""), set(" 0"), set(" 4294967295")].concat(),
            format!("{job} 0\nEND\n{job} 0\nEND\n{job} 4294967295\nEND\n"),
        ),
    ]
}

/// Scripts and what they print.
fn rows() -> Vec<(Vec<u8>, String)> {
    let row = |script: &str, out: &str| (script.as_bytes().to_vec(), out.to_string());
    let mut rows: Vec<_> = BAD
        .iter()
        .map(|line| row(&format!("count\n{line}\ncount\n"), "COUNT 0\nBAD LINE 2\n"))
        .collect();
    rows.extend(stored().iter().map(|(script, out)| row(script, out)));
    rows.extend(takes().iter().map(|(script, out)| row(script, out)));
    rows.extend([
        row("", ""),
        row("\n\n# any words\n#\ncount\n", "COUNT 0\n"),
        row("count", "BAD LINE 1\n"),
        row("count\ncount", "COUNT 0\nBAD LINE 2\n"),
        row("# no newline", "BAD LINE 1\n"),
        row("close 0000000000000000000000000000000015 01\n", "16 0 0\n"),
        row("close 4294967295 4294967295\n", "11 0 0\n"),
        row("submit 0 1 1 2b\n", "16 0 0\n"),
        row("bytes 0 0 0\nbytes 15 4096 4096\n", "-\n-\n"),
        row("check -\ncheck 2b\ncheck-at 00240 c1\n", "CHECK 0\nCHECK 20\nCHECK 0\n"),
        row("check-at 32767 -\ncheck-at 32768 -\n", "CHECK 0\nCHECK 15\n"),
        row("check-at 4294967295 2B\n", "CHECK 15\n"),
        row(&checks(), "CHECK 19\nCHECK 19\nCHECK 15\n"),
        row("lend 20 65540 1028\ncount\nclose 0 1\n", "COUNT 0\n10 0 0\n"),
        row("lend 0 0 0\nsubmit 0 1 1 -\ndirect 0 -\n", "10 0 0\n10 0 0\n"),
        row(&format!("{SET} -0 -007 0 0 0 0 0 0 65535 0 0 1 0\ncount\n"), "COUNT 1\n"),
        row(&format!("{OPEN}fresh\ncount\n"), "0 0 0\nCOUNT 0\n"),
        row(&format!("{OPEN}submit 0 1 1 -\nsubmit 0 1 1 c1\n"), "0 0 0\n0 0 0\n1 0 0\n"),
        row(&format!("{OPEN}submit 0 1 1 {}\n", "C1".repeat(1 << 21)), "0 0 0\n19 0 0\n"),
        row(&format!("count{}\n", " ".repeat(1 << 22)), "BAD LINE 1\n"),
        row(&format!("close 0 {}1\n", "0".repeat(1 << 20)), "16 0 0\n"),
        (b"# \xFF\xFE\x80\ncount\n".to_vec(), "COUNT 0\n".to_string()),
        (b"count\n\xFFcount\n".to_vec(), "COUNT 0\nBAD LINE 2\n".to_string()),
    ]);
    rows
}

/// What a script prints, and what stopped it, if anything did.
pub fn printed<B: Backend>(hub: B, script: &[u8]) -> (Vec<u8>, String) {
    let mut out = Vec::new();
    let ran = Replay::new(hub).run(script, &mut out);
    (out, ran.err().map_or(String::new(), |stopped| stopped.to_string()))
}

/// Runs the rows; the number of them, or what differs.
pub fn odd_lines<B: Backend + Clone>(hub: &B) -> Result<usize, String> {
    let rows = rows();
    for (at, (script, out)) in rows.iter().enumerate() {
        let (got, why) = printed(hub.clone(), script);
        // A bad line and nothing else stops a script, and the reason has its number.
        let bad = out.lines().find_map(|line| line.strip_prefix("BAD LINE "));
        let is_said = bad.map_or(why.is_empty(), |n| why.starts_with(&format!("line {n}: ")));
        if got != out.as_bytes() || !is_said {
            let shown = String::from_utf8_lossy(&script[..script.len().min(80)]).into_owned();
            let got = String::from_utf8_lossy(&got).into_owned();
            return Err(format!("row {at}, {shown:?}: {got:?} ({why}), not {out:?}"));
        }
    }
    Ok(rows.len())
}

/// A seed's script, whole and spoilt, on both; the number of scripts.
pub fn compare<B: Backend + Clone>(hub: &B, seed: u64) -> Result<usize, Difference> {
    let mut rng = Rng::new(seed);
    let steps: Vec<_> =
        Requests::new(seed, Reach::Script).take(STEPS).map(|(step, _)| step).collect();
    let whole: String = steps.iter().map(|step| format!("{step}\n")).collect();
    for round in 0..=SPOILT {
        let mut script = whole.clone().into_bytes();
        for _ in 0..round {
            let at = rng.size(script.len());
            let any = rng.byte();
            script[at] = rng.pick(&[b' ', b'\n', b'-', b'0', b'9', b'#', 0, 0xC3, any]);
        }
        if printed(hub.clone(), &script) != printed(Peer, &script) {
            let what =
                format!("the text of these steps, changed in {round} places, prints otherwise");
            return Err(Difference { test: "scripts", seed, what, steps });
        }
    }
    Ok(SPOILT + 1)
}
