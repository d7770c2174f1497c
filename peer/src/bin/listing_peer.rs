//! Lists the part on standard input, at eight lines to the inch or at the increment given.
//!
//! Status 0: it is listed, or its refusal is. 1: input or output that failed. 2: words that are no
//! increment; nothing is listed then. Standard error says which.

#![forbid(unsafe_code)]

use std::env;
use std::ffi::{OsStr, OsString};
use std::fmt::Display;
use std::io::{self, Read, Write};
use std::process::ExitCode;

use peer::listing::{listing, READ};
use peer::model::GREATEST_DISTANCE;
use peer::replay::complain;
use peer::sheet::EIGHT_LINES;

fn main() -> ExitCode {
    let words: Vec<OsString> = env::args_os().skip(1).collect();
    match increment(&words) {
        Err(why) => stopped(2, why),
        Ok(increment) => match list(increment) {
            Err(error) => stopped(1, error),
            Ok(()) => ExitCode::SUCCESS,
        },
    }
}

fn stopped(status: u8, why: impl Display) -> ExitCode {
    complain("listing_peer", why);
    ExitCode::from(status)
}

/// The increment that the words ask for, or what is wrong with them.
fn increment(words: &[OsString]) -> Result<u32, String> {
    match words {
        [] => Ok(EIGHT_LINES),
        [word] => number(word).ok_or_else(|| {
            let shown = word.as_encoded_bytes().escape_ascii();
            format!("the increment is \"{shown}\"; it may be 0 to {GREATEST_DISTANCE}")
        }),
        _ => Err(format!("{} words; there may be one, the increment", words.len())),
    }
}

fn number(word: &OsStr) -> Option<u32> {
    // The library's reading of numbers would let a sign through.
    let digits = word.to_str().filter(|word| word.bytes().all(|byte| byte.is_ascii_digit()))?;
    digits.parse().ok().filter(|increment| *increment <= GREATEST_DISTANCE)
}

fn list(increment: u32) -> io::Result<()> {
    let mut part = Vec::with_capacity(READ);
    io::stdin().lock().take(READ as u64).read_to_end(&mut part)?;
    io::stdout().lock().write_all(listing(&part, increment).as_bytes())
}
