//! Runs the replay script on standard input on the proved library, or with `--peer` on the peer.
//!
//! Status 0: it ran to its end. 1: a bad line, or input or output that failed. 2: words that it
//! doesn't know. 3: the library's process didn't start, or it ended. Standard error says which.

#![forbid(unsafe_code)]

use std::env;
use std::ffi::OsString;
use std::process::ExitCode;

use peer::replay::{complain, standard, Peer};
use replay::Proved;

fn main() -> ExitCode {
    let words: Vec<OsString> = env::args_os().skip(1).collect();
    match words.as_slice() {
        [] => proved(),
        [word] if word == "--peer" => standard("replay", Peer),
        _ => {
            complain("usage", "replay [--peer] < script");
            ExitCode::from(2)
        }
    }
}

fn proved() -> ExitCode {
    match Proved::start() {
        Ok(library) => standard("replay", library),
        Err(error) => {
            complain("replay", error);
            ExitCode::from(3)
        }
    }
}
