//! The proved library against the peer: parts, requests, scripts; swap, repeat, the stored number and drained areas on
//! the library's own memory.
//!
//! Without arguments it runs fixed seeds and is the gate's; `--seconds N` goes on from a new seed;
//! `--break NAME` runs a hub with a fault. The first difference is left as a replay script. The
//! status is 1 if anything failed, 2 for arguments that it doesn't know.

#![forbid(unsafe_code)]

mod codes;
mod difference;
#[path = "../../../peer/tests/common/document.rs"]
mod document;
mod documented;
mod drained;
mod faults;
mod history;
mod options;
mod parts;
mod progress;
mod repeat;
mod requests;
mod scripts;
mod stored;
mod suite;
mod swap;

use std::env;
use std::process::ExitCode;

use options::Run;
use replay::Proved;
use suite::Suite;

fn main() -> ExitCode {
    let words: Vec<String> = env::args_os().skip(1).map(|w| w.to_string_lossy().into()).collect();
    let run = match Run::read(&words) {
        Ok(run) => run,
        Err(why) => {
            eprintln!("{why}");
            return ExitCode::from(2);
        }
    };
    let mut suite = match Proved::start().and_then(Suite::new) {
        Ok(suite) => suite,
        Err(error) => {
            println!("{error}\n0 passed, 1 failed");
            return ExitCode::FAILURE;
        }
    };
    match run {
        Run::Gate => suite.gate(),
        Run::Soak { seconds, seed } => suite.soak(seconds, seed),
        Run::Break(fault) => suite.show(fault),
    }
    println!("{} passed, {} failed", suite.passed(), suite.failed());
    if suite.failed() == 0 {
        ExitCode::SUCCESS
    } else {
        ExitCode::FAILURE
    }
}
