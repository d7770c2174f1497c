//! Runs the replay script on standard input on this crate's hub.
//!
//! Status 0: it ran to its end. 1: a bad line, or input or output that failed; standard error
//! says which.

#![forbid(unsafe_code)]

use std::process::ExitCode;

use peer::replay::{standard, Peer};

fn main() -> ExitCode {
    standard("replay_peer", Peer)
}
