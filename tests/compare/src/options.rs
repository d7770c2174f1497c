//! What the program is asked to do.

use std::time::{SystemTime, UNIX_EPOCH};

use crate::faults::{Fault, FAULTS};

/// How to use it.
pub const USAGE: &str = "usage: compare [--seconds N [--seed S]] | --break NAME";

/// One of three ways to run.
#[derive(Clone, Copy, Debug)]
pub enum Run {
    /// Fixed seeds, fixed counts.
    Gate,
    /// So many seconds from a seed on.
    Soak { seconds: u64, seed: u64 },
    /// One fault, to be found.
    Break(Fault),
}

impl Run {
    /// Reads the arguments after the program's name, or says what is wrong with them.
    pub fn read(words: &[String]) -> Result<Self, String> {
        let words: Vec<&str> = words.iter().map(String::as_str).collect();
        match words.as_slice() {
            [] => Ok(Self::Gate),
            ["--seconds", seconds] => {
                Ok(Self::Soak { seconds: number("seconds", seconds, 1)?, seed: new_seed() })
            }
            ["--seconds", seconds, "--seed", seed] => Ok(Self::Soak {
                seconds: number("seconds", seconds, 1)?,
                seed: number("seed", seed, 0)?,
            }),
            ["--break", name] => {
                let fault = FAULTS.iter().find(|(_, called, _)| called == name);
                fault
                    .map(|row| Self::Break(row.0))
                    .ok_or_else(|| format!("compare: no fault {name:?}"))
            }
            _ => Err(USAGE.to_string()),
        }
    }
}

/// A number of at least this. No time at all would compare nothing, and pass.
fn number(name: &str, word: &str, least: u64) -> Result<u64, String> {
    let number = word.parse().ok().filter(|number| *number >= least);
    number
        .ok_or_else(|| format!("compare: --{name} is {word:?}; it may be {least} to {}", u64::MAX))
}

/// A seed that no run before had.
fn new_seed() -> u64 {
    let now = SystemTime::now().duration_since(UNIX_EPOCH).unwrap_or_default();
    now.as_nanos() as u64 >> 10
}
