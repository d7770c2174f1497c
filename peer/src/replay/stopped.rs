//! Why a script didn't run to its end.

use std::error::Error;
use std::fmt;
use std::io;

use crate::script::Bad;

/// What stopped a script.
#[derive(Debug)]
pub enum Stopped {
    /// It can't be read.
    Read(io::Error),
    /// What it prints can't be written.
    Write(io::Error),
    /// A bad line.
    Line {
        /// Its number, counted from 1.
        number: u64,
        /// What is wrong with it.
        bad: Bad,
    },
}

impl fmt::Display for Stopped {
    fn fmt(&self, f: &mut fmt::Formatter<'_>) -> fmt::Result {
        match self {
            Self::Read(error) => write!(f, "the script can't be read: {error}"),
            Self::Write(error) => write!(f, "the output can't be written: {error}"),
            Self::Line { number, bad } => write!(f, "line {number}: {bad}"),
        }
    }
}

impl Error for Stopped {}
