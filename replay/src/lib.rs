//! The proved library as a backend of the replay.

#![forbid(unsafe_code)]
#![warn(missing_docs)]

mod proved;
mod words;

pub use proved::Proved;
