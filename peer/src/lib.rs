//! The hub a second time: one part of presentation text placed as records,
//! and the table of jobs above it, written from the paper and its rulings,
//! without sight of the proved library's code.
//!
//! Bytes go one way: [`reader`] cuts a part into elements, `values` reads
//! their parameters, `place` and `text` move and present, [`record`] writes
//! bytes, [`interpret`](mod@interpret) does all or nothing, [`hub`] knows
//! which job and which part number, and `take` what leaves an area.

#![forbid(unsafe_code)]
#![warn(missing_docs)]

pub mod answer;
pub mod check;
pub mod generate;
pub mod hub;
pub mod interpret;
pub mod listing;
pub mod model;
mod place;
pub mod reader;
pub mod record;
pub mod replay;
pub mod script;
pub mod sheet;
mod take;
mod text;
mod values;

pub use answer::{Answer, Code};
pub use check::{check, check_at};
pub use interpret::interpret;
pub use listing::listing;
pub use model::{Descriptor, Entry, State};
