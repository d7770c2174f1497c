//! Seeded parts, direct calls, checks and request sequences, for comparing two hubs.
//!
//! Elements are made by the grammar with every parameter's edges among their
//! values, and tried on this crate's interpreter before they are kept: so a
//! part can be long and accepted, or fail at just the element that was meant.

mod checks;
mod elements;
mod ground;
mod numbers;
mod parts;
mod requests;
mod rng;
mod stored;
mod totals;

pub use checks::{checked_part, increment};
pub use ground::Ground;
pub use numbers::{descriptor, entry, state, Reach};
pub use parts::{case, mutate, part, sized_part, Case};
pub use requests::Requests;
pub use rng::Rng;
pub use totals::total;
