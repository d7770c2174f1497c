//! Who is measured.

use peer::hub::{self, Lent};
use peer::{interpret, Answer, Descriptor, State};

use crate::foreign;

/// How every contender is asked: the peer's signatures.
pub type Interpret = fn(&[u8], &[u16], &mut [u8], &Descriptor, &mut State) -> Answer;
/// The same for a take.
pub type Take = fn(Lent<'_>, u32, u32, u64) -> Answer;

/// One implementation of the interpreting and of the take.
#[derive(Clone, Copy)]
pub struct Contender {
    pub name: &'static str,
    pub interpret: Interpret,
    pub take: Take,
}

/// The plain C, as it is linked.
pub const PLAIN: Contender =
    Contender { name: "C", interpret: foreign::plain, take: foreign::taking };
/// The peer.
pub const PEER: Contender = Contender { name: "peer", interpret, take: hub::take };

/// The proved library, where it is linked.
#[cfg(linked)]
pub fn proved() -> Option<Contender> {
    use peer::replay::Backend;
    let ask: Interpret =
        |part, widths, area, d, s| foreign::Proved.direct(part, widths, area, d, s);
    let take: Take = |lent, slot, key, total| foreign::Proved.take(lent, slot, key, total);
    Some(Contender { name: "proved", interpret: ask, take })
}

/// Under an emulator its time would say nothing.
#[cfg(not(linked))]
pub fn proved() -> Option<Contender> {
    None
}
