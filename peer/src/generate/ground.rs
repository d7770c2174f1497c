//! The place in a job that a part is written for, and what a text does there.

use crate::model::{Descriptor, State, ABSENT, CODE_POINTS};

/// What a part is written for: where the job stands.
#[derive(Clone, Copy, Debug)]
pub struct Ground<'a> {
    /// The job's descriptor.
    pub descriptor: Descriptor,
    /// Its state.
    pub state: State,
    /// The width table; of another length only where no part can pass.
    pub widths: &'a [u16],
}

impl Ground<'_> {
    /// Signed, as a record has it.
    pub(super) fn adjustment(&self) -> i64 {
        let amount = i64::from(self.state.adjustment);
        if self.state.direction == 0 {
            amount
        } else {
            -amount
        }
    }

    /// How far a text moves I.
    pub(super) fn after(&self, text: &[u8]) -> i64 {
        let width = |c: u8| match self.state.space {
            space if c == 0x40 && space != ABSENT => i64::from(space),
            _ => {
                let at = CODE_POINTS * self.state.font as usize + usize::from(c);
                self.widths.get(at).map_or(0, |&width| i64::from(width))
            }
        };
        text.iter().map(|&c| width(c) + self.adjustment()).sum()
    }
}
