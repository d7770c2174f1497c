//! A part with everything that it is interpreted with.

use std::sync::Arc;

use peer::model::AREA;
use peer::sheet::{self, SIX_LINES};
use peer::{interpret, Answer, Descriptor, State};

/// The paper's sheet.
pub const SHEET: Descriptor = sheet::descriptor(SIX_LINES);

/// One call.
#[derive(Clone, Debug)]
pub struct Case {
    pub part: Vec<u8>,
    pub widths: Arc<Vec<u16>>,
    pub descriptor: Descriptor,
    pub state: State,
}

impl Case {
    /// A part at the start of the paper's sheet.
    pub fn on_sheet(part: Vec<u8>) -> Self {
        Self::with(part, sheet::WIDTHS_144.to_vec(), SHEET)
    }

    /// A part at the start of a sheet.
    pub fn with(part: Vec<u8>, widths: Vec<u16>, descriptor: Descriptor) -> Self {
        Self { part, widths: Arc::new(widths), descriptor, state: State::start(&descriptor) }
    }

    /// What the peer says, and the state then.
    pub fn expected(&self) -> (Answer, State, [u8; AREA]) {
        let (mut area, mut state) = ([0; AREA], self.state);
        let answer = interpret(&self.part, &self.widths, &mut area, &self.descriptor, &mut state);
        (answer, state, area)
    }

    /// Descriptor, state, widths and part as bytes, for `once.c`.
    pub fn bytes(&self) -> Vec<u8> {
        let numbers = numbers(&self.descriptor, &self.state);
        let mut bytes: Vec<u8> = numbers.into_iter().flat_map(u32::to_le_bytes).collect();
        bytes.extend(self.widths.iter().flat_map(|width| width.to_le_bytes()));
        bytes.extend(&self.part);
        bytes
    }
}

/// The numbers of a descriptor and of a state, in the order of include/halviruso.h.
pub fn numbers(d: &Descriptor, s: &State) -> Vec<u32> {
    let descriptor = [
        [d.size_i, d.size_b, d.initial_i, d.initial_b, d.margin, d.increment],
        [d.adjustment, d.direction, d.font, d.colour, d.rule, d.hidden],
    ];
    let state = [
        [s.i, s.b, s.margin, s.increment, s.adjustment, s.direction],
        [s.font, s.colour, s.space, s.suppression, s.chain, s.used],
    ];
    descriptor.into_iter().chain(state).flatten().collect()
}
