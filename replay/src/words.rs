//! Descriptors, states and entries as numbers and bytes, in the order of include/halviruso.h.

use peer::{Answer, Descriptor, Entry, State};

/// Numbers of a descriptor, and of a state.
pub(crate) const FIELDS: usize = 12;
/// Numbers of an entry.
pub(crate) const ENTRY: usize = 2 * FIELDS + 4;
/// Numbers of a reply: an answer and a state.
pub(crate) const REPLY: usize = 3 + FIELDS;

pub(crate) fn bytes_of(words: &[u32]) -> Vec<u8> {
    words.iter().flat_map(|word| word.to_ne_bytes()).collect()
}

/// The first `N` numbers of `bytes`; any that are missing are 0.
pub(crate) fn words_of<const N: usize>(bytes: &[u8]) -> [u32; N] {
    let (fours, _) = bytes.as_chunks();
    std::array::from_fn(|at| fours.get(at).map_or(0, |&four| u32::from_ne_bytes(four)))
}

pub(crate) fn answer_of(reply: &[u32; REPLY]) -> Answer {
    Answer { code: reply[0], first: reply[1], second: reply[2] }
}

pub(crate) fn descriptor_words(d: &Descriptor) -> [u32; FIELDS] {
    [
        d.size_i,
        d.size_b,
        d.initial_i,
        d.initial_b,
        d.margin,
        d.increment,
        d.adjustment,
        d.direction,
        d.font,
        d.colour,
        d.rule,
        d.hidden,
    ]
}

pub(crate) fn descriptor_of(words: &[u32]) -> Descriptor {
    Descriptor {
        size_i: words[0],
        size_b: words[1],
        initial_i: words[2],
        initial_b: words[3],
        margin: words[4],
        increment: words[5],
        adjustment: words[6],
        direction: words[7],
        font: words[8],
        colour: words[9],
        rule: words[10],
        hidden: words[11],
    }
}

pub(crate) fn state_words(s: &State) -> [u32; FIELDS] {
    [
        s.i,
        s.b,
        s.margin,
        s.increment,
        s.adjustment,
        s.direction,
        s.font,
        s.colour,
        s.space,
        s.suppression,
        s.chain,
        s.used,
    ]
}

pub(crate) fn state_of(words: &[u32]) -> State {
    State {
        i: words[0],
        b: words[1],
        margin: words[2],
        increment: words[3],
        adjustment: words[4],
        direction: words[5],
        font: words[6],
        colour: words[7],
        space: words[8],
        suppression: words[9],
        chain: words[10],
        used: words[11],
    }
}

pub(crate) fn entry_words(entry: &Entry) -> Vec<u32> {
    let ends = [entry.key, entry.mark];
    let (descriptor, state) = (descriptor_words(&entry.descriptor), state_words(&entry.state));
    [&ends[..], &descriptor, &state, &[entry.next, entry.taken]].concat()
}

pub(crate) fn entry_of(words: &[u32; ENTRY]) -> Entry {
    Entry {
        key: words[0],
        mark: words[1],
        descriptor: descriptor_of(&words[2..]),
        state: state_of(&words[2 + FIELDS..]),
        next: words[2 + 2 * FIELDS],
        taken: words[3 + 2 * FIELDS],
    }
}
