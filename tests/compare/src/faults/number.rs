//! Hubs that see the stored number of open jobs, or leave it, otherwise than they should.

use peer::hub::count;
use peer::model::MOST_OPEN;
use peer::{Answer, Code, Entry};

use super::Fault;

/// The number by which an open decides.
pub(super) fn open_sees(fault: Fault, stored: u32, table: &[Entry]) -> u32 {
    match (fault, stored) {
        (Fault::OpenAtSixteen, 16) => 15,
        (Fault::OpenNotAtFifteen, 15) => 16,
        _ => sees(fault, stored, table),
    }
}

/// The number by which a close decides.
pub(super) fn close_sees(fault: Fault, stored: u32, table: &[Entry]) -> u32 {
    match (fault, stored) {
        (Fault::CloseAtSeventeen, 17) => 16,
        (Fault::CloseNotAtSixteen, 16) => 17,
        (Fault::CloseAtNone, 0) => 1,
        _ => sees(fault, stored, table),
    }
}

fn sees(fault: Fault, stored: u32, table: &[Entry]) -> u32 {
    match fault {
        Fault::StoredCut => stored & 0xFF,
        Fault::StoredWalked => count(table),
        _ => stored,
    }
}

/// Asks a hub that sees this number; by as much as it changes it the stored one changes.
pub(super) fn asked(stored: &mut u32, sees: u32, ask: impl FnOnce(&mut u32) -> Answer) -> Answer {
    let mut seen = sees;
    let answer = ask(&mut seen);
    *stored = stored.wrapping_add(seen.wrapping_sub(sees));
    answer
}

/// What else is wrong after an open; `down` if a request of a greater slot came before it.
pub(super) fn opened(
    fault: Fault,
    answer: &mut Answer,
    stored: &mut u32,
    table: &[Entry],
    down: bool,
) {
    match fault {
        Fault::OpenBusy if is(answer, Code::Busy) => *stored = stored.wrapping_add(1),
        Fault::Recounted if is(answer, Code::Taken) => *stored = stored.wrapping_add(1),
        Fault::StoredOrder if is(answer, Code::Done) && down => *stored -= 1,
        Fault::StoredEarly if is(answer, Code::Descriptor) && *stored >= MOST_OPEN => {
            *answer = Answer::only(Code::Stored);
        }
        _ => asked_either(fault, answer, stored, table),
    }
}

/// What else is wrong after a close.
pub(super) fn closed(fault: Fault, answer: &mut Answer, stored: &mut u32, table: &[Entry]) {
    match fault {
        Fault::CloseUncounted if is(answer, Code::Done) => *stored += 1,
        _ => asked_either(fault, answer, stored, table),
    }
}

fn asked_either(fault: Fault, answer: &mut Answer, stored: &mut u32, table: &[Entry]) {
    match fault {
        Fault::StoredWalked if is(answer, Code::Done) => *stored = count(table),
        Fault::RefusalStores if is(answer, Code::Stored) => *stored = count(table),
        Fault::StoredFirst if is(answer, Code::Taken) && *stored > MOST_OPEN => {
            *answer = Answer::only(Code::Stored);
        }
        _ => {}
    }
}

fn is(answer: &Answer, code: Code) -> bool {
    answer.code == code as u32
}
