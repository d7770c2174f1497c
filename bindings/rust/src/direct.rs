//! Calls that need no table: the direct interpreter and the check.

use crate::answer::{Answer, Code};
use crate::ffi;
use crate::shapes::{Descriptor, Interpreted, State};

/// Interprets one part from a state, for a host that keeps its own table.
///
/// The area has 4,096 bytes and `widths` 1,024 numbers, else the answer is 10. With 0
/// the part's records stand in the area from `state.used` on; any other code
/// leaves it as it was.
///
/// ```
/// use halviruso::{first_state, interpret, Code, Descriptor, Point, Records};
///
/// let sheet = Descriptor { size: Point { i: 1_440, b: 1_440 }, ..Descriptor::default() };
/// let start = first_state(sheet).unwrap();
/// let mut area = [0; halviruso::AREA];
/// let done = interpret(b"\xC1\xC2", &[144; halviruso::WIDTHS], &mut area, sheet, start);
/// assert_eq!(done.answer.code, Code::DONE);
/// assert_eq!((done.state.i(), done.state.used), (288, 18));
/// assert_eq!(Records::new(&area[..18]).count(), 1);
/// ```
pub fn interpret(
    part: &[u8],
    widths: &[u16],
    area: &mut [u8],
    descriptor: Descriptor,
    state: State,
) -> Interpreted {
    ffi::interpret(part, widths, area, descriptor, state)
}

/// The state in which a job of this descriptor begins, taken from a job that is opened for it.
///
/// # Errors
/// The library's answer, [`Code::BAD_DESCRIPTOR`], if the descriptor is out of range.
pub fn first_state(descriptor: Descriptor) -> Result<State, Answer> {
    let mut table = ffi::fresh();
    match ffi::open(&mut table, &mut 0, 0, 1, descriptor) {
        Answer { code: Code::DONE, .. } => Ok(table.entries[0].state),
        refusal => Err(refusal),
    }
}

/// Checks one part alone, on a sheet of 12,240 by 15,840 with every character 144 wide and eight
/// lines to the inch: 0, or 19 to 29.
///
/// ```
/// use halviruso::{check, Code};
///
/// assert_eq!(check(b""), Code::DONE);
/// assert_eq!(check(b"\x2B"), Code::CUT);
/// ```
pub fn check(part: &[u8]) -> Code {
    Code(ffi::check(part))
}

/// The same at a baseline increment: 180 is that of [`check`], 240 six lines to the inch.
///
/// Above 32,767 it is 15, whatever the part.
///
/// ```
/// use halviruso::{check, check_at, Code};
///
/// // Down to 15,660, one line more, a character: the sheet ends at 15,840.
/// let foot = b"\x2B\xD3\x04\xD3\x3D\x2C\x02\xD8\xC1";
/// assert_eq!(check(foot), Code::DONE);
/// assert_eq!(check_at(foot, 180), Code::DONE);
/// assert_eq!(check_at(foot, 240), Code::OUTSIDE);
/// assert_eq!(check_at(foot, 32_768), Code::BAD_DESCRIPTOR);
/// ```
pub fn check_at(part: &[u8], increment: u32) -> Code {
    Code(ffi::check_at(part, increment))
}
