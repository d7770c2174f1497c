//! The second implementation behind the library's C entries, as a shared library with
//! the layout of `include/halviruso.h`. The tools' tests load it, and hold what is printed
//! to what the proved library gives; a host can be tried with it before the library has
//! an entry that is new.

use std::slice::{from_raw_parts, from_raw_parts_mut};

use peer::hub::{self, Lent};
use peer::model::SLOTS;
use peer::{check, check_at, interpret, Answer, Descriptor, Entry, State};

/// The answer to a part, and the state to go on from.
#[repr(C)]
pub struct Interpreted {
    answer: Answer,
    state: State,
}

/// The table, by value.
#[repr(C)]
pub struct Table {
    entries: [Entry; SLOTS],
}

/// What is lent to be read; with a length of 0 it may be null.
unsafe fn read<'a, T>(at: *const T, length: usize) -> &'a [T] {
    match length {
        0 => &[],
        _ => from_raw_parts(at, length),
    }
}

/// What is lent to be written; with a length of 0 it may be null.
unsafe fn written<'a, T>(at: *mut T, length: usize) -> &'a mut [T] {
    match length {
        0 => &mut [],
        _ => from_raw_parts_mut(at, length),
    }
}

/// A fresh table.
#[no_mangle]
pub extern "C" fn halviruso_fresh() -> Table {
    Table { entries: [Entry::FRESH; SLOTS] }
}

/// Opens a job.
///
/// # Safety
/// `table` is valid for `table_length` entries, and `open_jobs` for one number beside them.
#[no_mangle]
pub unsafe extern "C" fn halviruso_open(
    table: *mut Entry,
    table_length: usize,
    open_jobs: *mut u32,
    slot: u32,
    key: u32,
    descriptor: Descriptor,
) -> Answer {
    hub::open(written(table, table_length), &mut *open_jobs, slot, key, &descriptor)
}

/// Submits a part.
///
/// # Safety
/// Each pointer is valid for the length beside it.
#[no_mangle]
pub unsafe extern "C" fn halviruso_submit(
    table: *mut Entry,
    table_length: usize,
    records: *mut u8,
    records_length: usize,
    widths: *const u16,
    widths_length: usize,
    slot: u32,
    key: u32,
    number: u32,
    part: *const u8,
    part_length: usize,
) -> Answer {
    let (table, records) = (written(table, table_length), written(records, records_length));
    let lent = Lent { table, records, widths: read(widths, widths_length) };
    hub::submit(lent, slot, key, number, read(part, part_length))
}

/// Takes records that were read.
///
/// # Safety
/// Each pointer is valid for the length beside it.
#[no_mangle]
pub unsafe extern "C" fn halviruso_take(
    table: *mut Entry,
    table_length: usize,
    records: *mut u8,
    records_length: usize,
    slot: u32,
    key: u32,
    total: u64,
) -> Answer {
    let (table, records) = (written(table, table_length), written(records, records_length));
    hub::take(Lent { table, records, widths: &[] }, slot, key, total)
}

/// Closes a job.
///
/// # Safety
/// `table` is valid for `table_length` entries, and `open_jobs` for one number beside them.
#[no_mangle]
pub unsafe extern "C" fn halviruso_close(
    table: *mut Entry,
    table_length: usize,
    open_jobs: *mut u32,
    slot: u32,
    key: u32,
) -> Answer {
    hub::close(written(table, table_length), &mut *open_jobs, slot, key)
}

/// Counts open jobs.
///
/// # Safety
/// `table` is valid for `table_length` entries.
#[no_mangle]
pub unsafe extern "C" fn halviruso_count(table: *const Entry, table_length: usize) -> u32 {
    hub::count(read(table, table_length))
}

/// Interprets one part from a state.
///
/// # Safety
/// Each pointer is valid for the length beside it.
#[no_mangle]
pub unsafe extern "C" fn halviruso_interpret(
    part: *const u8,
    part_length: usize,
    widths: *const u16,
    widths_length: usize,
    area: *mut u8,
    area_length: usize,
    descriptor: Descriptor,
    mut state: State,
) -> Interpreted {
    let (part, widths) = (read(part, part_length), read(widths, widths_length));
    let answer = interpret(part, widths, written(area, area_length), &descriptor, &mut state);
    Interpreted { answer, state }
}

/// The code of one part alone.
///
/// # Safety
/// `part` is valid for `part_length` bytes.
#[no_mangle]
pub unsafe extern "C" fn halviruso_check(part: *const u8, part_length: usize) -> u32 {
    check(read(part, part_length))
}

/// The same at an increment.
///
/// # Safety
/// `part` is valid for `part_length` bytes.
#[no_mangle]
pub unsafe extern "C" fn halviruso_check_at(
    part: *const u8,
    part_length: usize,
    increment: u32,
) -> u32 {
    check_at(read(part, part_length), increment)
}
