//! The library's functions as `include/halviruso.h` declares them, each behind a safe call.
//!
//! A slice is its pointer and its length; structs go by value. The library keeps
//! no pointer, and takes any numbers, bytes and lengths.

use crate::answer::Answer;
use crate::shapes::{Descriptor, Entry, Interpreted, State, Table};

mod c {
    use super::*;

    extern "C" {
        pub fn halviruso_fresh() -> Table;
        pub fn halviruso_open(
            table: *mut Entry,
            table_length: usize,
            open_jobs: *mut u32,
            slot: u32,
            key: u32,
            descriptor: Descriptor,
        ) -> Answer;
        pub fn halviruso_submit(
            table: *mut Entry,
            table_length: usize,
            records: *mut u8,
            records_length: usize,
            widths: *const u16,
            widths_length: usize,
            slot: u32,
            key: u32,
            number: u32,
            part: *const u8,
            part_length: usize,
        ) -> Answer;
        pub fn halviruso_take(
            table: *mut Entry,
            table_length: usize,
            records: *mut u8,
            records_length: usize,
            slot: u32,
            key: u32,
            total: u64,
        ) -> Answer;
        pub fn halviruso_close(
            table: *mut Entry,
            table_length: usize,
            open_jobs: *mut u32,
            slot: u32,
            key: u32,
        ) -> Answer;
        pub fn halviruso_count(table: *const Entry, table_length: usize) -> u32;
        pub fn halviruso_interpret(
            part: *const u8,
            part_length: usize,
            widths: *const u16,
            widths_length: usize,
            area: *mut u8,
            area_length: usize,
            descriptor: Descriptor,
            state: State,
        ) -> Interpreted;
        pub fn halviruso_check(part: *const u8, part_length: usize) -> u32;
        pub fn halviruso_check_at(part: *const u8, part_length: usize, increment: u32) -> u32;
    }
}

pub(crate) fn fresh() -> Table {
    // SAFETY: it is lent nothing.
    unsafe { c::halviruso_fresh() }
}

pub(crate) fn open(
    table: &mut Table,
    open_jobs: &mut u32,
    slot: u32,
    key: u32,
    descriptor: Descriptor,
) -> Answer {
    let table = &mut table.entries;
    // SAFETY: pointer and length are one slice's; it and the number are each borrowed alone for the call.
    unsafe { c::halviruso_open(table.as_mut_ptr(), table.len(), open_jobs, slot, key, descriptor) }
}

/// What a submit is lent.
pub(crate) struct Lent<'a> {
    pub(crate) table: &'a mut Table,
    pub(crate) records: &'a mut [u8],
    pub(crate) widths: &'a [u16],
}

pub(crate) fn submit(lent: Lent<'_>, slot: u32, key: u32, number: u32, part: &[u8]) -> Answer {
    let Lent { table, records, widths } = lent;
    let table = &mut table.entries;
    // SAFETY: each pointer and length are one slice's; those written to are borrowed alone, so none overlap.
    unsafe {
        c::halviruso_submit(
            table.as_mut_ptr(),
            table.len(),
            records.as_mut_ptr(),
            records.len(),
            widths.as_ptr(),
            widths.len(),
            slot,
            key,
            number,
            part.as_ptr(),
            part.len(),
        )
    }
}

pub(crate) fn take(
    table: &mut Table,
    records: &mut [u8],
    slot: u32,
    key: u32,
    total: u64,
) -> Answer {
    let table = &mut table.entries;
    let (entries, bytes) = (table.as_mut_ptr(), records.as_mut_ptr());
    // SAFETY: each pointer and length are one slice's; both are borrowed alone, so they don't overlap.
    unsafe { c::halviruso_take(entries, table.len(), bytes, records.len(), slot, key, total) }
}

pub(crate) fn close(table: &mut Table, open_jobs: &mut u32, slot: u32, key: u32) -> Answer {
    let table = &mut table.entries;
    // SAFETY: pointer and length are one slice's; it and the number are each borrowed alone for the call.
    unsafe { c::halviruso_close(table.as_mut_ptr(), table.len(), open_jobs, slot, key) }
}

pub(crate) fn count(table: &Table) -> u32 {
    let table = &table.entries;
    // SAFETY: pointer and length are one slice's, borrowed for the call and only read.
    unsafe { c::halviruso_count(table.as_ptr(), table.len()) }
}

pub(crate) fn interpret(
    part: &[u8],
    widths: &[u16],
    area: &mut [u8],
    descriptor: Descriptor,
    state: State,
) -> Interpreted {
    // SAFETY: each pointer and length are one slice's; the area is borrowed alone, so none overlap it.
    unsafe {
        c::halviruso_interpret(
            part.as_ptr(),
            part.len(),
            widths.as_ptr(),
            widths.len(),
            area.as_mut_ptr(),
            area.len(),
            descriptor,
            state,
        )
    }
}

pub(crate) fn check(part: &[u8]) -> u32 {
    // SAFETY: pointer and length are one slice's, borrowed for the call and only read.
    unsafe { c::halviruso_check(part.as_ptr(), part.len()) }
}

pub(crate) fn check_at(part: &[u8], increment: u32) -> u32 {
    // SAFETY: pointer and length are one slice's, borrowed for the call and only read.
    unsafe { c::halviruso_check_at(part.as_ptr(), part.len(), increment) }
}
