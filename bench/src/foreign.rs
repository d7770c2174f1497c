//! What is linked from C: the plain interpreting and taking, and the proved library where it was made for this machine. The one place that declares either.

use peer::hub::Lent;
use peer::{Answer, Descriptor, Entry, State};

/// What interpreting hands back.
#[repr(C)]
struct Interpreted {
    answer: Answer,
    state: State,
}

// A slice is its pointer and its length; structs go by value.
extern "C" {
    fn plain_interpret(
        part: *const u8,
        part_bytes: usize,
        widths: *const u16,
        width_count: usize,
        area: *mut u8,
        area_bytes: usize,
        d: Descriptor,
        s: State,
    ) -> Interpreted;
    fn plain_take(
        table: *mut Entry,
        entries: usize,
        records: *mut u8,
        record_bytes: usize,
        slot: u32,
        key: u32,
        total: u64,
    ) -> Answer;
}

/// The plain C's taking.
pub fn taking(lent: Lent<'_>, slot: u32, key: u32, total: u64) -> Answer {
    let Lent { table, records, .. } = lent;
    let (entries, bytes) = (table.as_mut_ptr(), records.as_mut_ptr());
    // Pointer and length are those of one slice each, borrowed for as long as the call.
    unsafe { plain_take(entries, table.len(), bytes, records.len(), slot, key, total) }
}

/// The plain C.
pub fn plain(
    part: &[u8],
    widths: &[u16],
    area: &mut [u8],
    d: &Descriptor,
    s: &mut State,
) -> Answer {
    // Pointer and length are those of one slice each, borrowed for as long as the call.
    let Interpreted { answer, state } = unsafe {
        plain_interpret(
            part.as_ptr(),
            part.len(),
            widths.as_ptr(),
            widths.len(),
            area.as_mut_ptr(),
            area.len(),
            *d,
            *s,
        )
    };
    *s = state;
    answer
}

#[cfg(linked)]
pub use linked::Proved;

#[cfg(linked)]
mod linked {
    use peer::hub::Lent;
    use peer::model::SLOTS;
    use peer::replay::Backend;
    use peer::{Answer, Descriptor, Entry, State};

    use super::Interpreted;

    /// The library's table, by value.
    #[repr(C)]
    struct Table {
        entries: [Entry; SLOTS],
    }

    // A slice is its pointer and its length; structs go by value.
    extern "C" {
        fn halviruso_fresh() -> Table;
        fn halviruso_open(
            table: *mut Entry,
            entries: usize,
            open_jobs: *mut u32,
            slot: u32,
            key: u32,
            d: Descriptor,
        ) -> Answer;
        fn halviruso_submit(
            table: *mut Entry,
            entries: usize,
            records: *mut u8,
            record_bytes: usize,
            widths: *const u16,
            width_count: usize,
            slot: u32,
            key: u32,
            number: u32,
            part: *const u8,
            part_bytes: usize,
        ) -> Answer;
        fn halviruso_take(
            table: *mut Entry,
            entries: usize,
            records: *mut u8,
            record_bytes: usize,
            slot: u32,
            key: u32,
            total: u64,
        ) -> Answer;
        fn halviruso_close(
            table: *mut Entry,
            entries: usize,
            open_jobs: *mut u32,
            slot: u32,
            key: u32,
        ) -> Answer;
        fn halviruso_count(table: *const Entry, entries: usize) -> u32;
        fn halviruso_interpret(
            part: *const u8,
            part_bytes: usize,
            widths: *const u16,
            width_count: usize,
            area: *mut u8,
            area_bytes: usize,
            d: Descriptor,
            s: State,
        ) -> Interpreted;
        fn halviruso_check(part: *const u8, part_bytes: usize) -> u32;
        fn halviruso_check_at(part: *const u8, part_bytes: usize, increment: u32) -> u32;
    }

    /// The proved library. It keeps no memory of its own.
    #[derive(Clone, Copy, Debug)]
    pub struct Proved;

    // In each call pointer and length are those of one slice, borrowed for as long as the call.
    impl Backend for Proved {
        fn fresh(&mut self) -> [Entry; SLOTS] {
            unsafe { halviruso_fresh() }.entries
        }

        fn open(
            &mut self,
            table: &mut [Entry],
            stored: &mut u32,
            slot: u32,
            key: u32,
            d: &Descriptor,
        ) -> Answer {
            unsafe { halviruso_open(table.as_mut_ptr(), table.len(), stored, slot, key, *d) }
        }

        fn submit(
            &mut self,
            lent: Lent<'_>,
            slot: u32,
            key: u32,
            number: u32,
            part: &[u8],
        ) -> Answer {
            let Lent { table, records, widths } = lent;
            unsafe {
                halviruso_submit(
                    table.as_mut_ptr(),
                    table.len(),
                    records.as_mut_ptr(),
                    records.len(),
                    widths.as_ptr(),
                    widths.len(),
                    slot,
                    key,
                    number,
                    part.as_ptr(),
                    part.len(),
                )
            }
        }

        fn take(&mut self, lent: Lent<'_>, slot: u32, key: u32, total: u64) -> Answer {
            let Lent { table, records, .. } = lent;
            let (entries, bytes) = (table.as_mut_ptr(), records.as_mut_ptr());
            unsafe { halviruso_take(entries, table.len(), bytes, records.len(), slot, key, total) }
        }

        fn close(&mut self, table: &mut [Entry], stored: &mut u32, slot: u32, key: u32) -> Answer {
            unsafe { halviruso_close(table.as_mut_ptr(), table.len(), stored, slot, key) }
        }

        fn count(&mut self, table: &[Entry]) -> u32 {
            unsafe { halviruso_count(table.as_ptr(), table.len()) }
        }

        fn direct(
            &mut self,
            part: &[u8],
            widths: &[u16],
            area: &mut [u8],
            d: &Descriptor,
            s: &mut State,
        ) -> Answer {
            let Interpreted { answer, state } = unsafe {
                halviruso_interpret(
                    part.as_ptr(),
                    part.len(),
                    widths.as_ptr(),
                    widths.len(),
                    area.as_mut_ptr(),
                    area.len(),
                    *d,
                    *s,
                )
            };
            *s = state;
            answer
        }

        fn check(&mut self, part: &[u8]) -> u32 {
            unsafe { halviruso_check(part.as_ptr(), part.len()) }
        }

        fn check_at(&mut self, part: &[u8], increment: u32) -> u32 {
            unsafe { halviruso_check_at(part.as_ptr(), part.len(), increment) }
        }
    }
}
