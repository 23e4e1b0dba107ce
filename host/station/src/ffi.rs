//! The calls of `include/station.h` on slices: here is the crate's only `unsafe`.
//!
//! The calls answer every length and every content, and write to nothing but the slices that they are
//! lent to write. A result is the refusal's number times 2^32, plus a count: see
//! [`answer`](crate::answer). For hosts that keep their own buffers; others use
//! [`Station`](crate::Station), [`Journal`](crate::Journal) and [`Plain`](crate::Plain).

#![allow(unsafe_code)]

mod declared {
    unsafe extern "C" {
        pub fn station_fresh(store: *mut u8, store_len: usize, n: u64, d: u64, own: u64) -> u64;
        pub fn station_step(
            store: *mut u8,
            store_len: usize,
            message: *const u8,
            message_len: usize,
            out: *mut u8,
            out_len: usize,
        ) -> u64;
        pub fn station_tick(store: *mut u8, store_len: usize, out: *mut u8, out_len: usize) -> u64;
        pub fn station_offer(
            store: *mut u8,
            store_len: usize,
            name: *const u8,
            name_len: usize,
            out: *mut u8,
            out_len: usize,
        ) -> u64;
        pub fn station_display(
            store: *const u8,
            store_len: usize,
            out: *mut u8,
            out_len: usize,
        ) -> u64;
        pub fn station_certified(
            store: *const u8,
            store_len: usize,
            view: u64,
            height: u64,
            name: *const u8,
            name_len: usize,
        ) -> u64;
        pub fn status_choose(
            kind: u64,
            n: u64,
            first: *const u8,
            first_len: usize,
            second: *const u8,
            second_len: usize,
        ) -> u64;
        pub fn slip_check(kind: u64, n: u64, slip: *const u8, slip_len: usize) -> u64;
        pub fn slip_write(
            store: *const u8,
            store_len: usize,
            name: *const u8,
            name_len: usize,
            out: *mut u8,
            out_len: usize,
        ) -> u64;
        pub fn journal_put(
            slot: *mut u8,
            slot_len: usize,
            sequence: u64,
            kind: u64,
            input: *const u8,
            input_len: usize,
        ) -> u64;
        pub fn journal_write(
            journal: *mut u8,
            journal_len: usize,
            kind: u64,
            input: *const u8,
            input_len: usize,
        ) -> u64;
        pub fn journal_replay(
            journal: *const u8,
            journal_len: usize,
            store: *mut u8,
            store_len: usize,
            out: *mut u8,
            out_len: usize,
            report: *mut u8,
            report_len: usize,
        ) -> u64;
        pub fn envelope_read(
            envelope: *const u8,
            envelope_len: usize,
            list: *mut u8,
            list_len: usize,
        ) -> u64;
        pub fn envelope_write(
            bytes: *const u8,
            bytes_len: usize,
            list: *const u8,
            list_len: usize,
            out: *mut u8,
            out_len: usize,
        ) -> u64;
        pub fn plain_fresh(list: *mut u8, list_len: usize, n: u64, d: u64, own: u64) -> u64;
        pub fn plain_step(
            list: *mut u8,
            list_len: usize,
            message: *const u8,
            message_len: usize,
            out: *mut u8,
            out_len: usize,
        ) -> u64;
        pub fn plain_tick(list: *mut u8, list_len: usize, out: *mut u8, out_len: usize) -> u64;
        pub fn plain_offer(
            list: *mut u8,
            list_len: usize,
            name: *const u8,
            name_len: usize,
            out: *mut u8,
            out_len: usize,
        ) -> u64;
        pub fn plain_log(list: *const u8, list_len: usize, out: *mut u8, out_len: usize) -> u64;
    }
}

// SAFETY, of all of them: each pointer comes with the length of the slice it was taken from, the slices
// are borrowed for the whole call, and those that are written can't overlap another.

/// A fresh store.
pub fn fresh(store: &mut [u8], n: u64, d: u64, own: u64) -> u64 {
    unsafe { declared::station_fresh(store.as_mut_ptr(), store.len(), n, d, own) }
}

/// One message from another station.
pub fn step(store: &mut [u8], message: &[u8], out: &mut [u8]) -> u64 {
    unsafe {
        declared::station_step(
            store.as_mut_ptr(),
            store.len(),
            message.as_ptr(),
            message.len(),
            out.as_mut_ptr(),
            out.len(),
        )
    }
}

/// One tick of the clock.
pub fn tick(store: &mut [u8], out: &mut [u8]) -> u64 {
    unsafe { declared::station_tick(store.as_mut_ptr(), store.len(), out.as_mut_ptr(), out.len()) }
}

/// The offer of a block name.
pub fn offer(store: &mut [u8], name: &[u8], out: &mut [u8]) -> u64 {
    unsafe {
        declared::station_offer(
            store.as_mut_ptr(),
            store.len(),
            name.as_ptr(),
            name.len(),
            out.as_mut_ptr(),
            out.len(),
        )
    }
}

/// The wall display, which leaves the store as it is.
pub fn display(store: &[u8], out: &mut [u8]) -> u64 {
    unsafe { declared::station_display(store.as_ptr(), store.len(), out.as_mut_ptr(), out.len()) }
}

/// When a block was certified, which leaves the store as it is. Count: 0 for none, else one more than
/// the clock.
pub fn certified(store: &[u8], view: u64, height: u64, name: &[u8]) -> u64 {
    unsafe {
        declared::station_certified(
            store.as_ptr(),
            store.len(),
            view,
            height,
            name.as_ptr(),
            name.len(),
        )
    }
}

/// Whose certificate part to take: 1 the first's, 2 the second's, 0 neither's.
pub fn choose(kind: u64, n: u64, first: &[u8], second: &[u8]) -> u64 {
    unsafe {
        declared::status_choose(kind, n, first.as_ptr(), first.len(), second.as_ptr(), second.len())
    }
}

/// Whether some bytes are a slip. Count: its entries; of refusal 15 the first bad place.
pub fn slip_check(kind: u64, n: u64, slip: &[u8]) -> u64 {
    unsafe { declared::slip_check(kind, n, slip.as_ptr(), slip.len()) }
}

/// The slip of a logged block, which leaves the store as it is.
pub fn slip_write(store: &[u8], name: &[u8], out: &mut [u8]) -> u64 {
    unsafe {
        declared::slip_write(
            store.as_ptr(),
            store.len(),
            name.as_ptr(),
            name.len(),
            out.as_mut_ptr(),
            out.len(),
        )
    }
}

/// One record into a blank slot. Count: 128.
pub fn journal_put(slot: &mut [u8], sequence: u64, kind: u64, input: &[u8]) -> u64 {
    unsafe {
        declared::journal_put(
            slot.as_mut_ptr(),
            slot.len(),
            sequence,
            kind,
            input.as_ptr(),
            input.len(),
        )
    }
}

/// One record into a journal's first blank slot. Count: the slot's place.
pub fn journal_write(journal: &mut [u8], kind: u64, input: &[u8]) -> u64 {
    unsafe {
        declared::journal_write(
            journal.as_mut_ptr(),
            journal.len(),
            kind,
            input.as_ptr(),
            input.len(),
        )
    }
}

/// Every whole record of a journal to the station of a store. Count: the records; of refusal 13 the
/// place at which reading ended.
pub fn journal_replay(journal: &[u8], store: &mut [u8], out: &mut [u8], report: &mut [u8]) -> u64 {
    unsafe {
        declared::journal_replay(
            journal.as_ptr(),
            journal.len(),
            store.as_mut_ptr(),
            store.len(),
            out.as_mut_ptr(),
            out.len(),
            report.as_mut_ptr(),
            report.len(),
        )
    }
}

/// The places of an envelope's messages into a list, 8 bytes each. Count: the messages.
pub fn envelope_read(envelope: &[u8], list: &mut [u8]) -> u64 {
    unsafe {
        declared::envelope_read(envelope.as_ptr(), envelope.len(), list.as_mut_ptr(), list.len())
    }
}

/// The messages at listed places as one flat envelope. Count: its bytes.
pub fn envelope_write(bytes: &[u8], list: &[u8], out: &mut [u8]) -> u64 {
    unsafe {
        declared::envelope_write(
            bytes.as_ptr(),
            bytes.len(),
            list.as_ptr(),
            list.len(),
            out.as_mut_ptr(),
            out.len(),
        )
    }
}

/// A fresh list for the plain engine.
pub fn plain_fresh(list: &mut [u8], n: u64, d: u64, own: u64) -> u64 {
    unsafe { declared::plain_fresh(list.as_mut_ptr(), list.len(), n, d, own) }
}

/// One message to the plain engine.
pub fn plain_step(list: &mut [u8], message: &[u8], out: &mut [u8]) -> u64 {
    unsafe {
        declared::plain_step(
            list.as_mut_ptr(),
            list.len(),
            message.as_ptr(),
            message.len(),
            out.as_mut_ptr(),
            out.len(),
        )
    }
}

/// One tick of the plain engine's clock.
pub fn plain_tick(list: &mut [u8], out: &mut [u8]) -> u64 {
    unsafe { declared::plain_tick(list.as_mut_ptr(), list.len(), out.as_mut_ptr(), out.len()) }
}

/// The offer of a block name to the plain engine.
pub fn plain_offer(list: &mut [u8], name: &[u8], out: &mut [u8]) -> u64 {
    unsafe {
        declared::plain_offer(
            list.as_mut_ptr(),
            list.len(),
            name.as_ptr(),
            name.len(),
            out.as_mut_ptr(),
            out.len(),
        )
    }
}

/// The names of the plain engine's log, which leaves the list as it is.
pub fn plain_log(list: &[u8], out: &mut [u8]) -> u64 {
    unsafe { declared::plain_log(list.as_ptr(), list.len(), out.as_mut_ptr(), out.len()) }
}
