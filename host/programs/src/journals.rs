//! The journal's calls of both programs.

use crate::{Program, Proved, Second};
use station::{Station, ffi};

/// The journal's calls, each answering refusal * 2^32 + count.
pub trait Journals: Program {
    fn put(slot: &mut [u8], sequence: u64, kind: u64, input: &[u8]) -> u64;
    fn write(journal: &mut [u8], kind: u64, input: &[u8]) -> u64;
    fn replay(&mut self, journal: &[u8], out: &mut [u8], report: &mut [u8]) -> u64;
}

impl Journals for Proved {
    fn put(slot: &mut [u8], sequence: u64, kind: u64, input: &[u8]) -> u64 {
        ffi::journal_put(slot, sequence, kind, input)
    }

    fn write(journal: &mut [u8], kind: u64, input: &[u8]) -> u64 {
        ffi::journal_write(journal, kind, input)
    }

    fn replay(&mut self, journal: &[u8], out: &mut [u8], report: &mut [u8]) -> u64 {
        let mut store = self.station().store().to_vec();
        let answer = ffi::journal_replay(journal, &mut store, out, report);
        self.take_up(Station::from_store(&store).expect("a well-formed store stays so"));
        answer
    }
}

impl Journals for Second {
    fn put(slot: &mut [u8], sequence: u64, kind: u64, input: &[u8]) -> u64 {
        second::journal::put(slot, sequence, kind, input)
    }

    fn write(journal: &mut [u8], kind: u64, input: &[u8]) -> u64 {
        second::journal::write(journal, kind, input)
    }

    fn replay(&mut self, journal: &[u8], out: &mut [u8], report: &mut [u8]) -> u64 {
        second::journal::replay(journal, self.station_mut(), out, report)
    }
}
