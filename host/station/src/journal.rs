//! A journal in a file: every input that counted, so that a station outlives a power cut.

use crate::failure::Failure;
use crate::ffi;
use crate::refusal::{Refusal, answer};
use crate::slot::{Input, SLOT};
use crate::station::Station;
use std::fs::{File, OpenOptions, TryLockError};
use std::io::{Read, Seek, SeekFrom, Write};
use std::path::Path;
use std::{fmt, io};

/// What a replay found.
#[derive(Clone, Debug, Default, PartialEq, Eq)]
pub struct Report {
    /// How many whole records were handed to the station.
    pub records: u32,
    /// Where reading ended: the first blank slot, the number of slots if none is blank, or the slot
    /// that stopped it.
    pub end: u32,
    /// The torn slots before that, by place.
    pub torn: Vec<u32>,
}

impl Report {
    /// The bytes of a report of so many slots.
    pub const fn length(slots: usize) -> usize {
        12 + 4 * slots
    }

    /// The report that a replay wrote.
    pub fn read(bytes: &[u8]) -> Report {
        let mut numbers = bytes.as_chunks().0.iter().map(|four| u32::from_be_bytes(*four));
        let mut next = || numbers.next().unwrap_or(0);
        let (records, end, torn) = (next(), next(), next());
        Report { records, end, torn: numbers.take(torn as usize).collect() }
    }
}

/// The end of a journal's file, where records are written: one after another, each on the disk before
/// [`Journal::append`] is done. A file is open in one journal at a time.
///
/// [`Kept`](crate::Kept) is a station together with its journal; a journal by itself is for hosts that
/// order their writes otherwise.
#[derive(Debug)]
pub struct Journal {
    disk: Box<dyn Disk>,
    /// How many slots the file has.
    slots: u32,
    /// The first blank one.
    next: u32,
    /// The whole records before it: "Sequence numbers count whole records from 0."
    records: u32,
    /// A write has failed.
    is_broken: bool,
}

impl Journal {
    /// A new journal of so many blank slots. A file that is there already is left as it is, with an
    /// error: a station that forgets what it said may say something else.
    pub fn create(path: &Path, slots: u32) -> Result<Journal, Failure> {
        let file = OpenOptions::new().read(true).write(true).create_new(true).open(path)?;
        lock(&file)?;
        let disk = Box::new(file);
        let mut journal = Journal { disk, slots: 0, next: 0, records: 0, is_broken: false };
        journal.lengthen(slots)?;
        // The file's name is on the disk too, before anything is said.
        let directory = path.parent().filter(|directory| !directory.as_os_str().is_empty());
        File::open(directory.unwrap_or(Path::new(".")))?.sync_all()?;
        Ok(journal)
    }

    /// The journal of a file, all of whose records were handed to the station: a fresh one with the
    /// settings that they were written with, since a journal tells none. Torn slots are passed over and
    /// listed; writing goes on in the first blank one.
    pub fn open(path: &Path, station: &mut Station) -> Result<(Journal, Report), Failure> {
        let mut file = OpenOptions::new().read(true).write(true).open(path)?;
        lock(&file)?;
        let mut bytes = Vec::new();
        file.read_to_end(&mut bytes)?;
        let report = station.replay(&bytes)?;
        let (slots, _) = bytes.as_chunks::<SLOT>();
        let behind = slots.iter().skip(report.end as usize);
        if let Some(stray) = behind.clone().position(|slot| *slot != [0; SLOT]) {
            return Err(Failure::Stray { place: report.end + stray as u32 });
        }
        // Fewer than 2^32: a replay answers 1 to more.
        let slots = slots.len() as u32;
        let Report { records, end: next, .. } = report;
        let disk = Box::new(file);
        Ok((Journal { disk, slots, next, records, is_broken: false }, report))
    }

    /// Writes one record into the first blank slot, its bytes in order, and has the disk take it. When
    /// this is done, what the station said to the input may go out, and not before. Gives back the
    /// slot's place. Refusal: 13, and nothing is written, if no slot is left or it is no input.
    pub fn append(&mut self, input: Input<'_>) -> Result<u32, Failure> {
        self.usable()?;
        if self.next == self.slots {
            return Err(Refusal::Journal.into());
        }
        let mut slot = [0; SLOT];
        let (sequence, kind) = (self.records.into(), input.kind().into());
        answer(ffi::journal_put(&mut slot, sequence, kind, input.bytes()))?;
        self.unbroken(|journal| journal.disk.store(at(journal.next), &slot))?;
        let place = self.next;
        self.next += 1;
        self.records += 1;
        Ok(place)
    }

    /// Adds blank slots at the end. Refusal: 1, if they would be 2^32 or more.
    pub fn lengthen(&mut self, slots: u32) -> Result<(), Failure> {
        self.usable()?;
        let slots = self.slots.checked_add(slots).ok_or(Refusal::Length)?;
        self.unbroken(|journal| journal.disk.lengthen(at(journal.slots), at(slots)))?;
        self.slots = slots;
        Ok(())
    }

    /// How many slots it has.
    pub fn slots(&self) -> u32 {
        self.slots
    }

    /// The place of the first blank one, into which the next record goes.
    pub fn next(&self) -> u32 {
        self.next
    }

    /// How many of them are blank.
    pub fn room(&self) -> u32 {
        self.slots - self.next
    }

    /// How many whole records it has, which is the next one's sequence number.
    pub fn records(&self) -> u32 {
        self.records
    }

    fn usable(&self) -> io::Result<()> {
        match self.is_broken {
            true => Err(io::Error::other("an earlier write failed: open the journal again")),
            false => Ok(()),
        }
    }

    /// Has another disk written from now on.
    #[cfg(test)]
    pub(crate) fn put_in_place(&mut self, disk: Box<dyn Disk>) {
        self.disk = disk;
    }

    /// A write, after whose failure there is no other.
    fn unbroken(&mut self, write: impl FnOnce(&mut Journal) -> io::Result<()>) -> io::Result<()> {
        self.is_broken = true;
        write(self)?;
        self.is_broken = false;
        Ok(())
    }
}

/// What a journal is written to.
pub(crate) trait Disk: fmt::Debug + Send + Sync {
    /// Stores bytes in order, from this place on. When it is done, they are there for good.
    fn store(&mut self, at: u64, bytes: &[u8]) -> io::Result<()>;

    /// Goes on with zeros from one length to the next.
    fn lengthen(&mut self, from: u64, to: u64) -> io::Result<()>;
}

impl Disk for File {
    fn store(&mut self, at: u64, bytes: &[u8]) -> io::Result<()> {
        self.seek(SeekFrom::Start(at))?;
        self.write_all(bytes)?;
        self.sync_data()
    }

    fn lengthen(&mut self, from: u64, to: u64) -> io::Result<()> {
        // What is less than a slot at the end is none, and goes: new slots start zeroed.
        self.set_len(from)?;
        self.set_len(to)?;
        self.sync_all()
    }
}

/// Where a slot begins in the file.
fn at(place: u32) -> u64 {
    u64::from(place) * SLOT as u64
}

/// Keeps every other journal from the file, until it is closed.
fn lock(file: &File) -> io::Result<()> {
    file.try_lock().map_err(|error| match error {
        TryLockError::WouldBlock => {
            io::Error::new(io::ErrorKind::ResourceBusy, "another has this journal open")
        }
        TryLockError::Error(error) => error,
    })
}
