//! What can go wrong with a station that keeps a journal.

use crate::journal::Report;
use crate::refusal::Refusal;
use std::{error, fmt, io};

/// Why nothing was let out.
#[derive(Debug)]
pub enum Failure {
    /// The station or the journal refused. Of 6, 7 and 8 the record is in the journal; all else has
    /// changed nothing.
    Refused(Refusal),
    /// Replay stopped with 13 where the report ends. Nothing is written to such a journal.
    Damaged(Report),
    /// This slot is not blank, though one before it is. Nothing is written to such a journal: what
    /// stands there would follow what is written.
    Stray { place: u32 },
    /// The file could not be read or written. After a failed write nobody knows what is on the disk:
    /// the journal takes no more, and is to be opened again.
    Disk(io::Error),
}

impl Failure {
    /// The number of the refusal, if it is one.
    pub fn number(&self) -> Option<u32> {
        match self {
            Failure::Refused(refusal) => Some(refusal.number()),
            Failure::Damaged(_) => Some(Refusal::Journal.number()),
            Failure::Stray { .. } | Failure::Disk(_) => None,
        }
    }
}

impl fmt::Display for Failure {
    fn fmt(&self, f: &mut fmt::Formatter<'_>) -> fmt::Result {
        match self {
            Failure::Refused(refusal) => refusal.fmt(f),
            Failure::Damaged(Report { records, end, .. }) => write!(
                f,
                "refusal 13: the journal can't be read on at slot {end}, after {records} records; \
                 keep it, write nothing to it, and count the station among the f faulty"
            ),
            Failure::Stray { place } => write!(
                f,
                "slot {place} of the journal is not blank, though one before it is; keep it, \
                 write nothing to it, and count the station among the f faulty"
            ),
            Failure::Disk(error) => write!(f, "the journal's file: {error}"),
        }
    }
}

impl error::Error for Failure {
    fn source(&self) -> Option<&(dyn error::Error + 'static)> {
        match self {
            Failure::Refused(refusal) => Some(refusal),
            Failure::Disk(error) => Some(error),
            Failure::Damaged(_) | Failure::Stray { .. } => None,
        }
    }
}

impl From<Refusal> for Failure {
    fn from(refusal: Refusal) -> Failure {
        Failure::Refused(refusal)
    }
}

impl From<io::Error> for Failure {
    fn from(error: io::Error) -> Failure {
        Failure::Disk(error)
    }
}

/// For hosts whose functions answer `io::Result`.
impl From<Failure> for io::Error {
    fn from(failure: Failure) -> io::Error {
        match failure {
            Failure::Disk(error) => error,
            other => io::Error::other(other),
        }
    }
}
