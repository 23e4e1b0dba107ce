//! What a host may read from a store: docs/STORE.md has the layout. Nothing here writes one.

use crate::message::Name;
use crate::size::Size;

/// "A station is in a view, waiting after a quit, or stopped with a cause."
#[derive(Clone, Copy, Debug, PartialEq, Eq, Hash)]
pub enum Phase {
    InView,
    /// It quit its view at this clock and has not entered the next.
    Waiting {
        quit: u32,
    },
    Stopped(Cause),
}

/// What stopped a station for good.
#[derive(Clone, Copy, Debug, PartialEq, Eq, Hash)]
pub enum Cause {
    Full,
    Split,
    Clock,
}

/// The certified block that a station has locked on: a new-view of lower rank gets no vote.
#[derive(Clone, Copy, Debug, PartialEq, Eq, Hash)]
pub struct Lock {
    pub view: u32,
    pub height: u32,
    pub name: Name,
}

/// A number of a store: where it is, and its width in bytes.
#[derive(Clone, Copy)]
pub(crate) struct Field(usize, usize);

pub(crate) const PHASE: Field = Field(0, 4);
pub(crate) const STATIONS: Field = Field(4, 1);
pub(crate) const DELAY: Field = Field(5, 2);
pub(crate) const OWN: Field = Field(7, 1);
pub(crate) const VIEW: Field = Field(8, 4);
pub(crate) const ENTRY: Field = Field(12, 4);
pub(crate) const CLOCK: Field = Field(16, 4);
pub(crate) const LOCK_VIEW: Field = Field(20, 4);
pub(crate) const LOCK_HEIGHT: Field = Field(24, 4);
pub(crate) const LOCK_NAME: usize = 28;
pub(crate) const STATEMENT_COUNT: Field = Field(62, 2);
pub(crate) const TALLY_COUNT: Field = Field(64, 2);
pub(crate) const LOG_COUNT: Field = Field(66, 2);

pub(crate) fn number(store: &[u8], Field(at, width): Field) -> u32 {
    store[at..at + width].iter().fold(0, |number, &byte| number << 8 | u32::from(byte))
}

/// 0 in a view; 1, 2, 3 stopped: full, split, clock; from 4 on waiting, with the quit clock.
pub(crate) fn phase(store: &[u8]) -> Phase {
    match number(store, PHASE) {
        0 => Phase::InView,
        1 => Phase::Stopped(Cause::Full),
        2 => Phase::Stopped(Cause::Split),
        3 => Phase::Stopped(Cause::Clock),
        waiting => Phase::Waiting { quit: waiting - 4 },
    }
}

pub(crate) fn lock(store: &[u8]) -> Lock {
    let mut name = [0; 32];
    name.copy_from_slice(&store[LOCK_NAME..LOCK_NAME + 32]);
    Lock { view: number(store, LOCK_VIEW), height: number(store, LOCK_HEIGHT), name }
}

/// The committed names, from height 1 on.
pub(crate) fn log(size: Size, store: &[u8]) -> &[Name] {
    let (names, _) = store[size.log_at()..].as_chunks();
    &names[..number(store, LOG_COUNT) as usize]
}
